"""Charts: what crosses, in names; the table; the picture; the graph."""
import functools
import os
import tempfile
import unittest
import xml.dom.minidom

import tools
import crossings
from crossings import loaded, report_of
from layout import Type
from messages import Value, View
from naming import Naming

chart = loaded('workbench', 'chart')


@functools.cache
def naming(source):
    """The names of a driver of examples/."""
    name = tools.example(source)
    return Naming(tools.read(name).encode(), report_of(tools.program(), name))


class Names(unittest.TestCase):
    def test_cells_have_the_names_of_globals_and_fields(self):
        names = naming('uart.c')
        self.assertEqual([names.cell(0, it) for it in (0, 2, 4, 5, 20, 21)],
                         ['port.lock', 'port.speed', 'port.received.count', 'port.received.bytes[0]', 'port.received.bytes[15]', 'port.counts.sent'])
        self.assertEqual([names.cell(1, it) for it in (3, 6)], ['speeds[1].divisor', 'speeds+6'])
        self.assertEqual(list(names.cells(0, 4, 4)), [('port.received.count', 1), ('port.received.bytes[0..2]', 3)])

    def test_visible_cells_are_named_by_their_largest_parts(self):
        names = naming('uart.c')
        port, speeds = names.names.globals['port'], names.names.globals['speeds']
        self.assertEqual(list(names.parts(port, 'port', 0, 25)), ['port'])
        self.assertEqual(list(names.parts(port, 'port', 4, 9)), ['port.received.count', 'port.received.bytes[0..3]'])
        self.assertEqual(list(names.parts(port, 'port', 21, 25)), ['port.counts'])
        self.assertEqual(list(names.parts(speeds, 'speeds', 1, 6)), ['speeds[0].divisor', 'speeds[1..2]'])
        self.assertEqual(list(names.parts(speeds, 'speeds', 0, 3)), ['speeds[0]', 'speeds[1].rate'])
        self.assertEqual(list(names.parts(speeds, 'speeds', 3, 4)), ['speeds[1].divisor'])
        self.assertEqual(list(names.parts(Type(array=Type(), length=9), 'b', 2, 7)), ['b[2..6]'])

    def test_pointers_lead_to_elements(self):
        names = naming('uart.c')
        speed = next(number for number, text in names.types.items() if text == 'struct speed')
        self.assertEqual([names.value(Value(9, View(1, 0, speed, 3, it))) for it in (0, 2, 3)], ['&speeds[0]', '&speeds[2]', '&speeds+6'])
        self.assertEqual([names.value(it) for it in (Value(8), Value(10), Value(12), Value(11, 1), Value(6, -22))], ['null', 'dead', 'none', '&uart_irq', '-22'])

    def test_keys_have_names(self):
        names = naming('nic.c')
        self.assertEqual([names.key(it) for it in names.report.keys[names.functions.index('nic_probe')]], ['struct buf.len', 'struct card.ring'])
        self.assertEqual(naming('bump.c').key('global 0'), 'count')


class Charts(unittest.TestCase):
    def test_a_run_is_told_message_by_message(self):
        text, status = tools.said(chart, tools.example('uart.c'), tools.example('uart.script'))
        lines = text.split('\n')
        self.assertEqual((status, lines[0]), (0, 'uart.c over uart.script: 26 messages, end ok'))
        for line in ('   1 |-- call uart_open() --------------------------------------------->| 88 bytes',
                     '     |   sees port.state, port.speed, port.counts.sent, speeds[0..2]    |',
                     '   2 |<-- request_irq(&uart_irq) ---------------------------------------| 48 bytes, 2 ticks, uart_open line 89',
                     '   4 |<-- writel(12, 3) ------------------------------------------------| 80 bytes, 12 ticks, uart_set_speed line 84',
                     '     |   tells port.speed = 9600                                        |',
                     '   8 |<-- printk("uart: open at 9600\\n") -------------------------------| 60 bytes, 1 tick, uart_open line 95',
                     '  26 |<-- return -22 ---------------------------------------------------| 24 bytes, 14 ticks',
                     'all                                 3        26      1188        47'):
            self.assertIn(line, lines)

    def test_births_deaths_and_stops_are_told(self):
        text, _ = tools.said(chart, tools.example('probe.c'), tools.example('probe.script'))
        for part in ('|-- answer &page#2 ---', '|   new: page#2 (struct page x1) ', '|   dead: page#2 ', '|<-- kcalloc(u8 x3) ---', '|<-- stop Null ---', 'probe_fill line 20\n'):
            self.assertIn(part, text)

    def test_calls_down_go_the_other_way(self):
        text, _ = tools.said(chart, tools.example('bump.c'), tools.example('open.script'))
        self.assertIn('|<-- call bump() ---', text)
        self.assertIn('|-- return none ---', text)
        self.assertIn('          bump            2         4       216         2\n', text)

    def test_a_transcript_that_was_kept_is_shown_alike(self):
        words = ['run', 'split', tools.example('bump.c'), tools.example('open.script'), '--wire']
        with tempfile.TemporaryDirectory() as folder:
            name = os.path.join(folder, 'kept')
            with open(name, 'w', encoding='utf-8') as file:
                file.write(crossings.output(tools.program(), words)[0])
            kept, status = tools.said(chart, tools.example('bump.c'), '--wire', name)
        text, _ = tools.said(chart, tools.example('bump.c'), tools.example('open.script'))
        self.assertEqual((kept.split('\n')[1:], status), (text.split('\n')[1:], 0))

    def test_the_picture_is_well_formed_and_has_each_message(self):
        with tempfile.TemporaryDirectory() as folder:
            name = os.path.join(folder, 'uart.svg')
            self.assertEqual(tools.said(chart, tools.example('uart.c'), tools.example('uart.script'), '--svg', name)[1], 0)
            picture = xml.dom.minidom.parse(name)
        arrows = [it for it in picture.getElementsByTagName('line') if it.getAttribute('marker-end')]
        self.assertEqual([it.getAttribute('class') for it in arrows[:3]], ['Call', 'Ask', 'Answer'])
        self.assertEqual(len(arrows), 26)

    def test_the_graph_has_names_and_counts(self):
        text, _ = tools.said(chart, '--graph', tools.example('bump.c'), tools.example('open.script'))
        self.assertIn('"open" [label="open\\ncount\\nupcalls 1, messages 8"];', text)
        self.assertIn('"open" -> "bump" [style=dashed, color=red, label="2"];', text)
        text, _ = tools.said(chart, '--graph', tools.example('nic.c'))
        self.assertIn('"nic_open" [label="nic_open\\nstruct card.state"];', text)
        self.assertIn('"nic_ioctl" -> "op_reset" [style=dotted];', text)

    def test_a_call_back_is_a_call_whose_caller_no_message_tells(self):
        text, _ = tools.said(chart, tools.example('adc.c'), tools.example('adc.script'))
        for part in ('|-- call take_limited(1500) ---', '|<-- call adc_drop() ---', '|-- return none ---'):
            self.assertIn(part, text)
        text, _ = tools.said(chart, '--graph', tools.example('adc.c'), tools.example('adc.script'))
        self.assertIn('"adc_poll" -> "take_limited" [style=dashed, color=red];', text)
        self.assertIn('"take_limited" -> "adc_drop" [style=dashed, color=red, label="1"];', text)

    def test_what_is_refused_is_told(self):
        self.assertEqual(tools.said(chart, tools.example('uart.c')), ('', 1))
        self.assertEqual(tools.said(chart, '--graph', tools.example('uart.script')), ('', 2))


if __name__ == '__main__':
    unittest.main()
