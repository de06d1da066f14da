"""Marks: what each saves in a run, counted by hand, and why functions stay in the kernel half."""
import functools
import os
import tempfile
import unittest

import tools
import sources
from crossings import costs, loaded, times, total

marks = loaded('workbench', 'marks')

# What examples/uart.script makes of examples/uart.c, message by message, counted by hand from both texts:
#   call uart_open: the call and its return, 2; request_irq, writel(divisor, SPEED) in uart_set_speed, writel(1, CONTROL)
#       and printk, 2 each, 8; uart_write(0), called within the user half: combolock, writel, combounlock, 2 each, 6
#   call uart_write 72: the call and its return, 2; combolock, writel, combounlock, 6
#   call uart_set_speed 100: the call and its return, 2; divisor_of finds nothing, so nothing is written
WITHOUT = (2 + 8 + 6) + (2 + 6) + 2
# With __critical on uart_write:
#   call uart_open: 2 and 8 as before; uart_write(0) is now a call down and its return, 2
#   call uart_write 72: all in the kernel half, 0
#   call uart_set_speed 100: 2 as before
WITH = (2 + 8 + 2) + 0 + 2

WATCHDOG = """static void log_it(void);
struct op { u32 code; void (*run)(void); };
u32 barks; u32 pets;
static void bark(void) { barks += 1; }
static void pet(void) { pets += 1; }
static struct op ops[2] = { {1, bark}, {2, pet} };
static void dog_irq(void) { u32 code; code = readl(0); if (code) ops[0].run(); log_it(); }
static inline __critical s32 dog_level(void) { return 3; }
s32 dog_open(void) { s32 err; err = request_irq(dog_irq); pet(); return err; }
static void log_it(void) { printk("dog\\n"); }
"""


@functools.cache
def serial_port():
    """The marks of the serial port, and what each saves."""
    work = marks.Marks(tools.program(), tools.example('uart.c'), tools.read(tools.example('uart.script')), 1_000_000)
    return work, work.all()


class Marks(unittest.TestCase):
    def test_the_mark_on_uart_write_saves_what_is_counted_by_hand(self):
        work, found = serial_port()
        self.assertEqual((work.whole.messages, WITHOUT), (26, 26))
        found = {it.function: it for it in found}
        self.assertEqual((found['uart_write'].saved.messages, found['uart_write'].along), (WITHOUT - WITH, []))
        self.assertEqual(WITHOUT - WITH, 12)

    def test_it_is_named(self):
        text, status = tools.said(marks, tools.example('uart.c'), tools.example('uart.script'))
        self.assertEqual(status, 0)
        self.assertIn('the one on uart_write saves most: 12 of 26 messages.', text)
        self.assertIn('    uart_irq: root: uart_open registers it by request_irq\n', text)
        self.assertIn('    keep: called by uart_irq\n', text)

    def test_the_largest_comes_first_and_tells_what_goes_along(self):
        _, found = serial_port()
        self.assertEqual(found[0].function, 'uart_open')
        self.assertEqual(found[0].saved.messages, WITHOUT)
        self.assertEqual(set(found[0].along), {'uart_write', 'uart_set_speed', 'divisor_of'})
        self.assertEqual([it.saved.messages for it in found], sorted((it.saved.messages for it in found), reverse=True))

    def test_what_functions_cost_adds_up(self):
        transcript = tools.split('probe.c', 'probe.script')
        whole, parts = total(transcript), costs(transcript, ['probe_irq', 'probe_add', 'probe_fill', 'probe_open'])
        for what in ('messages', 'bytes', 'ticks', 'times'):
            self.assertEqual(getattr(whole, what), sum(getattr(it, what) for it in parts.values()))
        self.assertEqual(parts['probe_add'].asked['kzalloc'].messages, 4)

    def test_calls_down_are_counted_by_who_calls_whom(self):
        self.assertEqual(times(tools.split('bump.c', 'open.script'), ['bump', 'open']), {('', 'open'): 1, ('open', 'bump'): 2})

    def test_reasons_by_root_by_call_and_by_pointer(self):
        with tempfile.TemporaryDirectory() as folder:
            name = os.path.join(folder, 'dog.c')
            with open(name, 'w', encoding='utf-8') as file:
                file.write(WATCHDOG)
            report = tools.crossings.report_of(tools.program(), name)
        found = dict(sources.reasons(sources.Source(WATCHDOG.encode()), report))
        self.assertEqual(found, {
            'bark': ['may be called by dog_irq through a pointer of its type (run)'],
            'pet': ['may be called by dog_irq through a pointer of its type (run)'],
            'dog_irq': ['root: dog_open registers it by request_irq'],
            'dog_level': ['root: it is marked __critical'],
            'log_it': ['called by dog_irq'],
        })

    def test_a_mark_stands_behind_what_stands_before_a_type(self):
        source = sources.Source(b'u32 x; static inline struct s *f(void) { return 0; }\nvoid g(void) { }\n')
        self.assertEqual(source.marked('f'), b'u32 x; static inline __critical struct s *f(void) { return 0; }\nvoid g(void) { }\n')
        self.assertEqual(source.marked('g'), b'u32 x; static inline struct s *f(void) { return 0; }\n__critical void g(void) { }\n')

    def test_what_is_refused_is_told(self):
        self.assertEqual(tools.said(marks, tools.example('uart.c'), tools.example('nic.script')), ('', 2))
        self.assertEqual(tools.said(marks, tools.example('uart.c')), ('', 1))


if __name__ == '__main__':
    unittest.main()
