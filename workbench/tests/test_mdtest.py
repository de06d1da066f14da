"""Tests of workbench/mdtest and of the modules below it, over the built program."""
import shutil
import sys
import unittest
import xml.etree.ElementTree as xml
from pathlib import Path

sys.dont_write_bytecode = True
sys.path[:0] = [str(Path(__file__).resolve().parent)]

import planted
from running import EXAMPLES, Run, mdtest
from built import Refused
from layout import Names
from mdt import WORD, Tests

DRIVERS = ('keyboard', 'temperature', 'flash', 'watchdog', 'block')
SOURCE = b"""#define LOW -3 /* not #define LOW 4 */
#define MASK 0x10
enum { FIRST, THIRD = 2, FOURTH };
struct inner { u8 a; u16 b[2]; s32 (*run)(u32 a, u32 b); };
struct outer { struct inner many[FOURTH]; struct outer *next __opaque; u32 x, *y __array(x); };
static const u32 table[THIRD] = {1, 2};
struct outer one = { .x = 1 };
struct outer *at __array(2) = &one;
void (*hook)(u32 n);
u32 f(struct outer *o __array(3)) { u32 local = 1; return local; }
"""
COUNTS = """u32 n;
void up(void) { u32 old = n; n = old + 1; }
void irq(void) { n += 1; writel(0, 1); }
void f(void) { s32 e; e = request_irq(irq); up(); }
"""
OBJECTS = {1: ('u32', 2, ['1', '2']), 2: ('struct outer', 1, [*map(str, range(12)), '@2+0', '13', '@1+1']), 3: ('struct outer *', 1, ['@2+0'])}


class TestNames(unittest.TestCase):
    def setUp(self):
        self.names = Names(SOURCE)

    def test_numbers_of_a_source(self):
        for word, value in (('LOW', -3), ('-LOW', 3), ('MASK', 16), ('FIRST', 0), ('FOURTH', 3), ('MASK|FOURTH', 19), ('0x1f', 31), ("'a'", 97), ('-5', -5), ('none', None), ('&one', None)):
            self.assertEqual(self.names.number(word), value, word)

    def test_globals_come_in_their_order(self):
        self.assertEqual(list(self.names.globals), ['table', 'one', 'at', 'hook'])
        self.assertEqual([self.names.size(it) for it in self.names.globals.values()], [2, 15, 1, 1])

    def test_cells_have_names(self):
        for path, cell in (('table[1]', '2'), ('one.many[0].a', '0'), ('one.many[1].b[1]', '6'), ('one.many[THIRD].run', '11'), ('one.next->x', '13'),
                           ('at->many[1].a', '4'), ('at[0].many[1].a', '4'), ('one.y[0]', '2')):
            self.assertEqual(self.names.cells(path, OBJECTS)[0], cell, path)

    def test_names_of_no_cell_are_refused(self):
        for path in ('none', 'one.none', 'table[2]', 'table.a', 'one..x', 'hook->a'):
            with self.assertRaises((Refused, KeyError), msg=path):
                self.names.cells(path, OBJECTS)


class TestForm(Run):
    def read(self, text):
        """Tests of examples/uart.c that are read and not run."""
        shutil.copy(EXAMPLES / 'uart.c', self.room)
        (self.room / 'a.mdt').write_text(text)
        return Tests(str(self.room / 'a.mdt'))

    def test_a_line_that_is_none_is_refused_with_its_number(self):
        for line, why in (('cal f', 'cal begins no line'), ('expect ret 0', 'nothing is expected before the first command'), ('case', 'a case has a name'),
                          ('call uart_open\nexpect W SPEED', 'an event is'), ('call uart_open\nexpect prt.state 1', 'no global prt.state'),
                          ('call uart_open\nexpect stop Null\ncall uart_open', 'behind the stop'), ('now', 'now EFFECT'), ('setup', 'setup stands alone')):
            status, lines = self.mdtest(f'driver uart.c\ncase first\n{line}\n')
            self.assertEqual(status, 2)
            self.assertRegex(lines[-1], f'Bail out! a.mdt:[0-9]+: {why}')

    def test_a_script_that_the_program_refuses_is_told(self):
        status, lines = self.mdtest('driver uart.c\ncase first\ncall uart_opn\n')
        self.assertEqual((status, lines[-1]), (2, 'Bail out! uart.c: script refused, NoFunction: call uart_opn'))

    def test_names_become_numbers_and_rules_keep_their_words(self):
        tests = self.read('driver uart.c # so\ncase first\non write DATA if STATUS READY|BROKEN 0 do put DATA 65, raise\ncall uart_write -OPEN\n')
        case = tests.cases[0]
        self.assertEqual(case.script(1, {}), 'on write 0 if 1 3 0 do put 0 65, raise\ncall uart_write -1\n')

    def test_events_are_patterns(self):
        tests = self.read('driver uart.c\ncase first\ncall uart_open\n')
        for words, line, is_it in (('W SPEED 12', 'W 3 12', True), ('W SPEED *', 'W 3 1', True), ('W SPEED 1', 'W 3 12', False), ('R * *', 'W 3 1', False),
                                   ('log "a*z\\n"', 'log a to z\\n', True), ('log "a.z"', 'log abz', False), ('deliver "Az"', 'deliver 417a', True),
                                   ('deliver 41*', 'deliver 417a', True), ('irq uart_irq', 'irq uart_irq', True)):
            self.assertEqual(bool(tests.event(WORD.findall(words)).fullmatch(line)), is_it, words)


class TestCases(Run):
    def test_the_drivers_of_the_examples_pass_in_every_way(self):
        status, lines = self.run_tool(mdtest.main, *(EXAMPLES / f'{it}.mdt' for it in DRIVERS))
        self.assertEqual([it for it in lines if it.startswith('not ok')], [])
        self.assertEqual((status, lines[0], lines[-1]), (0, 'TAP version 13', f'# {len(lines) - 3} passed, 0 failed'))

    def test_what_differs_is_told_with_the_lines_of_the_driver(self):
        status, lines = self.mdtest("""driver uart.c
case it opens
    call uart_open
    expect ret -5
    expect W SPEED 12 then W DATA 1
    expect port.state CLOSED
""", '--ways', 'whole,watched', '--junit', self.room / 'j.xml')
        self.assertEqual((status, lines), (1, [
            'TAP version 13', 'not ok 1 - a.mdt: it opens',
            '# a.mdt:4: expected ret -5, came ret 0', '#     uart.c:97:2: uart_open 11: return err;',
            '# a.mdt:5: expected W SPEED 12 then W DATA 1, came W 3 12; W 2 1; log uart: open at 9600\\n; W 0 0; ret 0', '#     uart.c:84:2: uart_set_speed 5: writel(divisor, SPEED);',
            '# a.mdt:6: expected port.state CLOSED, came port.state 1', '#     uart.c:93:2: uart_open 7: port.state = OPEN;',
            '1..1', '# 0 passed, 1 failed']))
        suite = xml.parse(self.room / 'j.xml').getroot()[0]
        self.assertEqual((suite.get('tests'), suite.get('failures'), suite[0].get('name'), suite[0][0].tag), ('1', '1', 'it opens', 'failure'))

    def test_what_happens_now_happens_then(self):
        status, lines = self.mdtest("""driver uart.c
case now
    now put SPEED 'B', set STATUS READY
    call uart_open
    expect irq uart_irq times 0
    now put DATA 'C', raise
    expect R STATUS READY then R DATA 'C'
""", '--ways', 'split')
        self.assertEqual(status, 0, lines)

    def test_a_case_is_printed_as_a_script(self):
        status, lines = self.mdtest('driver uart.c\ncase first\ncall uart_open\nnow raise\nshow port\n', '--script')
        self.assertEqual((status, lines), (0, ['# first', 'on tick 28 do raise', 'call uart_open', 'idle 1', 'show port', '']))

    def test_a_stop_that_nobody_expects_is_told(self):
        (self.room / 'd.c').write_text('u32 g[2];\nvoid f(u32 n) { g[n] = 1; }\n')
        _, lines = self.mdtest('driver d.c\ncase past the end\ncall f 2\ncall f 0\nexpect g[0] 1\n', driver='d.c')
        self.assertEqual(lines[2:4], ['# a.mdt:2: expected end ok, came stop Bounds at f 1', '#     d.c:2:17: f 1: void f(u32 n) { g[n] = 1; }'])

    def test_a_stop_may_be_one_of_user_code_alone(self):
        (self.room / 'd.c').write_text('u8 *p;\nvoid make(void) { p = kcalloc(2, u8); }\nu8 f(void) { return p[1]; }\n')
        tests = 'driver d.c\ncase one element\ncall make\ncall f\nexpect ret 0 in whole\nexpect stop Annotation at f 1 in watched and split\n'
        status, lines = self.mdtest(tests, driver='d.c')
        self.assertEqual(status, 0, lines)

    def test_a_leak_fails_unless_it_is_expected(self):
        (self.room / 'd.c').write_text('void f(void) { u32 *p = kzalloc(u32); }\n')
        status, lines = self.mdtest('driver d.c\ncase one\ncall f\ncase two\ncall f\nexpect leaked 1\n', '--ways', 'whole', driver='d.c')
        self.assertEqual((status, lines[1:4]), (1, ['not ok 1 - a.mdt: one', '# a.mdt:2: expected leaked 0, came 1 block leaked', 'ok 2 - a.mdt: two']))

    def test_a_call_back_under_a_lock_stops_in_halves_alone(self):
        planted.plant(self.room, EXAMPLES, planted.HELD)
        status, lines = self.mdtest(planted.HELD_TEST, driver='adc.c')
        self.assertEqual((status, lines[1]), (1, 'not ok 1 - a.mdt: values are summed up'))
        self.assertIn('# a.mdt:5: expected end ok, came stop Atomic at adc_poll 9 (watched, split)', lines)

    def test_a_call_back_behind_it_stops_nowhere(self):
        status, lines = self.mdtest(planted.HELD_TEST, driver='adc.c')
        self.assertEqual((status, lines[1]), (0, 'ok 1 - a.mdt: values are summed up'))


class TestSweeps(Run):
    def test_a_sweep_finds_the_race(self):
        planted.plant(self.room, EXAMPLES, planted.RACE)
        status, lines = self.mdtest(planted.RACE_TEST, '--sweep', '--ways', 'whole', driver='block.c')
        self.assertEqual((status, lines[1]), (1, 'ok 1 - a.mdt: it goes while a request is done'))
        self.assertEqual(lines[2], 'not ok 2 - a.mdt: it goes while a request is done: each tick')
        self.assertTrue(any(it.startswith('# stop Dead at blk_irq 3: ') for it in lines), lines)

    def test_a_sweep_finds_none_in_the_driver_as_it_is(self):
        status, lines = self.mdtest(planted.RACE_TEST, '--sweep', '--ways', 'whole', driver='block.c')
        self.assertEqual(status, 0, lines)

    def test_each_refused_allocation_finds_the_leak(self):
        planted.plant(self.room, EXAMPLES, planted.LEAK)
        status, lines = self.mdtest(planted.LEAK_TEST, '--fail-each', '--ways', 'whole', driver='temperature.c')
        self.assertEqual((status, lines[3:6]), (1, [
            '# end ok, 1 block leaked: 1 of 2 allocations, the first is 2', '#     refused in temperature.c:150:2: lm75_probe 9: s->samples = kcalloc(size, s32);',
            '# 1 of 2 allocations end as they should']))

    def test_each_refused_allocation_finds_none_in_the_driver_as_it_is(self):
        status, lines = self.mdtest(planted.LEAK_TEST, '--fail-each', '--ways', 'whole', driver='temperature.c')
        self.assertEqual((status, lines[3]), (0, '# 2 of 2 allocations end as they should'))

    def test_what_is_always_expected_is_asked_at_each_tick(self):
        (self.room / 'd.c').write_text(COUNTS)
        _, lines = self.mdtest('driver d.c\nsetup\non write 1 do lower\ncase a count\ncall f\nalways n 1\n', '--sweep', '--ways', 'whole', driver='d.c')
        # (the interrupt behind the first statement of up is lost)
        self.assertEqual(lines[1:6], [
            'ok 1 - a.mdt: a count', 'not ok 2 - a.mdt: a count: each tick', '# end ok, line 6: always n 1, came n 2: 5 of 6 ticks, the first is 1',
            '#     raised before d.c:4:23: f 2: void f(void) { s32 e; e = request_irq(irq); up(); }', '# 1 of 6 ticks end as they should'])


if __name__ == '__main__':
    unittest.main()
