"""Tests of workbench/coverage, over the built program."""
import sys
import unittest
from pathlib import Path

sys.dont_write_bytecode = True
sys.path[:0] = [str(Path(__file__).resolve().parent)]

from running import Run, coverage

SOURCE = """u32 g;
static void never(void) { g = 5; }
void irq(void) { g = 3; writel(0, 1); }
u32 f(u32 n) {
	u32 i, sum = 0;
	for (i = 0; i < n; i += 1) {
		if (i == 7)
			return 7;
		sum += i;
	}
	if (sum) g = 1; else g = 2;
	return sum;
}
void start(void) { s32 e; e = request_irq(irq); }
"""


class TestCoverage(Run):
    def cover(self, script, *words, name='a.script'):
        (self.room / 'd.c').write_text(SOURCE)
        (self.room / name).write_text(script)
        return self.run_tool(coverage.main, *words, self.room / 'd.c', self.room / name)

    def test_statements_that_no_run_reached(self):
        status, lines = self.cover('call f 1\n')
        self.assertEqual((status, lines), (0, [
            'd.c:2:13: never: never called, 1 statement', 'd.c:3:6: irq: never called, 2 statements', 'd.c:8:4: f 5: return 7;',
            'd.c:11:11: f 8: if (sum) g = 1; else g = 2;', 'd.c:14:6: start: never called, 2 statements', 'd.c: 8 of 15 statements were reached, in 12 ticks']))

    def test_a_handler_in_idle_time_is_reached(self):
        _, lines = self.cover('on tick 100 do raise\non write 1 do lower\ncall start\nidle 300\n')
        self.assertNotIn('irq', ' '.join(lines))

    def test_cases_of_tests_are_scripts(self):
        _, lines = self.cover('driver d.c\ncase one\ncall f 2\ncase two\ncall f 0\n', name='a.mdt')
        self.assertEqual([it for it in lines if ': f ' in it], ['d.c:8:4: f 5: return 7;'])

    def test_a_listing_has_the_whole_source(self):
        _, lines = self.cover('call f 1\n', '--listing')
        self.assertEqual(len(lines), len(SOURCE.splitlines()) + 1)
        self.assertEqual((lines[0], lines[7], lines[8]), ('       -     1 | u32 g;', '   #####     8 | \t\t\treturn 7;', '       1     9 | \t\tsum += i;'))


if __name__ == '__main__':
    unittest.main()
