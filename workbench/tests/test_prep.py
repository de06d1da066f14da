"""prep: names of Linux, macros, calculated constants, and lines that stay where they are."""
import os
import shutil
import subprocess
import tempfile
import unittest

import tools
import constants
from crossings import loaded, output

prep = loaded('workbench', 'prep')

DRIVER = """// A watchdog.
#include <linux/io.h>
#include "wdt.h"
/* registers
 * and bits */
#define WDT_CTL\t\t0x08
#define CTL_INT\t\tBIT(0)
#define WDT_MASK\t(CTL_INT | (1 << 1))
#ifdef CONFIG_LOUD
#define say(...) pr_err(__VA_ARGS__)
#else
#define say(...) pr_info(__VA_ARGS__)
#endif
enum wdt_state { OFF, ON = BIT(1), BOTH = ON | 1 };
struct wdt {
\tvoid __iomem *base;
\tstruct mutex lock;\t/* guards state */
\tenum wdt_state state;
\tunsigned long long total;
\tu8 ring[WDT_CTL * 2];
\tbool up;
};
static struct wdt *wdt;
static irqreturn_t wdt_irq(int irq, void *dev_id)
{
\tu32 stat = readl(wdt->base + WDT_CTL);
\tif (!(stat & WDT_MASK))
\t\treturn IRQ_NONE;
\twdt->total++;
\twritel(~WDT_MASK & 0xff, wdt->base + WDT_CTL);
\treturn IRQ_HANDLED;
}
int wdt_probe(void)
{
\tint err, i; // two
\twdt = kzalloc(sizeof(*wdt), GFP_KERNEL);
\tif (!wdt)
\t\treturn -ENOMEM;
\tfor (i = 0; i < WDT_CTL; ++i)
\t\twdt->ring[i] = LIMIT;
\terr = request_irq(5, wdt_irq, IRQF_SHARED,
\t\t\t  "wdt", wdt);
\tif (err) {
\t\tsay("wdt: no irq %02x "
\t\t    "left\\n", err);
\t\treturn err;
\t}
\tmutex_lock(&wdt->lock);
\twdt->state = BOTH | (1 << 3);
\twdt->up = true;
\tmutex_unlock(&wdt->lock);
\treturn 0;
}
module_init(wdt_probe);
MODULE_LICENSE("GPL");
"""
HEADER = """#ifndef WDT_H
#define WDT_H
#define LIMIT (3 * 4)
struct limits { u32 least;
\tu32 most; };
#endif
"""


def made(text, header=HEADER, flags=()):
    """The lines that prep makes of a source."""
    with tempfile.TemporaryDirectory() as folder:
        for name, its in (('wdt.c', text), ('wdt.h', header)):
            with open(os.path.join(folder, name), 'w', encoding='utf-8') as file:
                file.write(its)
        return [it.decode('latin-1') for it in prep.converted(os.path.join(folder, 'wdt.c'), list(flags))]


def answer(text):
    """What `report` says of a source."""
    with tempfile.TemporaryDirectory() as folder:
        name = os.path.join(folder, 'd.c')
        with open(name, 'w', encoding='utf-8') as file:
            file.write(text)
        return output(tools.program(), ['report', name])


@unittest.skipUnless(shutil.which('gcc'), 'gcc isn\'t there')
class Prep(unittest.TestCase):
    @classmethod
    def setUpClass(cls):
        cls.lines = made(DRIVER)

    def line(self, text):
        """The line that came of the one that has a text."""
        return self.lines[next(n for n, it in enumerate(DRIVER.split('\n')) if text in it)]

    def test_a_kernel_style_driver_becomes_one_that_is_taken(self):
        text, status = answer('\n'.join(self.lines))
        self.assertEqual(status, 0, text)
        self.assertIn('function 0 wdt_irq kernel root', text)

    def test_lines_stay_where_they_are(self):
        self.assertEqual(len(self.lines), len(DRIVER.split('\n')))
        own = DRIVER.split('\n')
        for n in (0, 3, 4, 5, 22, 24, 34, 36, 42, 46):
            self.assertEqual(self.lines[n], own[n], n + 1)

    def test_a_refusal_points_into_the_original(self):
        wrong = DRIVER.replace('\tif (err) {', '\tif (err + eror) {')
        line = next(n for n, it in enumerate(wrong.split('\n'), 1) if 'eror' in it)
        self.assertEqual(answer('\n'.join(made(wrong))), (f'source refused {line}:12 UnknownName\n', 2))

    def test_names_have_what_there_is_here(self):
        for text, line in [('struct mutex', '\tcombolock_t lock;'), ('enum wdt_state state', '\ts32 state;'), ('long long', '\tunsigned long total;'),
                           ('bool', '\tu8 up;'), ('mutex_lock', '\tcombolock(&wdt->lock);'), ('= true', '\twdt->up = 1;'), ('ENOMEM', '\t\treturn -12;'),
                           ('__iomem', '\tvoid *base;'), ('module_init', ''), ('MODULE_', '')]:
            self.assertEqual(self.line(text), line)

    def test_calls_have_the_arguments_that_they_have_here(self):
        for text, line in [('kzalloc', '\twdt = kzalloc(struct wdt);'), ('request_irq', '\terr = request_irq(wdt_irq)'), ('irqreturn_t', 'static void wdt_irq(void)'),
                           ('IRQ_NONE', '\t\treturn;'), ('readl', '\tu32 stat = readl(WDT_CTL);'), ('say("', '\t\tprintk(KERN_INFO "wdt: no irq %x left\\n", err)')]:
            self.assertEqual(self.line(text), line)
        self.assertEqual(made('void f(void) { struct s *p; p = devm_kcalloc(dev, n + 1, sizeof(struct s), GFP_KERNEL); free_irq(3, p); }'),
                         ['void f(void) { struct s *p; p = kcalloc(n + 1, struct s); free_irq(); }'])

    def test_steps_are_assignments(self):
        self.assertEqual(self.line('total++'), '\twdt->total += 1;')
        self.assertEqual(self.line('++i'), '\tfor (i = 0; i < WDT_CTL; i += 1)')
        self.assertEqual(made('void f(void) { if (a) b[i]--; x = y++; }'), ['void f(void) { if (a) b[i] -= 1; x = y++; }'])

    def test_constants_are_calculated(self):
        for text, line in [('WDT_MASK\t', '#define WDT_MASK 3u'), ('CTL_INT\t', '#define CTL_INT 1u'), ('stat & WDT_MASK', '\tif (!(stat & WDT_MASK))'),
                           ('~WDT_MASK', '\twritel(~WDT_MASK & 0xff, WDT_CTL);'), ('enum wdt_state {', 'enum { OFF, ON = 2u, BOTH = 3 };'),
                           ('ring[WDT_CTL * 2]', '\tu8 ring[16];'), ('1 << 3', '\twdt->state = BOTH | 8;'), ('LIMIT', '\t\twdt->ring[i] = 12;')]:
            self.assertEqual(self.line(text), line)

    def test_a_header_stands_in_the_line_of_its_include(self):
        self.assertEqual(self.lines[2], 'struct limits { u32 least; u32 most; };')

    def test_what_a_driver_defines_itself_is_its_own(self):
        self.assertEqual(made('#define EINVAL 5\nenum { EBUSY = 3 };\nint f(void) { return -EINVAL - EBUSY - EIO; }')[2], 'int f(void) { return -EINVAL - EBUSY - 5; }')
        self.assertEqual(made('#define N 5\n#define M (N + 2)\n#define L M\n#if M > 1\nu32 x;\n#endif\nu8 a[M + L];')[1:], ['', '#define L 7', '', 'u32 x;', '', 'u8 a[14];'])
        self.assertEqual(made('#define N 5\n#define M (N + 2)\n#define L M\nu8 a[M + L];'), ['#define N 5', '#define M 7', '#define L 7', 'u8 a[14];'])
        self.assertEqual(made('#define N 5\nu8 a[N]; u8 b[N + 1];\nvoid f(void) { u8 c[N * 2]; x = N * 2; }')[1:], ['u8 a[N]; u8 b[6];', 'void f(void) { u8 c[10]; x = N * 2; }'])
        self.assertEqual(made('u32 BIT(u32 n) { return n; }\nvoid f(void) { x = BIT(3); }')[1], 'void f(void) { x = BIT(3); }')

    def test_flags_are_gccs(self):
        self.assertIn('KERN_ERR', '\n'.join(made(DRIVER, flags=['-D', 'CONFIG_LOUD'])))

    def test_what_gcc_refuses_is_told(self):
        with tempfile.TemporaryDirectory() as folder:
            name = os.path.join(folder, 'd.c')
            with open(name, 'w', encoding='utf-8') as file:
                file.write('#if 1\nu32 x;\n')
            self.assertEqual(tools.said(prep, name), ('', 2))


class Constants(unittest.TestCase):
    def test_they_are_those_of_c(self):
        for text, result in [('1 << 4', '16'), ('( 1u << 31 )', '2147483648u'), ('1 << 31', None), ('~ 0', '-1'), ('~ 0u >> 28', '15u'), ('- 7 / 2', '-3'), ('- 7 % 2', '-1'),
                             ('1 / 0', None), ('2147483647 + 1', None), ('4294967295u + 1', '0u'), ('0xffffffff', '4294967295u'), ('4294967296', '4294967296l'),
                             ('1ul << 40', '1099511627776ul'), ('3 - 5u', '4294967294u'), ('- 1 < 0u', '0'), ('1 + 2 * 3 == 7 && 010 == 8', '1'), ('5 ^ 3 | 8', '14'),
                             ('( 2 + 3', None), ('2 3', None), ('x + 1', None)]:
            found = constants.value(text.split(), {})
            self.assertEqual(found and constants.spelled(found), result, text)

    @unittest.skipUnless(shutil.which('gcc'), 'gcc isn\'t there')
    def test_gcc_agrees(self):
        texts = ['1 << 4', '( 1u << 31 )', '~ 0u >> 28', '- 7 / 2', '- 7 % 2', '4294967295u + 1', '3 - 5u', '- 1 < 0u', '1ul << 40', '0x80000000 >> 1', '~ 5 & 0xff', '7 / - 2', '! 3 + ! 0']
        known = [constants.spelled(constants.value(it.split(), {})) for it in texts]
        source = ''.join(f'_Static_assert(({it}) == ({its}) && sizeof({it}) == sizeof({its}), "");\n' for it, its in zip(texts, known))
        ran = subprocess.run(['gcc', '-w', '-fsyntax-only', '-xc', '-'], input=source, capture_output=True, text=True, check=False)
        self.assertEqual((ran.returncode, ran.stderr), (0, ''))


if __name__ == '__main__':
    unittest.main()
