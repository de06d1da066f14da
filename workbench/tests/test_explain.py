"""explain: the caret and the sentence behind each refusal and each stop, and words for each kind."""
import contextlib
import importlib
import io
import os
import subprocess
import tempfile
import unittest

import tools
import words as tables
from crossings import loaded

explain = loaded('workbench', 'explain')
EXPLAIN = os.path.join(tools.TOP, 'workbench', 'explain')

# sources that are refused: the kind, the text that the caret stands below, with what follows, and a part of the sentence
REFUSED = [
    ('u32 a;\nu32 b = 08;\n', 'BadNumber', '^~', 'This is no whole number'),
    ('#define A (1 << 2)\nu32 a;\n', 'BadByte', '^~~~~~~~~~~~~~~~~~', 'workbench/prep'),
    ('void f(void) { goto out; }\n', 'NotInProfile', '^~~~', 'Return early'),
    ('spinlock_t l;\n', 'Expected', '^~~~~~~~~~', 'combolock_t, the one kind of lock'),
    ('s32 f(void) { return -EINVAL; }\n', 'UnknownName', '^~~~~~', 'write 22, or #define EINVAL 22'),
    ('void f(u32 *p) { u8 b; b = 0; p = &b; }\n', 'Mismatch', '^', 'a pointer becomes a pointer of its own type'),
    ('void g(u32 a) { }\nvoid f(void) { g(1, 2); }\n', 'BadArity', '^', 'more or fewer arguments'),
]
# drivers that stop when f is called: the kind, the line, and a part of the sentence
STOPPED = [
    ('u32 *p; u32 a;\nvoid f(void) {\n\ta = *p;\n}\n', 'Null', 3, 'A null pointer was used.'),
    ('u32 a;\nvoid f(void) {\n\tu32 b;\n\ta = 1 / b;\n}\n', 'DivZero', 4, 'Test the divisor first.'),
    ('struct d { u8 *b; }; struct d d; u32 a;\n__critical void g(void) { d.b = kcalloc(4, u8); }\nvoid f(void) {\n\tg();\n\ta = d.b[2];\n}\n', 'Annotation', 5, '__array(LENGTH)'),
    ('void f(void) {\n\tBUG();\n}\n', 'Bug', 2, 'BUG() ran.'),
    ('combolock_t l;\nvoid done(u32 n) { }\n__critical void f(void) {\n\tcombolock(&l);\n\tkcall(done, 1);\n}\n', 'Atomic', 5, 'Free the lock first'),
]


class Words(unittest.TestCase):
    def test_each_kind_has_its_words(self):
        every = [*tables.SOURCE, *tables.SCRIPT, *tables.STOPS, *tables.REPLIES, *tables.LEFT_OUT, *tables.SERVICES, *tables.ANNOTATIONS, *tables.MESSAGES, *tables.HERE,
                 *map(str, tables.STATUSES)]
        text, status = tools.said(explain, *every)
        self.assertEqual(status, 0)
        self.assertNotIn('has this name', text)
        for word in every:
            self.assertTrue(list(explain.meanings(word)), word)

    def test_without_a_word_all_are_named(self):
        text, _ = tools.said(explain)
        for word in ('BadByte', 'Arity', 'Annotation', 'kzalloc', '__array', 'Call', '14'):
            self.assertIn(word, text.split())

    def test_a_word_that_is_none_is_told(self):
        self.assertEqual(tools.said(explain, 'nonsense')[1], 1)

    def test_kinds_of_messages_are_those_that_there_are(self):
        messages = importlib.import_module('messages')
        self.assertEqual(list(tables.MESSAGES), list(messages.KINDS))
        self.assertEqual({it for it in messages.STOPS if it}, set(tables.STOPS))


class Runs(unittest.TestCase):
    def explained(self, source, script=None):
        """What the program prints of a source, alone and under explain, and what explain adds."""
        with tempfile.TemporaryDirectory() as folder:
            for name, text in (('d.c', source), ('d.script', script or '')):
                with open(os.path.join(folder, name), 'w', encoding='utf-8') as file:
                    file.write(text)
            words = ['report', 'd.c'] if script is None else ['run', 'split', 'd.c', 'd.script']
            alone = subprocess.run([tools.program(), *words], cwd=folder, capture_output=True, text=True, check=False)
            here, error = os.getcwd(), io.StringIO()
            try:
                os.chdir(folder)
                answer = [it for it in alone.stdout.encode().split(b'\n') if it.startswith((b'source refused ', b'script refused ', b'stop '))]
                with contextlib.redirect_stderr(error):
                    explain.explain(words, answer[-1], alone.returncode)
            finally:
                os.chdir(here)
        return alone, error.getvalue()

    def test_a_refused_source_has_its_line_its_caret_and_a_sentence(self):
        for source, kind, caret, sentence in REFUSED:
            alone, told = self.explained(source)
            line, column = alone.stdout.split()[2].split(':')
            self.assertEqual((alone.stdout.split()[3], alone.returncode), (kind, 2), source)
            shown = source.split('\n')[int(line) - 1]
            self.assertIn(f'd.c:{line}:{column}: {kind}', told)
            self.assertIn(f'{int(line):5} | {shown}\n      | {" " * (int(column) - 1)}{caret}\n', told)
            self.assertIn(sentence, ' '.join(told.split()))

    def test_a_refused_script_has_its_line(self):
        _, told = self.explained('void f(u32 n) { }\n', 'call f 1\ncall f one\n')
        self.assertIn('d.script:2: Form\n    2 | call f one\n      | ^~~~~~~~~~\n', told)
        self.assertIn('This is no line of a script', told)

    def test_a_stop_has_the_line_of_its_statement(self):
        for source, kind, line, sentence in STOPPED:
            alone, told = self.explained(source, 'call f\n')
            self.assertIn(f'stop {kind} at f', alone.stdout)
            self.assertIn(f'd.c:{line}:2: stop {kind} in f, statement', told)
            self.assertIn(f'{line:5} | {source.split(chr(10))[line - 1]}\n      | \t^', told)
            self.assertIn(sentence, ' '.join(told.split()))

    def test_output_and_status_stay_as_they_are(self):
        words = ['run', 'split', tools.example('probe.c'), tools.example('probe.script'), '--wire']
        alone = subprocess.run([tools.program(), *words], capture_output=True, check=False)
        told = subprocess.run([EXPLAIN, '--run', tools.program(), *words], capture_output=True, check=False)
        self.assertEqual((told.stdout, told.returncode), (alone.stdout, alone.returncode))
        self.assertIn(b'stop Null in probe_fill, statement 4\n', told.stderr)


if __name__ == '__main__':
    unittest.main()
