"""docs/WORKBENCH.md: each command of the page prints what the page says, and each change leads on to examples/rtc.c.

A block of the page that begins with `$` has commands, in the folder examples/, each with what it prints at a terminal; a
line `...` stands for any lines. A block `diff` changes rtc.c: lines with - become those with +."""
import contextlib
import io
import os
import re
import shlex
import shutil
import subprocess
import tempfile
import unittest
from unittest import mock

import tools
from crossings import loaded

PAGE = os.path.join(tools.TOP, 'docs', 'WORKBENCH.md')
BLOCK = re.compile(r'^```(\w*)\n(.*?)^```$', re.M | re.S)


def blocks():
    """The blocks of the page that are tried: how each is headed, and its lines."""
    for head, text in BLOCK.findall(tools.read(PAGE)):
        if head == 'diff' or text.startswith('$ '):
            yield head, text


def commands(text):
    """The commands of a block, each with what it prints."""
    for part in re.split(r'(?m)^\$ ', text)[1:]:
        command, _, output = part.partition('\n')
        yield command, output


def changed(source, text):
    """A source with the change that a block of - and + says."""
    old, new = ([line[1:] for line in text.splitlines() if not line.startswith(skipped)] for skipped in ('+', '-'))
    old, new = ('\n'.join([*it, '']) for it in (old, new))
    if source.count(old) != 1:
        raise AssertionError(f'these lines stand {source.count(old)} times in the source:\n{old}')
    return source.replace(old, new)


def microdriver(words):
    """What the wrapper shows at a terminal."""
    if words[:1] == ['explain']:
        return tools.said(loaded('workbench', 'explain'), *words[1:])[0]
    explain, error = loaded('workbench', 'explain'), io.StringIO()
    ran = subprocess.run([tools.program(), *words], capture_output=True, check=False)
    lines = [it for it in ran.stdout.split(b'\n') if it.startswith((b'source refused ', b'script refused ', b'stop '))]
    with contextlib.redirect_stderr(error), mock.patch.dict(os.environ, COLUMNS='100'):
        explain.explain(words, lines[-1] if lines else b'', ran.returncode)
    return ran.stdout.decode() + error.getvalue()


def printed(command):
    """What a command of the page prints, or None where its tool isn't there."""
    tool, *words = shlex.split(command)
    name = os.path.basename(tool)
    if name == 'microdriver':
        return microdriver(words)
    if not os.path.isfile(os.path.join(tools.TOP, 'workbench', name)):
        return None
    with mock.patch('sys.argv', [name, *words]):
        module = loaded('workbench', name)
        return tools.said(module, *words)[0]


def fits(output, expected):
    """Whether an output is as expected, where `...` is any lines."""
    form = ''.join('(?:.*\n)*?' if line == '...' else re.escape(line) + '\n' for line in expected.splitlines())
    return re.fullmatch(form, output) is not None


@unittest.skipUnless(shutil.which('gcc'), 'gcc isn\'t there, which prep asks')
class Page(unittest.TestCase):
    def test_it_says_what_happens(self):
        here = os.getcwd()
        with tempfile.TemporaryDirectory() as folder:
            shutil.copytree(os.path.join(tools.TOP, 'examples'), folder, dirs_exist_ok=True)
            os.remove(os.path.join(folder, 'rtc.c'))
            os.chdir(folder)
            try:
                for head, text in blocks():
                    self.tried(head, text)
                self.assertEqual(tools.read('rtc.c'), tools.read(tools.example('rtc.c')))
            finally:
                os.chdir(here)

    def tried(self, head, text):
        """One block."""
        if head == 'diff':
            source = changed(tools.read('rtc.c'), text)
            with open('rtc.c', 'w', encoding='utf-8') as file:
                file.write(source)
            return
        for command, expected in commands(text):
            output = printed(command)
            if output is not None and not fits(output, expected):
                self.assertEqual(output, expected, command)


if __name__ == '__main__':
    unittest.main()
