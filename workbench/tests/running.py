"""The tools mdtest and coverage, run by tests in this process, in a folder of their own."""
import contextlib
import functools
import importlib.machinery
import importlib.util
import io
import shutil
import sys
import tempfile
import unittest
from pathlib import Path

WORKBENCH, EXAMPLES = Path(__file__).resolve().parents[1], Path(__file__).resolve().parents[2] / 'examples'
sys.path[:0] = [str(WORKBENCH)]

import built


def tool(name):
    """A tool of the workbench, as a module."""
    loader = importlib.machinery.SourceFileLoader(name, str(WORKBENCH / name))
    module = importlib.util.module_from_spec(importlib.util.spec_from_loader(name, loader))
    loader.exec_module(module)
    return module


mdtest, coverage = tool('mdtest'), tool('coverage')


@functools.cache
def program():
    """The path of the program, which is looked for once."""
    with contextlib.redirect_stderr(io.StringIO()):
        return built.program()


class Run(unittest.TestCase):
    """Runs of a tool in a folder of their own, in this process."""

    def setUp(self):
        room = tempfile.TemporaryDirectory()
        self.addCleanup(room.cleanup)
        self.room = Path(room.name)

    def run_tool(self, main, *words):
        """The status and the lines of a run."""
        out = io.StringIO()
        with contextlib.redirect_stdout(out), contextlib.redirect_stderr(io.StringIO()):
            status = main(['--program', program(), *map(str, words)])
        return status, out.getvalue().replace(f'{self.room}/', '').splitlines()

    def mdtest(self, text, *words, driver='uart.c'):
        """A run of tests that are given as a text, for a driver of the examples unless it stands there."""
        if not (self.room / driver).exists():
            shutil.copy(EXAMPLES / driver, self.room)
        (self.room / 'a.mdt').write_text(text)
        return self.run_tool(mdtest.main, *words, self.room / 'a.mdt')
