"""What the tests of this folder share: the tools as modules, the program, and files of the repository."""
import contextlib
import functools
import io
import os
import sys

sys.dont_write_bytecode = True
TOP = os.path.dirname(os.path.dirname(os.path.dirname(os.path.abspath(__file__))))
sys.path.insert(0, os.path.join(TOP, 'workbench'))

import built
import crossings


@functools.cache
def program():
    """The path of the program, which is looked for once."""
    with contextlib.redirect_stderr(io.StringIO()):
        return built.program()


def example(name):
    return os.path.join(TOP, 'examples', name)


def read(path):
    with open(path, encoding='utf-8') as file:
        return file.read()


@functools.cache
def split(source, script):
    """The transcript of a split run of two files of examples/."""
    return crossings.split_run(program(), example(source), read(example(script)))


def said(tool, *words):
    """What a tool prints on standard output, and its status."""
    out = io.StringIO()
    with contextlib.redirect_stdout(out), contextlib.redirect_stderr(io.StringIO()):
        status = tool.main(list(words))
    return out.getvalue(), status
