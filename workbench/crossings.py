"""What crosses between the halves in a split run: the run with its messages, the source's report, and the cost of each function.

A message belongs to a function of the user half: a Call and its Return to the one that is called, a question, a call
down and a stop, each with what answers it, to the one whose statement it is. The ticks that a message tells count for
its function too, though functions that it called, or was called by, may have spent some of them since the last one."""
import importlib.machinery
import importlib.util
import os
import subprocess
from collections import Counter
from dataclasses import dataclass, field

import messages
from built import DEFAULT_TICKS, TOP, Refused, refusal


def loaded(*path):
    """A script of the repository, as a module."""
    loader = importlib.machinery.SourceFileLoader('_'.join(path).replace('-', '_'), os.path.join(TOP, *path))
    module = importlib.util.module_from_spec(importlib.util.spec_from_loader(loader.name, loader))
    loader.exec_module(module)
    return module


graph = loaded('report-graph')


def output(program, words, given=b''):
    """What the program prints, and its status."""
    done = subprocess.run([program, *words], input=given, stdout=subprocess.PIPE, check=False)
    return done.stdout.decode('latin-1'), done.returncode


def report_of(program, source):
    """The report of a source: which function is where, what calls what, types and keys."""
    text, status = output(program, ['report', source])
    if status:
        raise Refused(f'{source}: {text.strip() or f"status {status}"}')
    return graph.read(text.splitlines())


def split_run(program, source, script, ticks=DEFAULT_TICKS):
    """The transcript of a split run of a script, which is given as text."""
    text, status = output(program, ['run', 'split', source, '/dev/stdin', '--wire', '--ticks', str(ticks)], script.encode('latin-1'))
    if status not in (0, 8):
        raise Refused(refusal(source, script, status, text))
    return messages.transcript(text)


def end_of(transcript):
    """How the run ended, by its report."""
    return next((it for it in transcript.report if it.startswith(('end ', 'stop ', 'refused ', 'far '))), 'no end')


# ---- costs

UP, DOWN = ('Call',), ('Down', 'Ask', 'Stop')


@dataclass
class Cost:
    """What a function, or a whole run, costs across: messages, their bytes, the ticks of user code that they tell, and how
    often: upcalls, and of a service or a function of the kernel half how often it was asked for."""
    messages: int = 0
    bytes: int = 0
    ticks: int = 0
    times: int = 0
    # how often a statement of it asked for a service or called a function of the kernel half, by name, and what that cost
    asked: dict = field(default_factory=dict)

    def take(self, sent, kinds):
        """Counts a message; `kinds` are those that count as once more."""
        self.messages += 1
        self.bytes += sent.size
        self.ticks += sent.message.ticks
        self.times += sent.message.kind in kinds


class Owners:
    """Whose the messages of a run are, one after the other: the function, and what it asks for, of an upcall nothing."""

    def __init__(self, names):
        self.names, self.open, self.last = names, [], ('', '')

    def name(self, number):
        return self.names[number] if number < len(self.names) else f'function {number}'

    def of(self, message):
        kind = message.kind
        if kind == 'Call':
            self.last = (self.name(message.func), '')
            self.open.append(self.last)
        elif kind == 'Down':
            self.last = (self.name(message.at_func), self.name(message.func))
            self.open.append(self.last)
        elif kind == 'Ask':
            self.last = (self.name(message.at_func), service(message.service))
        elif kind in ('Return', 'Back'):
            self.last = self.open.pop() if self.open else self.last
        elif kind == 'Stop':
            self.last = (self.name(message.at_func), 'stop')
        return self.last


def service(number):
    """The name of a service by its number."""
    return messages.SERVICES[number] if 0 < number < len(messages.SERVICES) else f'service {number}'


def total(transcript):
    """What a run costs across."""
    cost = Cost()
    for it in transcript.sent:
        cost.take(it, UP)
    return cost


def costs(transcript, names):
    """What each function that crosses costs, by name; `names` are those of all functions by their numbers."""
    owners, found = Owners(names), {}
    for it in transcript.sent:
        function, asked = owners.of(it.message)
        cost = found.setdefault(function, Cost())
        cost.take(it, UP)
        if asked:
            cost.asked.setdefault(asked, Cost()).take(it, DOWN)
    return found


def times(transcript, names):
    """How often each call across was made: by what calls, empty for the script or the kernel half, and what is called."""
    found = Counter()
    for it in transcript.sent:
        message = it.message
        if message.kind == 'Call':
            found['', names[message.func]] += 1
        elif message.kind == 'Down':
            found[names[message.at_func], names[message.func]] += 1
    return found
