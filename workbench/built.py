"""The built program, and its runs: the tools of this folder ask it many times what it says once.

They take the program that `./microdriver` takes: the proved one where it is there and made of these very sources, else
the one that `workbench/unproved` compiles without proofs. A report is read into its commands, its end and its objects,
and never judged: what is proved of a run is what the program itself prints."""
import os
import re
import resource
import subprocess
import sys
from concurrent.futures import ThreadPoolExecutor
from dataclasses import dataclass, field

import places

HERE = os.path.dirname(os.path.abspath(__file__))
TOP = os.path.dirname(HERE)
PROVED = os.path.join(TOP, 'crates', 'microdriver', 'out', 'microdriver')
# The three ways in which a driver runs, as words of the program.
WAYS = {'whole': ('whole', []), 'watched': ('whole', ['--watch']), 'split': ('split', [])}
DEFAULT_TICKS, MOST_TICKS = 1_000_000, 100_000_000
HEADS = ('call ', 'idle ', 'show ')
STOP = re.compile(r'stop ([A-Za-z]+) at (?:(\S+) ([0-9]+)|-)')
OBJECT = re.compile(r'obj ([0-9]+) (.*) x([0-9]+): ?(.*)')


class Refused(Exception):
    """What can't be gone on with, in one line for the reader."""


# ---- the program

def is_older(program):
    """Whether a program is older than a file that it is made of."""
    made = os.stat(program).st_mtime
    files = [os.path.join(TOP, 'crates.txt')]
    for crate in os.scandir(os.path.join(TOP, 'crates')):
        for part in ('src', 'specs', 'proofs'):
            files += [os.path.join(at, it) for at, _, found in os.walk(os.path.join(crate.path, part)) for it in found]
    return any(os.stat(it).st_mtime > made for it in files)


def program():
    """The path of the program; where it is one without proofs, standard error says so."""
    if os.access(PROVED, os.X_OK) and not is_older(PROVED):
        return PROVED
    made = subprocess.run([os.path.join(HERE, 'unproved')], stdout=subprocess.PIPE, text=True, check=False)
    if made.returncode:
        raise Refused('there is no program, neither a proved one nor one without proofs')
    print('microdriver: NOTHING OF WHAT RUNS WAS PROVED; ./microdriver --prove builds the program that is', file=sys.stderr)
    return made.stdout.strip()


def bound_memory():
    """Bounds the memory of this process and of those that it starts to four fifths of the machine's, each."""
    most = os.sysconf('SC_PHYS_PAGES') * os.sysconf('SC_PAGE_SIZE') // 5 * 4
    soft, hard = resource.getrlimit(resource.RLIMIT_AS)
    if soft == resource.RLIM_INFINITY or soft > most:
        resource.setrlimit(resource.RLIMIT_AS, (most, hard))


# ---- reports

@dataclass
class Command:
    """A command of a script as a report tells it: its own line, and what happened until the next one began."""
    head: str
    events: list[str] = field(default_factory=list)


@dataclass(frozen=True)
class Stop:
    """Where a driver stopped; no function where no code ran. Statement 0 is the call of the function itself."""
    kind: str
    function: str | None
    number: int

    def __str__(self):
        return f'{self.kind} at {self.function} {self.number}' if self.function else f'{self.kind} at -'


@dataclass
class Report:
    """What a run printed, in its parts. An object is the words of its type, how many there are, and its cells."""
    text: str
    commands: list[Command] = field(default_factory=list)
    end: str = ''
    stop: Stop | None = None
    ticks: int = 0
    live: int = 0
    objects: dict[int, tuple[str, int, list[str]]] = field(default_factory=dict)

    @property
    def leaked(self):
        """How many blocks live to which nothing leads; behind a stop that isn't known, and 0."""
        return 0 if self.stop else self.live - len(self.objects)


def take_end(report, line):
    """Takes a line behind the events of a report."""
    match = OBJECT.fullmatch(line)
    word, _, rest = line.partition(' ')
    if match:
        report.objects[int(match[1])] = (match[2], int(match[3]), match[4].split())
    elif word in ('ticks', 'live'):
        setattr(report, word, int(rest))


def read_report(text):
    """The report that a run printed."""
    report = Report(text)
    for line in text.splitlines():
        match = STOP.fullmatch(line)
        if report.end:
            take_end(report, line)
        elif match or line == 'end ok':
            report.end = line
            report.stop = Stop(match[1], match[2], int(match[3] or 0)) if match else None
        elif line.startswith(HEADS):
            report.commands.append(Command(line))
            if line.startswith('show '):
                report.commands[-1].events.append(line)
        elif report.commands:
            report.commands[-1].events.append(line)
    return report


class Driver:
    """A driver's source, run by a program."""

    def __init__(self, path, source):
        self.path, self.source = path, source
        with open(source, 'rb') as file:
            self.text = file.read()
        self.lines = self.text.decode('latin-1').splitlines()

    def run(self, way, script, ticks=DEFAULT_TICKS):
        """The report of a script in one of the ways, with a budget of ticks, at most the largest that there is."""
        which, flags = WAYS[way]
        words = [self.path, 'run', which, self.source, '/dev/stdin', '--ticks', str(min(ticks, MOST_TICKS)), *flags]
        done = subprocess.run(words, input=script.encode(), stdout=subprocess.PIPE, check=False)
        text = done.stdout.decode('latin-1')
        if done.returncode not in (0, 8):
            raise Refused(refusal(self.source, script, done.returncode, text))
        return read_report(text)

    def place(self, stop):
        """Where a driver stopped, as compilers write it, with the line of the source; nothing where no code ran."""
        if not stop or not stop.function:
            return ''
        found = places.statement(self.text, stop.function.encode(), stop.number)
        if not found:
            return f'{self.source}: {stop.function} {stop.number}'
        return f'{self.source}:{found[0]}:{found[1]}: {stop.function} {stop.number}: {self.lines[found[0] - 1].strip()}'


def refusal(source, script, status, text):
    """One line for a run that gave no report."""
    line = text.strip().splitlines()[-1] if text.strip() else f'status {status}, and nothing was printed'
    match = re.fullmatch('script refused ([0-9]+) ([A-Za-z]+)', line)
    if match:
        return f'{source}: script refused, {match[2]}: {script.splitlines()[int(match[1]) - 1].strip()}'
    return f'{source}: {line}'


# ---- many runs

def processors():
    """How many runs are made at once: as many as there are processors for us."""
    return len(os.sched_getaffinity(0))


class Progress:
    """How far a long work is, on standard error where that is a terminal."""

    def __init__(self, what, total):
        self.what, self.total, self.done = what, total, 0
        self.shown = sys.stderr.isatty()

    def step(self):
        """One more is done."""
        self.done += 1
        if self.shown:
            print(f'\r{self.what}: {self.done} of {self.total}', end='\n' if self.done == self.total else '', file=sys.stderr, flush=True)


def each(work, items, what, jobs):
    """What `work` gives of each item, in their order, several at once; progress is told."""
    items = list(items)
    progress, found = Progress(what, len(items)), []
    with ThreadPoolExecutor(max_workers=jobs) as pool:
        try:
            for it in pool.map(work, items):
                found.append(it)
                progress.step()
        except BaseException:
            # (a refusal, or Ctrl-C: what hasn't begun needn't begin)
            pool.shutdown(wait=False, cancel_futures=True)
            raise
    return found
