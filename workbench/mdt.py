"""Tests of drivers as people write them: files `.mdt`, read into cases.

    driver keyboard.c                       the source, beside this file
    sweep set STATUS FULL, raise            what --sweep does at each tick; without this line `raise`
    setup                                   with what each case begins
        on read DATA do clear STATUS FULL, lower
        call kbd_open
        expect ret 0
    case a key is read
        now put DATA 30, set STATUS FULL, raise
        call kbd_read
        expect ret 30
        expect kbd.count 0

A case has the lines of a script, with the source's names for numbers, and `now EFFECT, ..`: the device does this, in an
`idle 1` of its own. Behind a command stands what is expected of it:

    expect ret V                    its result; `none` where it has none
    expect EVENT [then EVENT ..]    events in this order: R REG V, W REG V, irq F, log "TEXT", deliver HEX or "TEXT"; a * is anything
    expect EVENT times N            exactly so many of them, 0 too
    expect NAME V ..                cells from this one on: of a global (port.queue.bytes[2]), or behind its pointers (ring[0]->len)
    expect stop KIND [at F [N]]     the driver stops here; each other case ends with all its commands done
    expect leaked N                 blocks that nothing leads to at the end; else none

`.. in WAY ..` behind it holds for these alone of whole, watched and split. `always` in the place of `expect` is asked in
the runs of --sweep and --fail-each, too. A `#` begins a comment."""
import os
import re
from collections.abc import Callable
from dataclasses import dataclass, field

from built import WAYS, Refused, Report
from layout import Names, Nowhere

WORD = re.compile(r'"(?:\\.|[^"\\])*"|\S+')
DEVICE = ('reg', 'on', 'failalloc')
COMMANDS = ('call', 'idle', 'show')
# Words of a rule that are no numbers, even where the driver has a name of this kind.
RULE = {'on', 'read', 'write', 'tick', 'zero', 'if', 'do', 'put', 'set', 'clear', 'copy', 'start', 'raise', 'lower'}
CELL = re.compile(r'-?[0-9]+|null|ptr|dead|free|held|&\w+|\*')
EVENTS = {'R': 2, 'W': 2, 'irq': 1, 'log': 1, 'deliver': 1}


# ---- what is expected

@dataclass
class Seen:
    """What a run shows behind a step: its events, the whole report, what gives the objects then, and whether it is swept."""
    events: list[str]
    report: Report
    objects: Callable[[], dict]
    is_swept: bool


@dataclass
class Expect:
    """Something expected of a step: its line in the file, the ways in which it holds, and whether swept runs keep it, too.
    Each kind of it says by `check` what came in its place, or nothing; `names` finds cells."""
    line: int
    text: str
    ways: tuple[str, ...]
    always: bool

    def check(self, seen, names):
        raise NotImplementedError


@dataclass
class Result(Expect):
    """A call's result."""
    value: str

    def check(self, seen, _):
        came = next((it for it in seen.events if it.startswith('ret ')), 'no result')
        return None if came == f'ret {self.value}' else came


@dataclass
class Events(Expect):
    """Events of a command, as patterns: in their order, or one so many times."""
    chain: list[re.Pattern]
    times: int | None

    def check(self, seen, _):
        if self.times is not None:
            count = sum(bool(self.chain[0].fullmatch(it)) for it in seen.events)
            return None if count == self.times else f'{count} times'
        rest = iter(seen.events)
        for pattern in self.chain:
            if not any(pattern.fullmatch(it) for it in rest):
                return '; '.join(seen.events[:12]) + ('; ..' if len(seen.events) > 12 else '') or 'no event'
        return None


@dataclass
class Cells(Expect):
    """Cells from a name on."""
    path: str
    values: list[str]

    def check(self, seen, names):
        try:
            came = names.cells(self.path, seen.objects())[:len(self.values)]
        except Nowhere as why:
            # (of an object that isn't there, since it was refused: nothing holds and nothing is broken)
            return None if seen.is_swept else str(why)
        except Refused as why:
            return str(why)
        same = len(came) == len(self.values) and all(map(same_cell, self.values, came))
        return None if same else f'{self.path} {" ".join(came)}'


@dataclass
class Stops(Expect):
    """The driver stops, of this kind, in this function and statement where they are given."""
    kind: str
    function: str | None
    number: int | None

    def is_met(self, stop):
        """Whether this is the stop that is expected."""
        return stop.kind == self.kind and self.function in (None, stop.function) and self.number in (None, stop.number)

    def check(self, seen, _):
        stop = seen.report.stop
        return None if stop and self.is_met(stop) else seen.report.end


@dataclass
class Leaks(Expect):
    """So many blocks are lost at the end."""
    count: int

    def check(self, seen, _):
        return None if seen.report.leaked == self.count else leaks(seen.report.leaked)


def leaks(count):
    """How many blocks are lost, in words."""
    return f'{count} block{"s" * (count != 1)} leaked'


def same_cell(wanted, came):
    return wanted in ('*', came) or wanted == 'ptr' and came.startswith('@')


# ---- cases

@dataclass
class Step:
    """A command of a case, or what the device does between two, and what is expected of it."""
    line: int
    text: str
    is_now: bool
    expects: list[Expect] = field(default_factory=list)


@dataclass
class Case:
    """A case: the lines of the device, without ends, and its steps."""
    name: str
    line: int
    device: list[str]
    steps: list[Step]

    def script(self, count, nows, extra=()):
        """The script of the first so many steps, where what happens at `now` has the ticks of `nows`."""
        steps = list(enumerate(self.steps[:count]))
        lines = [*self.device, *(f'on tick {nows[n]} do {it.text}' for n, it in steps if it.is_now), *extra]
        return '\n'.join([*lines, *('idle 1' if it.is_now else it.text for _, it in steps), ''])

    def stop(self, way):
        """The stop that is expected of a way, if one is."""
        return next((it for step in self.steps for it in step.expects if isinstance(it, Stops) and way in it.ways), None)

    def lost(self, way):
        """How many blocks are expected to be lost."""
        return next((it.count for step in self.steps for it in step.expects if isinstance(it, Leaks) and way in it.ways), 0)


class Tests:
    """A file of cases."""

    def __init__(self, path):
        self.path, self.source, self.names = path, None, None
        self.sweep, self.cases, self.setup = 'raise', [], Case('setup', 0, [], [])
        self.at, self.number = self.setup, 0
        with open(path, encoding='utf-8') as file:
            for self.number, line in enumerate(file, 1):
                self.take(line)
        self.check_end()

    def refuse(self, why):
        raise Refused(f'{self.path}:{self.number}: {why}')

    def take(self, line):
        """Takes one line."""
        words = []
        for word in WORD.findall(line):
            if word.startswith('#'):
                break
            words.append(word)
        if not words:
            return
        word, rest = words[0], words[1:]
        if word == 'driver':
            self.open(rest)
        elif self.names is None:
            self.refuse('the first line is: driver FILE')
        elif word in ('sweep', 'now'):
            self.effects(word, rest)
        elif word in ('setup', 'case'):
            self.section(word, rest)
        elif word in ('expect', 'always'):
            self.expect(rest, word == 'always')
        elif word in DEVICE:
            self.at.device.append(' '.join([word, *map(self.replaced, rest)]))
        elif word in COMMANDS:
            self.step(self.command(words), False)
        else:
            self.refuse(f'{word} begins no line')

    def open(self, rest):
        if len(rest) != 1 or self.names:
            self.refuse('the source is named once: driver FILE')
        self.source = os.path.normpath(os.path.join(os.path.dirname(self.path), rest[0]))
        try:
            with open(self.source, 'rb') as file:
                self.names = Names(file.read())
        except OSError as why:
            self.refuse(f'{self.source}: {why.strerror}')

    def section(self, word, rest):
        if word == 'setup' and (rest or self.cases or self.setup.line):
            self.refuse('setup stands alone, once, before the first case')
        if word == 'case' and not rest:
            self.refuse('a case has a name')
        self.setup.line = self.setup.line or self.number
        if word == 'case':
            if any(it.name == ' '.join(rest) for it in self.cases):
                self.refuse('another case has this name')
            steps = [Step(it.line, it.text, it.is_now, [*it.expects]) for it in self.setup.steps]
            self.at = Case(' '.join(rest), self.number, [*self.setup.device], steps)
            self.cases.append(self.at)

    def effects(self, word, rest):
        """What the device does, of a sweep or now."""
        if not rest:
            self.refuse(f'{word} EFFECT, ..')
        text = ' '.join(map(self.replaced, rest))
        if word == 'now':
            self.step(text, True)
        else:
            self.sweep = text

    def step(self, text, is_now):
        if self.at.steps and any(isinstance(it, Stops) and len(it.ways) == len(WAYS) for it in self.at.steps[-1].expects):
            self.refuse('behind the stop that is expected nothing runs')
        self.at.steps.append(Step(self.number, text, is_now))

    def check_end(self):
        if not self.cases:
            self.refuse('there is no case')
        for case in self.cases:
            if not case.steps:
                raise Refused(f'{self.path}:{case.line}: the case has no command')

    # ---- words

    def replaced(self, word):
        """A word of a line of the device, with the driver's name for a number written out."""
        bare, comma = (word[:-1], ',') if word.endswith(',') else (word, '')
        value = None if bare in RULE else self.names.number(bare)
        return word if value is None else f'{value}{comma}'

    def command(self, words):
        if words[0] == 'show':
            return ' '.join(words)
        keep = 2 if words[0] == 'call' else 1
        return ' '.join([*words[:keep], *map(self.replaced, words[keep:])])

    def value(self, word):
        """What a report has in the place of a word: a number, or what isn't one."""
        value = self.names.number(word)
        return word if value is None else str(value)

    # ---- lines of what is expected

    def expect(self, words, always):
        if not self.at.steps:
            self.refuse('nothing is expected before the first command')
        text, ways = ' '.join(words), tuple(WAYS)
        if 'in' in words and set(words[words.index('in') + 1:]) <= set(WAYS) | {'and'}:
            ways = tuple(it for it in WAYS if it in words[words.index('in'):])
            words = words[:words.index('in')]
        if not words or not ways:
            self.refuse('what is expected?')
        head = (self.number, text, ways, always)
        self.at.steps[-1].expects.append(self.made(head, words[0], words[1:]))

    def made(self, head, word, rest):
        """What a line expects, by its first word."""
        if word == 'ret' and len(rest) == 1:
            return Result(*head, self.value(rest[0]))
        if word in EVENTS:
            return self.events(head, [word, *rest])
        if word == 'stop' and rest:
            return self.stops(head, rest)
        if word == 'leaked' and len(rest) == 1 and rest[0].isdigit():
            return Leaks(*head, int(rest[0]))
        values = [self.value(it) for it in rest]
        if not values or not all(map(CELL.fullmatch, values)):
            self.refuse('expect ret V; an event (R, W, irq, log, deliver); stop KIND; leaked N; or a name with the values of its cells')
        if re.split(r'[.\[-]', word)[0] not in self.names.globals:
            self.refuse(f'no global {word}')
        return Cells(*head, word, values)

    def events(self, head, words):
        times = None
        if len(words) > 2 and words[-2] == 'times':
            words, times = words[:-2], self.names.number(words[-1])
            if times is None:
                self.refuse(f'{head[1]}: times N')
        chain = [[]]
        for word in words:
            if word == 'then':
                chain.append([])
            else:
                chain[-1].append(word)
        if times is not None and len(chain) > 1:
            self.refuse('times counts one event alone')
        return Events(*head, [self.event(it) for it in chain], times)

    def event(self, words):
        """The pattern of an event."""
        if not words or len(words) - 1 != EVENTS.get(words[0]):
            self.refuse('an event is R REG V, W REG V, irq F, log "TEXT", or deliver HEX or "TEXT"')
        word, *rest = words
        if word in 'RW':
            rest = [self.value(it) for it in rest]
        elif rest[0].startswith('"'):
            rest = [rest[0][1:-1] if word == 'log' else rest[0][1:-1].encode().hex()]
        text = ' '.join([word, *rest])
        return re.compile('.*'.join(map(re.escape, text.split('*'))))

    def stops(self, head, rest):
        if rest[1:2] not in ([], ['at']) or len(rest) not in (1, 3, 4) or rest[3:] and not rest[3].isdigit():
            self.refuse('expect stop KIND [at FUNCTION [STATEMENT]]')
        return Stops(*head, rest[0], rest[2] if len(rest) > 2 else None, int(rest[3]) if len(rest) > 3 else None)
