"""The messages between the halves, as `run split --wire` prints them: read, written, and the transcript of a run.

They are spelled in XDR (RFC 4506); docs/messages.x has them in its language. `read(bytes)` gives the message that
bytes are, all of them, or raises a `Fault`, the first from the left, with its offset. `written` is the other way.
Nothing here is proved: the program has its own reader and writer, which are."""
import re
from typing import NamedTuple

NULL, POINTER, DEAD, FUNCTION, NO_VALUE = 8, 9, 10, 11, 12
# the integer kinds by their tags: how many bits, and whether there is a sign
INTEGERS = [(8, False), (16, False), (32, False), (64, False), (8, True), (16, True), (32, True), (64, True)]
BIRTHS = ('Static', 'Heap', 'Auto')
TO_USER = ('Call', 'Back', 'Answer')
SERVICES = (None, 'kzalloc', 'kcalloc', 'kfree', 'readl', 'writel', 'printk', 'request_irq', 'free_irq', 'deliver', 'combolock', 'combounlock',
            'BUG', 'enter', 'leave', 'kcall')
STOPS = (None, 'Null', 'Dead', 'Bounds', 'Overflow', 'DivZero', 'Shift', 'Compare', 'BadCast', 'BadCall', 'NoValue', 'LockHeld', 'LockFree',
         'Depth', 'Bug', 'Annotation', 'Ticks', 'Atomic')
REASONS = (None, 'no message', 'not awaited', 'content that doesn\'t fit')


class Fault(Exception):
    """Bytes that are no message: Short, Range, Padding, Kind or Trailing, and the offset."""

    def __init__(self, kind, offset):
        super().__init__(f'{kind} {offset}')
        self.kind, self.offset = kind, offset


class View(NamedTuple):
    """A pointer: the element `index` of `count` elements of a type, which begin at the cell `first` of a block."""
    serial: int
    first: int
    type: int
    count: int
    index: int


class Value(NamedTuple):
    """A value by its tag: an integer's number, a pointer's view, a function's number, or None."""
    tag: int
    of: object = None


class New(NamedTuple):
    serial: int
    birth: str
    type: int
    count: int


class Run(NamedTuple):
    serial: int
    first: int
    values: list


class SetRun(NamedTuple):
    serial: int
    first: int
    length: int


class Shape(NamedTuple):
    type: int
    count: int


# ---- reading

class Reader:
    """Bytes, and how far they are read."""

    def __init__(self, data):
        self.data, self.at = data, 0

    def bytes(self, size):
        if len(self.data) - self.at < size:
            raise Fault('Short', self.at)
        self.at += size
        return self.data[self.at - size:self.at]

    def number(self, size, signed=False):
        return int.from_bytes(self.bytes(size), 'big', signed=signed)

    def four(self):
        return self.number(4)

    def eight(self):
        return self.number(8)

    def integer(self, bits, signed):
        """A number of so many bits, which takes four bytes or eight."""
        at, number = self.at, self.number(8 if bits == 64 else 4, signed)
        least = -(1 << bits - 1) if signed else 0
        if not least <= number < least + (1 << bits):
            raise Fault('Range', at)
        return number

    def opaque(self):
        size = self.four()
        at, data = self.at, self.bytes(size + -size % 4)
        wrong = next((n for n in range(size, len(data)) if data[n]), None)
        if wrong is not None:
            raise Fault('Padding', at + wrong)
        return data[:size]

    def listed(self, one):
        return [one() for _ in range(self.four())]

    def value(self):
        at, tag = self.at, self.four()
        if tag < len(INTEGERS):
            return Value(tag, self.integer(*INTEGERS[tag]))
        if tag == POINTER:
            return Value(tag, View(self.eight(), self.four(), self.four(), self.four(), self.four()))
        if tag == FUNCTION:
            return Value(tag, self.four())
        if tag > NO_VALUE:
            raise Fault('Kind', at)
        return Value(tag)

    def new(self):
        serial, at, birth = self.eight(), self.at, self.four()
        if birth >= len(BIRTHS):
            raise Fault('Range', at)
        return New(serial, BIRTHS[birth], self.four(), self.four())

    def run(self):
        return Run(self.eight(), self.four(), self.values())

    def set_run(self):
        return SetRun(self.eight(), self.four(), self.four())

    def shape(self):
        return Shape(self.four(), self.eight())

    def values(self):
        return self.listed(self.value)

    def serials(self):
        return self.listed(self.eight)

    def news(self):
        return self.listed(self.new)

    def view(self):
        return self.listed(self.set_run)

    def runs(self):
        return self.listed(self.run)

    def shapes(self):
        return self.listed(self.shape)


# ---- writing

def four(number):
    return number.to_bytes(4, 'big')


def eight(number):
    return number.to_bytes(8, 'big')


def opaque(data):
    return four(len(data)) + data + bytes(-len(data) % 4)


def listed(one, items):
    return four(len(items)) + b''.join(one(it) for it in items)


def value(it):
    if it.tag < len(INTEGERS):
        bits, signed = INTEGERS[it.tag]
        return four(it.tag) + it.of.to_bytes(8 if bits == 64 else 4, 'big', signed=signed)
    if it.tag == POINTER:
        return four(it.tag) + eight(it.of.serial) + b''.join(map(four, it.of[1:]))
    return four(it.tag) + (four(it.of) if it.tag == FUNCTION else b'')


def new(it):
    return eight(it.serial) + four(BIRTHS.index(it.birth)) + four(it.type) + four(it.count)


def run(it):
    return eight(it.serial) + four(it.first) + values(it.values)


def set_run(it):
    return eight(it.serial) + four(it.first) + four(it.length)


def shape(it):
    return four(it.type) + eight(it.count)


def values(items):
    return listed(value, items)


def serials(items):
    return listed(eight, items)


def news(items):
    return listed(new, items)


def view(items):
    return listed(set_run, items)


def runs(items):
    return listed(run, items)


def shapes(items):
    return listed(shape, items)


# ---- messages

# The parts of each kind, in their order: the name, how it is read, and how it is written.
FOUR, EIGHT, BYTES = (Reader.four, four), (Reader.eight, eight), (Reader.opaque, opaque)
ONE, VALUES, RUNS, SHAPES = (Reader.value, value), (Reader.values, values), (Reader.runs, runs), (Reader.shapes, shapes)
DEATHS, NEWS, VIEW = (Reader.serials, serials), (Reader.news, news), (Reader.view, view)
PLACE = {'at_func': FOUR, 'at_stmt': FOUR}
TOLD = {'deaths': DEATHS, 'news': NEWS, 'view': VIEW, 'runs': RUNS}
KINDS = {
    'Call': {'func': FOUR, 'depth': FOUR, 'rest': EIGHT, 'args': VALUES, **TOLD},
    'Return': {'ticks': EIGHT, 'result': ONE, 'runs': RUNS},
    'Down': {'ticks': EIGHT, **PLACE, 'depth': FOUR, 'func': FOUR, 'args': VALUES, 'runs': RUNS},
    'Back': {'rest': EIGHT, 'result': ONE, **TOLD},
    'Ask': {'ticks': EIGHT, **PLACE, 'service': FOUR, 'args': VALUES, 'shapes': SHAPES, 'bytes': BYTES, 'runs': RUNS},
    'Answer': {'results': VALUES, 'deaths': DEATHS, 'news': NEWS},
    'Stop': {'ticks': EIGHT, 'stop': FOUR, **PLACE, 'runs': RUNS},
    'Refuse': {'reason': FOUR},
}
NUMBERS = {kind: number for number, kind in enumerate(KINDS, 1)}


class Message:
    """A message: its kind, and its parts by their names. Lists that its kind hasn't are empty, and `ticks` are 0."""
    ticks, deaths, news, view, runs, shapes, bytes = 0, (), (), (), (), (), b''

    def __init__(self, kind, **parts):
        if parts.keys() != KINDS[kind].keys():
            raise ValueError(f'a {kind} has {", ".join(KINDS[kind])}')
        self.kind = kind
        self.__dict__.update(parts)

    def __eq__(self, other):
        return isinstance(other, Message) and self.__dict__ == other.__dict__

    def __repr__(self):
        return f'Message({", ".join(f"{name}={part!r}" for name, part in self.__dict__.items())})'


def read(data):
    """The message that bytes are, or a Fault."""
    reader = Reader(data)
    number = reader.four()
    kind = next((it for it, its in NUMBERS.items() if its == number), None)
    if kind is None:
        raise Fault('Kind', 0)
    message = Message(kind, **{name: part[0](reader) for name, part in KINDS[kind].items()})
    if reader.at < len(data):
        raise Fault('Trailing', reader.at)
    return message


def written(message):
    """The bytes of a message."""
    return four(NUMBERS[message.kind]) + b''.join(part[1](getattr(message, name)) for name, part in KINDS[message.kind].items())


# ---- transcripts

class Sent(NamedTuple):
    """A message of a transcript: whether it goes to the user half, its length in bytes, and what it is."""
    is_down: bool
    size: int
    message: Message


class Transcript(NamedTuple):
    """What a run with --wire printed: the lines of its report, and its messages in their order."""
    report: list
    sent: list


WIRE = re.compile(r'([<>]) ((?:[0-9a-f][0-9a-f])*)')
COUNT = re.compile(r'messages ([0-9]+)')


def transcript(text):
    """What a split run printed with --wire, read. Lines behind the report that are no messages, or one that is none, are a ValueError."""
    lines = text.splitlines()
    first = next((n for n, it in enumerate(lines) if WIRE.fullmatch(it) or COUNT.fullmatch(it)), len(lines))
    sent = []
    for number, line in enumerate(lines[first:], first + 1):
        match = WIRE.fullmatch(line)
        if match:
            data = bytes.fromhex(match[2])
            sent.append(Sent(match[1] == '>', len(data), read(data)))
        elif not COUNT.fullmatch(line) or number < len(lines) or int(COUNT.fullmatch(line)[1]) != len(sent):
            raise ValueError(f'line {number} is none of a transcript')
    return Transcript(lines[:first], sent)
