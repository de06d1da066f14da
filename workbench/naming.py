"""Names for what messages say by numbers: functions, statements' lines, values, pointers, and cells by their globals and fields.

A block that is no global is named by its struct or type and its serial, `buf#4`: the news of a message tell of it."""
import re

import places
from layout import Names, Type
from messages import DEAD, FUNCTION, INTEGERS, NO_VALUE, NULL, POINTER

STRUCT = re.compile(r'struct (\w+)')
LAST = re.compile(r'(.*)\[([0-9]+)\]')


def type_of(text):
    """A type of the report's table, as far as cells go."""
    match = STRUCT.fullmatch(text)
    return Type(struct=match[1]) if match else Type()


class Naming:
    """The names of a source with its report, and of the blocks that live."""

    def __init__(self, text, report):
        self.text, self.report, self.names = text, report, Names(text)
        self.functions = [it for it, _, _ in report.functions]
        self.types = {int(number): its for number, its in report.types.items()}
        self.structs = [STRUCT.fullmatch(it)[1] for it in self.types.values() if STRUCT.fullmatch(it)]
        self.blocks = dict(enumerate(self.names.globals.items()))

    def told(self, message):
        """Takes the births that a message tells of. (A dead block keeps its name: messages may still name it.)"""
        for it in message.news:
            text = self.type(it.type)
            of = type_of(text)
            self.blocks[it.serial] = (f'{of.struct or text}#{it.serial}', Type(array=of, length=it.count) if it.count > 1 else of)

    # ---- functions and places

    def function(self, number):
        return self.functions[number] if number < len(self.functions) else f'function {number}'

    def type(self, number):
        return self.types.get(number, f'type {number}')

    def line(self, function, statement):
        """The line of a statement in the source, or none."""
        try:
            place = places.statement(self.text, self.function(function).encode(), statement)
        except IndexError:
            place = None
        return place[0] if place else None

    # ---- cells

    def path(self, of, at, wanted=None):
        """The steps to a cell of a type, or to the part of a wanted type that begins there; None behind the last cell."""
        steps = ''
        while not (at == 0 and of == wanted):
            if of.array:
                index, at = divmod(at, self.names.size(of.array))
                if index >= of.length:
                    return None
                steps, of = f'{steps}[{index}]', of.array
            elif of.struct in self.names.structs:
                name, of, at = self.field(of, at)
                if name is None:
                    return None
                steps = f'{steps}.{name}'
            else:
                return steps if at == 0 else None
        return steps

    def field(self, of, at):
        """The field of a struct in which a cell lies: its name, its type, and the cell in it."""
        for name, its in self.names.structs[of.struct]:
            if at < self.names.size(its):
                return name, its, at
            at -= self.names.size(its)
        return None, of, at

    def cell(self, serial, at, wanted=None):
        """The name of a cell."""
        name, of = self.blocks.get(serial, (f'block {serial}', None))
        path = self.path(of, at, wanted) if of else None
        return f'{name}+{at}' if path is None else name + path

    def cells(self, serial, first, length):
        """The names of cells that follow one another, elements of one array as one range; each with how many cells it is."""
        found = []
        for at in range(first, first + length):
            name = self.cell(serial, at)
            match = LAST.fullmatch(name)
            if found and match and found[-1][0] == match[1] and found[-1][2] + 1 == int(match[2]):
                found[-1][2] += 1
            else:
                found.append([match[1], int(match[2]), int(match[2])] if match else [name, None, None])
        for name, least, most in found:
            yield (name, 1) if least is None else (f'{name}[{least}]' if least == most else f'{name}[{least}..{most}]', most - least + 1)

    def parts(self, of, name, first, end):
        """The names of the largest whole parts that the cells from `first` to before `end` of a part are."""
        if of.array:
            yield from self.elements(of, name, first, end)
        elif of.struct not in self.names.structs or first <= 0 and end >= self.names.size(of):
            yield name
        else:
            at = 0
            for field, its in self.names.structs[of.struct]:
                size = self.names.size(its)
                if first < at + size and end > at:
                    yield from self.parts(its, f'{name}.{field}', first - at, end - at)
                at += size

    def elements(self, of, name, first, end):
        """The same of an array: what is left of its first element, the whole ones as a range, and what there is of the last."""
        size = self.names.size(of.array)
        first, end = max(first, 0), min(end, of.length * size)
        least, most = -(-first // size), end // size
        if least > most:
            yield from self.parts(of.array, f'{name}[{most}]', first - most * size, end - most * size)
            return
        if first % size:
            yield from self.parts(of.array, f'{name}[{least - 1}]', first % size, size)
        if least < most:
            yield f'{name}[{least}]' if least + 1 == most else f'{name}[{least}..{most - 1}]'
        if end % size:
            yield from self.parts(of.array, f'{name}[{most}]', 0, end % size)

    # ---- values

    def pointer(self, view):
        of = type_of(self.type(view.type))
        return f'&{self.cell(view.serial, view.first + view.index * self.names.size(of), of)}'

    def value(self, value):
        if value.tag < len(INTEGERS):
            return str(value.of)
        if value.tag == POINTER:
            return self.pointer(value.of)
        return f'&{self.function(value.of)}' if value.tag == FUNCTION else {NULL: 'null', DEAD: 'dead', NO_VALUE: 'none'}[value.tag]

    def values(self, values):
        return ', '.join(map(self.value, values))

    def run(self, run):
        """The cells of a run with what they hold, in names."""
        at = 0
        for name, length in self.cells(run.serial, run.first, len(run.values)):
            yield f'{name} = {" ".join(map(self.value, run.values[at:at + length]))}'
            at += length

    def view(self, view):
        """The names of visible cells."""
        for it in view:
            name, of = self.blocks.get(it.serial, (f'block {it.serial}', None))
            if of:
                yield from self.parts(of, name, it.first, it.first + it.length)
            else:
                yield f'{name}+{it.first}..{it.first + it.length - 1}'

    # ---- keys

    def key(self, words):
        """A key of a report in names: a field of a struct, a global, or elements of a type (which the report has named)."""
        match = re.fullmatch(r'(field ([0-9]+)|global) ([0-9]+)', words)
        if not match:
            return words
        if match[2] is None:
            return list(self.names.globals)[int(match[3])]
        struct = self.structs[int(match[2])]
        return f'struct {struct}.{self.names.structs[struct][int(match[3])][0]}'
