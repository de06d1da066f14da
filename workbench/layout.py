"""Names of a driver's source: its numbers (each `#define` and enumerator), and the cells of its globals.

An object is cells: an integer, a pointer and a lock are one each, a struct is its fields in their order, an array its
elements. `cell` finds the cell of a name such as `port.queue.bytes[2]`, over pointers too (`card.ring[0]->len`)."""
import re
from dataclasses import dataclass

from built import Refused
from places import QUALIFIERS, TOKEN, TYPES, end_of_item, matching, tokens_of

DEFINE = re.compile(r'#\s*define\s+(\w+)\s+(-?)\s*(\w+)')
STEP = re.compile(r'\.(\w+)|->(\w+)|\[(\w+)\]')
PATH = re.compile(r'(\w+)((?:\.\w+|->\w+|\[\w+\])*)')
ANNOTATION = {'__array', '__sentinel', '__nullterm', '__opaque'}


class Nowhere(Refused):
    """A name leads through a pointer to no object."""


@dataclass(frozen=True)
class Type:
    """A type as far as cells go: a struct by its name, a pointer or an array of another type, or one plain cell."""
    struct: str = ''
    pointer: 'Type | None' = None
    array: 'Type | None' = None
    length: int = 1


def number_of(text):
    """The value of a number of C, or none."""
    text = re.sub('[uUlL]+$', '', text)
    try:
        return int(text, 8) if re.fullmatch('0[0-7]+', text) else int(text, 0)
    except ValueError:
        return None


class Names:
    """The numbers, structs and globals of a source."""

    def __init__(self, text):
        self.numbers, self.structs, self.globals = {}, {}, {}
        self.tokens = tokens_of(text)
        for match in TOKEN.finditer(text):
            self.define(match[0].decode('latin-1'))
        self.items()

    def define(self, text):
        """Takes what may be a `#define`."""
        match = DEFINE.match(text)
        value = number_of(match[3]) if match else None
        if value is not None:
            self.numbers[match[1]] = -value if match[2] else value

    def number(self, word):
        """The value of a word: a number or a name of one, with - in front or not, or several with | between."""
        parts = [self.one(it) for it in word.split('|')]
        if None in parts:
            return None
        value = 0
        for it in parts:
            value |= it
        return value

    def one(self, word):
        """The value of one number, of a letter such as 'a', or of a name of one."""
        if re.fullmatch("'[ -~]'", word):
            return ord(word[1])
        name = word.removeprefix('-')
        value = self.numbers.get(name, number_of(name) if re.fullmatch(r'\w+', name) else None)
        return -value if value is not None and word != name else value

    # ---- declarations

    def text(self, n):
        return self.tokens[min(n, len(self.tokens) - 1)].text

    def items(self):
        """Takes each item at the top of the file."""
        n = 0
        while n < len(self.tokens) - 1:
            end, first = end_of_item(self.tokens, n)
            start = self.behind_qualifiers(n)
            if self.text(start) == 'enum' and self.text(start + 1) == '{':
                self.enum(start + 2)
            elif self.text(start) == 'struct' and self.text(start + 2) == '{':
                self.structs[self.text(start + 1)] = list(self.fields(start + 3))
            elif first is None or self.is_variable(start, end):
                end = self.end_of_global(n)
                self.globals.update(self.declarators(start, end))
            n = self.next_item(n, end)

    def behind_qualifiers(self, n):
        while self.text(n) in QUALIFIERS | {'__critical'}:
            n += 1
        return n

    def is_variable(self, n, end):
        """Whether an item with parentheses is no function: a pointer to one, an annotation, or a first value."""
        type_end = n + (2 if self.text(n) == 'struct' else 1)
        while self.text(type_end) in TYPES or self.text(type_end) == '*':
            type_end += 1
        return self.text(type_end) == '(' or self.text(type_end + 1) in ANNOTATION | {'=', '['} or any(self.text(k) == '=' for k in range(n, end))

    def end_of_global(self, n):
        """Where the `;` of a global stands, behind the braces of its first value."""
        while n < len(self.tokens) - 1 and self.text(n) != ';':
            n = matching(self.tokens, n) + 1 if self.text(n) in ('(', '[', '{') else n + 1
        return n

    def next_item(self, n, end):
        """Where the next item begins: behind the `;`, or behind the body of a function."""
        if self.text(end) != '{':
            return end + 1
        after = matching(self.tokens, end) + 1
        return after + (self.text(after) == ';')

    def enum(self, n):
        """Takes the enumerators from n on."""
        value = 0
        while n < len(self.tokens) - 1 and self.text(n) != '}':
            name, n = self.text(n), n + 1
            if self.text(n) == '=':
                end = n + 1
                while self.text(end) not in (',', '}'):
                    end += 1
                value, n = self.number(''.join(self.text(k) for k in range(n + 1, end))) or 0, end
            self.numbers[name], value = value, value + 1
            n += self.text(n) == ','

    def fields(self, n):
        """The fields of the struct whose first one is at n, each with its type."""
        while n < len(self.tokens) - 1 and self.text(n) != '}':
            end = self.end_of_global(n)
            yield from self.declarators(self.behind_qualifiers(n), end)
            n = end + 1

    def declarators(self, n, end):
        """The names of a declaration that ends at `end`, each with its type."""
        struct = self.text(n + 1) if self.text(n) == 'struct' else ''
        n += 2 if struct else 1
        while self.text(n) in TYPES:
            n += 1
        while n < end:
            name, of, n = self.declarator(n, Type(struct))
            yield name, of
            while n < end and self.text(n) != ',':
                n = matching(self.tokens, n) + 1 if self.text(n) in ('(', '[', '{') else n + 1
            n += 1

    def declarator(self, n, of):
        """One name with its type, and where it goes on behind both."""
        while self.text(n) == '*':
            of, n = Type(pointer=of), n + 1
        if self.text(n) == '(':
            # (a pointer to a function: one cell, and an array of them has its length within the parentheses)
            of, n = Type(), n + 2
        name, n = self.text(n), n + 1
        if self.text(n) == '[':
            of, n = Type(array=of, length=self.number(self.text(n + 1)) or 1), n + 3
        return name, of, n

    # ---- cells

    def size(self, of):
        """How many cells a type has."""
        if of.array:
            return of.length * self.size(of.array)
        return sum(self.size(it) for _, it in self.structs.get(of.struct, [])) if of.struct else 1

    def field(self, of, name):
        """The offset of a field and its type."""
        at = 0
        for other, its in self.structs.get(of.struct, []):
            if other == name:
                return at, its
            at += self.size(its)
        raise Refused(f'no field {name}' + (f' in struct {of.struct}' if of.struct else ' here'))

    def object_of(self, name):
        """The number of a global among a report's objects, and its type."""
        if name not in self.globals:
            raise Refused(f'no global {name}')
        return list(self.globals).index(name) + 1, self.globals[name]

    def cells(self, path, objects):
        """The cells from a name on, to the end of its object, as a report's objects have them."""
        match = PATH.fullmatch(path)
        if not match:
            raise Refused(f'{path} is no name of a cell')
        number, of = self.object_of(match[1])
        at = 0
        for field, behind, index in STEP.findall(match[2]):
            if (behind or index) and of.pointer:
                number, at = followed(path, objects[number][2], at)
                of = of.pointer
            if index:
                of, at = self.element(path, of, at, index)
            else:
                offset, of = self.field(of, field or behind)
                at += offset
        return objects[number][2][at:]

    def element(self, path, of, at, index):
        """The type and the cell of an element: of an array, or behind a pointer that was followed."""
        value = self.number(index)
        if value is None or of.array and not 0 <= value < of.length:
            raise Refused(f'{path}: no element {index}')
        of = of.array or of
        return of, at + value * self.size(of)


def followed(path, cells, at):
    """The object and the cell to which the pointer in a cell of an object leads."""
    value = cells[at] if at < len(cells) else 'what is past the end'
    match = re.fullmatch(r'@([0-9]+)\+([0-9]+)', value)
    if not match:
        raise Nowhere(f'{path}: {value} leads nowhere')
    return int(match[1]), int(match[2])
