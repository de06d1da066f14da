"""Places in a driver's source: words, and statements by their numbers.

It reads the tokens of a source, and of its functions as much as numbers of statements need. It judges nothing: what it
says of a source that the program refuses is a guess."""
import re

TOKEN = re.compile(rb'(?P<blank>[ \t\r\n]+|/\*.*?(?:\*/|\Z)|//[^\n]*|\#[^\n]*)|(?P<word>[A-Za-z_][A-Za-z0-9_]*)|(?P<number>[0-9][A-Za-z0-9_.]*)'
                   rb'|(?P<text>"(?:\\.|[^"\\\n])*"?|\'(?:\\.|[^\'\\\n])*\'?)|(?P<mark>\.\.\.|<<=|>>=|->|==|!=|<=|>=|<<|>>|&&|\|\||[-+*/%&|^]=|\+\+|--|.)', re.S)
QUALIFIERS = {'static', 'const', 'inline', 'volatile'}
TYPES = {'u8', 'u16', 'u32', 'u64', 's8', 's16', 's32', 's64', 'char', 'signed', 'unsigned', 'short', 'int', 'long', 'void', 'struct', 'combolock_t'}
ASSIGNING = {'=', '+=', '-=', '*=', '/=', '%=', '&=', '|=', '^=', '<<=', '>>='}
CONTROL = {'if', 'while', 'for', 'switch', 'return', 'sizeof'}
OPENING, CLOSING = {'(': ')', '[': ']', '{': '}'}, {')', ']', '}'}


class Token:
    def __init__(self, match):
        self.text, self.at, self.is_word = match[0].decode('latin-1'), match.start(), match.lastgroup == 'word'


def tokens_of(text):
    """The tokens, behind which a last one stands that is empty."""
    found = [Token(it) for it in TOKEN.finditer(text) if it.lastgroup != 'blank']
    end = Token(re.compile(rb'\Z').search(text))
    return found + [end]


def place_of(text, at):
    """The line and the column of an offset, both from 1."""
    before = text[:at]
    return before.count(b'\n') + 1, at - (before.rfind(b'\n') + 1) + 1


def offset_of(text, line, column):
    return sum(len(it) + 1 for it in text.split(b'\n')[:line - 1]) + column - 1


def word_length(line, at):
    """How many bytes the token at an offset of a line has, at least one."""
    match = TOKEN.match(line, at)
    return max(1, match.end() - at) if match else 1


# ---- words near a place

def around(text, line, column):
    """The tokens of the file, and the number of the one at a place."""
    at, tokens = offset_of(text, line, column), tokens_of(text)
    return tokens, next((n for n, it in enumerate(tokens) if it.at >= at), len(tokens) - 1)


def words_near(text, line, column):
    """The word at a place, and the one right before."""
    tokens, n = around(text, line, column)
    return [it.text for it in (tokens[n], tokens[n - 1] if n else tokens[n]) if it.is_word]


def is_in_condition(tokens, n):
    """Whether a token stands in the parentheses of an `if` or a `while`, however deep."""
    depth = 0
    for k in range(n - 1, 0, -1):
        depth += (tokens[k].text == ')') - (tokens[k].text == '(')
        if depth < 0 and tokens[k - 1].text in ('if', 'while'):
            return True
        if tokens[k].text in ('{', '}', ';'):
            return False
        depth = max(depth, 0)
    return False


def in_two_words(text, tokens, n):
    """What may be meant where a word stands behind another, and can't."""
    at, before = tokens[n], tokens[n - 1]
    if b'\n' in text[before.at:at.at]:
        return f'Is a ";" missing behind {before.text} in the line above?'
    if n == 1 or tokens[n - 2].text in (';', '{', '}', '(', ',') or tokens[n - 2].text in QUALIFIERS:
        return f'Is {before.text} meant as a type? There is none of this name.'
    return None


def expected(text, tokens, n):
    """What may be meant where a token stands that can't stand there."""
    at, before = tokens[n].text, tokens[n - 1].text if n else ''
    if not at:
        return 'The file ends here: something that is open isn\'t closed.'
    if at == '=' and is_in_condition(tokens, n):
        return 'An assignment is a statement of its own: assign first, and test behind it.'
    if 'enum' in (at, before):
        return 'An enum is a list of constants at the top of the file, enum { A, B = 2 }; it has no name, and is no type: use u32 or s32.'
    if at == ']' and before == '[':
        return 'An array\'s length is written out.'
    if at in ('[', '.') and before in ('{', ','):
        return 'Elements of an array are listed in their order; .FIELD = stands in a struct\'s braces alone.'
    if at in QUALIFIERS and before == '__critical':
        return 'static stands in front of __critical.'
    if at in ('{', '"') and before == '=':
        return 'A local is set element by element; braces stand in first values of globals.'
    if at == '*' and before in ('const', 'volatile') or before == '*' and at in ('const', 'volatile'):
        return 'const and volatile stand in front of the type.'
    if tokens[n].is_word and n and tokens[n - 1].is_word and before not in TYPES | QUALIFIERS:
        return in_two_words(text, tokens, n)
    return None


MISMATCH = {
    'return': 'A void function returns no value; another returns one that becomes its result.',
    'break': 'break stands in a loop alone.',
    'continue': 'continue stands in a loop alone.',
}


def hint(text, line, column, kind):
    """What usually helps, from the token that stands at the place."""
    tokens, n = around(text, line, column)
    at = tokens[n].text
    if kind == 'BadByte' and text.split(b'\n')[line - 1].lstrip().startswith(b'#'):
        return 'A line with a # is "#include ..", which is skipped, or "#define NAME NUMBER", one whole number, with - in front or not. workbench/prep ' \
               'FILE writes other macros out; an enum { NAME = NUMBER }; gives names to numbers, too.'
    if kind == 'Expected':
        return expected(text, tokens, n)
    if kind == 'Mismatch' and at in ASSIGNING:
        return 'What stands behind this doesn\'t become what stands before it: a pointer becomes a pointer of its own type or void *, only a literal 0 and ' \
               'NULL are null pointers, and structs aren\'t assigned.'
    if kind == 'Mismatch' and at in MISMATCH:
        return MISMATCH[at]
    if kind == 'Mismatch' and tokens[n].is_word and tokens[min(n + 1, len(tokens) - 1)].text == '(':
        return f'An argument of {at} is of another type than its parameter, or the declarations of {at} differ, or it is no function.'
    return None


# ---- functions

def matching(tokens, n):
    """The number of the token that closes what the token n opens."""
    depth = 0
    for k in range(n, len(tokens)):
        depth += (tokens[k].text in OPENING) - (tokens[k].text in CLOSING)
        if depth == 0:
            return k
    return len(tokens) - 1


def end_of_item(tokens, n):
    """Where the `;` or the body of the item at n stands, at the top of the file, and where its first `(` does."""
    first, k = None, n
    while k < len(tokens) - 1 and tokens[k].text not in (';', '{'):
        first = k if first is None and tokens[k].text == '(' else first
        k = matching(tokens, k) + 1 if tokens[k].text in OPENING else k + 1
    return k, first


def functions(tokens):
    """The functions with bodies: the number of the token that names one, and that of its body's `{`."""
    n = 0
    while n < len(tokens) - 1:
        k, first = end_of_item(tokens, n)
        if tokens[k].text != '{':
            n = k + 1
            continue
        is_function = first is not None and all(it.text != '=' for it in tokens[n:k])
        if is_function:
            yield first - 1, k
        n = matching(tokens, k) + 1
        if not is_function:
            n = end_of_item(tokens, n)[0] + 1


# ---- bodies

class Body:
    """The statements of a body in the order of their numbers: `places` has the tokens at which they begin."""

    def __init__(self, tokens, n):
        self.tokens, self.places = tokens, []
        self.statement(n)

    def text(self, n):
        return self.tokens[min(n, len(self.tokens) - 1)].text

    def until(self, n, marks):
        """Where the first of the marks stands from n on, in no brackets."""
        while n < len(self.tokens) - 1 and self.text(n) not in marks and self.text(n) not in CLOSING:
            n = matching(self.tokens, n) + 1 if self.text(n) in OPENING else n + 1
        return n

    def statement(self, n):
        """Takes the statement at n; where it ends."""
        text = self.text(n)
        if text == '{':
            return self.block(n)
        if text in ('case', 'default'):
            return self.statement(self.until(n, ':') + 1)
        if text in ('if', 'while', 'for', 'switch'):
            return self.headed(n)
        if text == 'do':
            return self.do(n)
        if text in TYPES | QUALIFIERS:
            return self.local(n)
        self.places.append(n)
        return self.until(n, ';') + 1

    def block(self, n):
        n += 1
        while n < len(self.tokens) - 1 and self.text(n) != '}':
            n = max(self.statement(n), n + 1)
        return n + 1

    def headed(self, n):
        """An `if`, a loop, or a `switch`."""
        self.places.append(n)
        after = self.statement(matching(self.tokens, n + 1) + 1)
        if self.text(n) == 'if' and self.text(after) == 'else':
            after = self.statement(after + 1)
        return after

    def do(self, n):
        self.places.append(n)
        return self.until(self.statement(n + 1), ';') + 1

    def local(self, n):
        """A declaration, each declarator of which has a number."""
        while self.text(n) in TYPES | QUALIFIERS:
            n += 2 if self.text(n) == 'struct' else 1
        while True:
            name = n
            while self.text(name) in ('*', '('):
                name += 1
            self.places.append(name)
            end = self.until(n, (';', ','))
            if self.text(end) != ',':
                return end + 1
            n = end + 1


def statement(text, function, number):
    """The line and the column of a statement by its number, from 1, in a function; of number 0 the function's own."""
    tokens = tokens_of(text)
    for name, body in functions(tokens):
        if tokens[name].text.encode('latin-1') == function:
            at = Body(tokens, body).places[number - 1] if number else name
            return place_of(text, tokens[at].at)
    return None
