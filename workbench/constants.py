"""Constant expressions of C, of numbers alone: calculated as C99 does, where it says what comes out.

An integer is a number and its kind, one of s32, u32, s64 and u64 (C99 6.3.1.8, 6.4.4.1). What is undefined, or isn't
calculated here, has no value."""
import re

KINDS = {'s32': (32, True), 'u32': (32, False), 's64': (64, True), 'u64': (64, False)}
SUFFIX = {'s32': '', 'u32': 'u', 's64': 'l', 'u64': 'ul'}
NUMBER = re.compile(r'(0[xX][0-9a-fA-F]+|[0-9]+)([uUlL]*)')
# binary operators by how tightly they bind, the loosest first
LEVELS = [('||',), ('&&',), ('|',), ('^',), ('&',), ('==', '!='), ('<', '>', '<=', '>='), ('<<', '>>'), ('+', '-'), ('*', '/', '%')]
OPERATORS = {it for level in LEVELS for it in level} | {'~', '!'}


class NoValue(Exception):
    """An expression that isn't calculated."""


def fits(number, kind):
    bits, signed = KINDS[kind]
    return -(1 << bits - 1) <= number < 1 << bits - 1 if signed else 0 <= number < 1 << bits


def integer(text):
    """The number and the kind of a token, or none."""
    match = NUMBER.fullmatch(text)
    if not match:
        return None
    digits, suffix = match[1].lower(), match[2].lower()
    try:
        number = int(digits, 8 if re.fullmatch('0[0-7]+', digits) else 0)
    except ValueError:
        return None
    kinds = [it for it in KINDS if ('l' not in suffix or '64' in it) and ('u' not in suffix or it[0] == 'u')]
    if digits.isdigit() and digits[0] != '0' and 'u' not in suffix:
        kinds = [it for it in kinds if it[0] == 's']
    return next(((number, it) for it in kinds if fits(number, it)), None)


def made(number, kind):
    """A result in its kind: without a sign it wraps, with one it fits or is undefined."""
    if KINDS[kind][1] and not fits(number, kind):
        raise NoValue
    return number % (1 << KINDS[kind][0]) if not KINDS[kind][1] else number, kind


def common(left, right):
    """The kind in which two are calculated."""
    return max(left[1], right[1], key=list(KINDS).index)


def shifted(operator, left, right):
    bits = KINDS[left[1]][0]
    if not 0 <= right[0] < bits or operator == '<<' and left[0] < 0:
        raise NoValue
    return made(left[0] << right[0] if operator == '<<' else left[0] >> right[0], left[1])


def binary(operator, left, right):
    """What a binary operator gives."""
    if operator in ('<<', '>>'):
        return shifted(operator, left, right)
    if operator in ('&&', '||'):
        return int(bool(left[0]) and bool(right[0]) if operator == '&&' else bool(left[0]) or bool(right[0])), 's32'
    kind = common(left, right)
    a, b = (it[0] % (1 << KINDS[kind][0]) if not KINDS[kind][1] else it[0] for it in (left, right))
    if operator in ('==', '!=', '<', '>', '<=', '>='):
        return int({'==': a == b, '!=': a != b, '<': a < b, '>': a > b, '<=': a <= b, '>=': a >= b}[operator]), 's32'
    if operator in ('/', '%'):
        if b == 0:
            raise NoValue
        quotient = abs(a) // abs(b) * (1 if (a < 0) == (b < 0) else -1)
        return made(quotient, kind)[0] if operator == '/' else a - made(quotient, kind)[0] * b, kind
    return made({'+': a + b, '-': a - b, '*': a * b, '&': a & b, '|': a | b, '^': a ^ b}[operator], kind)


class Expression:
    """The tokens of an expression, read from the left; `names` are constants that are known."""

    def __init__(self, tokens, names):
        self.tokens, self.names, self.at = tokens, names, 0

    def next(self):
        return self.tokens[self.at] if self.at < len(self.tokens) else ''

    def take(self):
        self.at += 1
        return self.tokens[self.at - 1] if self.at <= len(self.tokens) else ''

    def level(self, n):
        """An expression of operators that bind at least as tightly as those of a level."""
        if n == len(LEVELS):
            return self.unary()
        left = self.level(n + 1)
        while self.next() in LEVELS[n]:
            operator = self.take()
            left = binary(operator, left, self.level(n + 1))
        return left

    def unary(self):
        token = self.take()
        if token in ('-', '+', '~'):
            number, kind = self.unary()
            return made({'-': -number, '+': number, '~': ~number}[token], kind)
        if token == '!':
            return int(not self.unary()[0]), 's32'
        if token == '(':
            inner = self.level(0)
            if self.take() != ')':
                raise NoValue
            return inner
        found = self.names.get(token) or integer(token)
        if not found:
            raise NoValue
        return found


def value(tokens, names):
    """The number and the kind of an expression, or none."""
    expression = Expression(tokens, names)
    try:
        found = expression.level(0)
    except NoValue:
        return None
    return found if expression.at == len(tokens) else None


def spelled(found):
    """A number with its kind as C has it, or none: the least of a kind with a sign has no spelling, and a number may be of a smaller kind."""
    number, kind = found
    text = f'{abs(number)}{SUFFIX[kind]}'
    return None if integer(text) != (abs(number), kind) else f'-{text}' if number < 0 else text
