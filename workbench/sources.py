"""The functions of a source: where they begin, whom they call by name, where a mark goes; and why functions stay in the kernel half.

It reads tokens, and judges nothing: which half a function is in, and what may call what, is the program's report."""
from places import CONTROL, QUALIFIERS, functions, matching, tokens_of


class Source:
    """The tokens of a source, and its functions: where each begins, is named, and has its body."""

    def __init__(self, text):
        self.text, self.tokens, self.functions = text, tokens_of(text), {}
        for name, body in functions(self.tokens):
            self.functions[self.word(name)] = (self.start(name), name, body)

    def word(self, n):
        return self.tokens[n].text

    def start(self, name):
        """The first token of the item in which a function is named."""
        while name and self.word(name - 1) not in (';', '}'):
            name -= 1
        return name

    def marked(self, function):
        """The source with `__critical` on a function, right before its type."""
        n = self.functions[function][0]
        while self.word(n) in QUALIFIERS:
            n += 1
        at = self.tokens[n].at
        return self.text[:at] + b'__critical ' + self.text[at:]

    def has_mark(self, function):
        start, name, _ = self.functions.get(function, (0, 0, 0))
        return any(self.word(n) == '__critical' for n in range(start, name))

    def body(self, function):
        """The tokens of a function's body, of one that isn't found none."""
        start = self.functions[function][2] if function in self.functions else 0
        return range(start, matching(self.tokens, start) if start else 0)

    def calls(self, caller, callee):
        """Whether the body of a function has a call by name."""
        return any(self.word(n) == callee and self.word(n + 1) == '(' for n in self.body(caller))

    def registers(self, caller, handler):
        """Whether a function gives `request_irq` a handler."""
        return any([self.word(n + k) for k in range(3)] == ['request_irq', '(', handler] for n in self.body(caller))

    def pointers(self, caller):
        """The last names of the pointers that a function calls through, as far as its text shows them."""
        names = [n for n in self.body(caller) if self.word(n + 1) == '(' and self.tokens[n].is_word]
        last = [self.word(n) for n in names if self.word(n - 1) in ('->', '.') or self.word(n) not in CONTROL and self.is_local(caller, n)]
        return list(dict.fromkeys(last))

    def is_local(self, caller, n):
        """Whether a name is declared in the function as a pointer to functions."""
        start = self.functions[caller][0]
        return any([self.word(k), self.word(k + 1), self.word(k + 2)] == ['*', self.word(n), ')'] for k in range(start, n))


def reasons(source, report):
    """Why each function of the kernel half stays there."""
    half = {name: which for name, which, _ in report.functions}
    for name, which, is_root in report.functions:
        if which == 'kernel':
            yield name, [*why_root(source, name, is_root), *why_called(source, report, half, name)]


def why_root(source, name, is_root):
    """The marks and the handlers' registrations by which a function is a root."""
    if is_root and source.has_mark(name):
        yield 'root: it is marked __critical'
    for other in source.functions if is_root else ():
        if source.registers(other, name):
            yield f'root: {other} registers it by request_irq'


def why_called(source, report, half, name):
    """The functions of the kernel half that may call a function, each with how."""
    for caller, callees in report.calls.items():
        if name in callees and half[caller] == 'kernel' and caller != name:
            if source.calls(caller, name):
                yield f'called by {caller}'
            else:
                through = ' or '.join(source.pointers(caller))
                yield f'may be called by {caller} through a pointer of its type{f" ({through})" if through else ""}'
