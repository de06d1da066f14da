"""Runs of one case of a test: what differed from what is expected, and where in the driver that comes from.

A place is found by budgets: a run with N ticks stops at the statement that wants the next one. So the least budget with
which a run shows something, less one, leads to the statement that did it."""
from dataclasses import dataclass

from built import DEFAULT_TICKS, Refused, Stop
from mdt import Cells, Result, Seen, Stops, leaks


@dataclass(frozen=True)
class Failure:
    """A line of a test that doesn't hold: the line, what was expected, what came, and the place in the driver."""
    line: int
    wanted: str
    came: str
    place: str


def printed(report):
    """The lines of a report in front of its end, by commands."""
    return [[*([] if it.head.startswith('show ') else [it.head]), *it.events] for it in report.commands]


class Trial:
    """A case in one of the ways, with more lines of the device, if any: its script, and its report. `nows` may have the
    ticks of steps `now` that are known already."""

    def __init__(self, driver, tests, case, way, extra=(), nows=None, budget=DEFAULT_TICKS):
        self.driver, self.tests, self.case, self.way, self.extra, self.budget = driver, tests, case, way, extra, budget
        self.nows, self.parts = dict(nows or {}), {}
        for n, step in enumerate(case.steps):
            if step.is_now and n not in self.nows:
                self.nows[n] = self.part(n).ticks + 1
        self.report = self.part(len(case.steps))

    def part(self, count):
        """The report of the first so many steps."""
        if count not in self.parts:
            self.parts[count] = self.limited(self.budget, count)
        return self.parts[count]

    def limited(self, ticks, count=None):
        """The report of the first so many steps, or of all, with a budget of ticks."""
        count = len(self.case.steps) if count is None else count
        return self.driver.run(self.way, self.case.script(count, self.nows, self.extra), ticks)

    # ---- what is expected

    def broken(self, only_always=False):
        """The lines of what is expected that don't hold, each with its step and what came."""
        reached = len(self.report.commands)
        for n, step in enumerate(self.case.steps):
            events = self.report.commands[n].events if n < reached else []
            seen = Seen(events, self.report, lambda n=n: self.part(n + 1).objects, only_always)
            for it in step.expects:
                if self.way in it.ways and (it.always or not only_always) and (n < reached or isinstance(it, Stops)):
                    came = it.check(seen, self.tests.names)
                    if came:
                        yield n, it, came

    def failures(self):
        """What differed, each with its place."""
        found = [Failure(it.line, it.text, came, self.place(n, it)) for n, it, came in self.broken()]
        stop, lost = self.report.stop, self.case.lost(self.way)
        if stop and not self.case.stop(self.way):
            found.append(Failure(self.case.line, 'end ok', self.report.end, self.driver.place(stop)))
        if not stop and not lost and self.report.leaked:
            found.append(Failure(self.case.line, 'leaked 0', leaks(self.report.leaked), ''))
        return found

    # ---- places

    def place(self, n, expect):
        """Where in the driver it comes from that a line doesn't hold: where it stopped, where a cell changed last, or where
        the event came, else the result."""
        if isinstance(expect, Stops) or self.report.stop and n == len(self.report.commands) - 1:
            return self.driver.place(self.report.stop)
        if isinstance(expect, Cells):
            return self.place_of_change(n, expect)
        lines = printed(self.report)
        wanted = [k for k, it in enumerate(lines[n]) if not isinstance(expect, Result) and any(form.fullmatch(it) for form in expect.chain)]
        result = [k for k, it in enumerate(lines[n]) if it.startswith('ret ')]
        if not wanted + result:
            return ''
        before = sum(map(len, lines[:n])) + (wanted or result)[-1]
        return self.place_where(lambda report: sum(map(len, printed(report))) > before, len(self.case.steps))

    def place_of_change(self, n, expect):
        """Where cells became what they are behind a step."""
        def cells(report):
            try:
                return self.tests.names.cells(expect.path, report.objects)[:len(expect.values)]
            except Refused:
                return None
        at_end = cells(self.part(n + 1))
        return self.place_where(lambda report: cells(report) == at_end, n + 1)

    def place_where(self, holds, count):
        """The statement by which something came to hold in the first so many steps, if it holds at their end."""
        low, high = 0, self.part(count).ticks
        while high - low > 1:
            middle = (low + high) // 2
            low, high = (low, middle) if holds(self.limited(middle, count)) else (middle, high)
        return self.driver.place(self.wants(high, count)) if high else ''

    def wants(self, tick, count=None):
        """The statement that wants a tick, from 1; none where none does."""
        if tick > 1:
            return self.limited(tick - 1, count).stop
        first = self.case.steps[0].text.split()
        return Stop('Ticks', first[1], 1) if first[0] == 'call' else None
