"""One case run once for each moment at which something may go wrong: an interrupt at each tick, a refusal of each allocation.

The ends of these runs are told once each, with the least number and how often. An end is how the run ended, how many
blocks leaked, and what was `always` expected and doesn't hold."""
from dataclasses import dataclass

from built import each
from mdt import leaks
from trial import Trial

# A swept run may take so many times the ticks of the plain one, and so many more, before it counts as endless.
TIMES, MORE = 4, 10_000
MOST_LINES = 9_000


@dataclass(frozen=True)
class End:
    """How a swept run ended, in words, and whether that is as it should be."""
    text: str
    well: bool


def end_of(trial):
    """The end of a swept run. It is well where the driver doesn't stop, or as it is expected of the case."""
    stop, wanted = trial.report.stop, trial.case.stop(trial.way)
    as_wanted = not stop or wanted and wanted.is_met(stop)
    parts = [trial.report.end]
    lost = trial.report.leaked
    if lost:
        parts.append(leaks(lost))
    held = [f'line {it.line}: always {it.text}, came {came}' for _, it, came in trial.broken(only_always=True)]
    return End(', '.join(parts + held), bool(as_wanted) and not held and lost == (0 if stop else trial.case.lost(trial.way)))


class Sweep:
    """The runs of a case beside a plain one: what each is called, which lines of the device the run N has beside, and the
    place that N stands for."""
    what = ''

    def __init__(self, plain):
        self.plain = plain
        self.budget = TIMES * plain.report.ticks + MORE

    def trial(self, extra, nows=None):
        plain = self.plain
        return Trial(plain.driver, plain.tests, plain.case, plain.way, extra, nows, self.budget)

    def count(self):
        """How many runs there are."""
        raise NotImplementedError

    def run(self, number):
        raise NotImplementedError

    def place(self, number):
        """In words, where in the driver something happened."""
        raise NotImplementedError

    def lines(self, jobs):
        """What failed, and what is told beside: each different end once."""
        count, case = self.count(), self.plain.case
        found = {}
        for number, (end, stop) in enumerate(each(self.ended, range(1, count + 1), f'{case.name}: {self.what}', jobs), 1):
            found.setdefault(end, []).append((number, stop))
        failed = [line for end, runs in found.items() if not end.well for line in self.told(end, runs, count)]
        good = sum(len(runs) for end, runs in found.items() if end.well)
        return failed, [f'{good} of {count} {self.what}s end as they should']

    def ended(self, number):
        trial = self.run(number)
        return end_of(trial), trial.report.stop

    def told(self, end, runs, count):
        """The lines of an end."""
        number, stop = runs[0]
        yield f'{end.text}: {len(runs)} of {count} {self.what}s, the first is {number}'
        if self.plain.driver.place(stop):
            yield f'    {self.plain.driver.place(stop)}'
        yield f'    {self.place(number)}'


class AtEachTick(Sweep):
    """The interrupt line is raised at each tick, or the device does what the file's `sweep` says."""
    what = 'tick'

    def count(self):
        return self.plain.report.ticks

    def run(self, number):
        # (what happens before the tick is as in the plain run, and so are the ticks of what happens `now`)
        known = {n: tick for n, tick in self.plain.nows.items() if tick <= number}
        return self.trial([f'on tick {number} do {self.plain.tests.sweep}'], known)

    def place(self, number):
        place = self.plain.driver.place(self.plain.wants(number + 1)) if number < self.count() else ''
        return f'raised before {place}' if place else 'raised where no code runs'


class EachRefused(Sweep):
    """Each allocation is refused."""
    what = 'allocation'

    def count(self):
        """How many allocations there are: behind the last one, nothing changes where all are refused."""
        low, high = 0, self.plain.report.ticks
        while high > low:
            middle = (low + high) // 2
            low, high = (low, middle) if self.is_last(middle) else (middle + 1, high)
        return high

    def is_last(self, number):
        """Whether no allocation comes behind so many."""
        most = min(self.plain.report.ticks, number + MOST_LINES)
        return self.trial([f'failalloc {it}' for it in range(number + 1, most + 1)]).report.text == self.plain.report.text

    def run(self, number):
        return self.trial([f'failalloc {number}'])

    def place(self, number):
        plain, refused = self.plain, self.run(number)
        count = len(plain.case.steps)
        place = plain.place_where(lambda report: report.text != refused.limited(report.ticks).text, count)
        return f'refused in {place}' if place else 'refused'
