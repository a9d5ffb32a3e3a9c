"""What each group shows over one cycle, from the rows of `play`."""
from dataclasses import dataclass

from .fault import Fault

GREEN = "green"
AMBER = "amber"
RED_AMBER = "red_amber"
RED = "red"
ASPECTS = (GREEN, AMBER, RED_AMBER, RED)


@dataclass(frozen=True)
class Run:
    """Seconds of one aspect, from the first on; they may pass the cycle's end."""
    aspect: str
    first: int
    seconds: int

    def last_end(self, cycle):
        """The second, below the cycle, at which the run is over."""
        return (self.first + self.seconds) % cycle

    def pieces(self, cycle):
        """Its begin and end within the cycle: two pieces where it passes the end."""
        end = self.first + self.seconds
        return [(self.first, end)] if end <= cycle else [(self.first, cycle), (0, end - cycle)]


@dataclass(frozen=True)
class Timetable:
    """For each group its runs, by rising first second."""
    cycle: int
    runs: tuple[tuple[Run, ...], ...]

    def green(self, group):
        """The one green of a group."""
        return next(run for run in self.runs[group] if run.aspect == GREEN)

    def intergreen(self, u, v):
        """The seconds from the end of a group's green to the next start of another one's."""
        return (self.green(v).first - self.green(u).last_end(self.cycle)) % self.cycle


def read_timetable(text, names):
    """The timetable of the rows of one cycle, whose header tells these names."""
    header, *rows = (line.split(",") for line in text.splitlines())
    if header != ["second", *names] or not rows:
        raise Fault("the rows of play have another header than the groups of the junction")
    columns = list(zip(*rows))[1:]
    return Timetable(len(rows), tuple(runs_of(column) for column in columns))


def runs_of(column):
    """The runs of a group round the cycle: where its first and last seconds show one aspect, they are one run."""
    cycle = len(column)
    firsts = [second for second in range(cycle) if column[second] != column[second - 1]]
    if not firsts:
        return (Run(column[0], 0, cycle),)
    ends = firsts[1:] + [firsts[0] + cycle]
    return tuple(Run(column[first], first, end - first) for first, end in zip(firsts, ends))
