"""Reports of the program, read line by line."""
import re
from dataclasses import dataclass, field
from fractions import Fraction

from .fault import Fault

SATURATED = "over"

WHOLE = "[0-9]{1,18}"
FRACTION = "-?[0-9]{1,400}/[0-9]{1,400}"


@dataclass(frozen=True)
class GroupTimes:
    """Start and green in seconds."""
    name: str
    start: int
    green: int


@dataclass(frozen=True)
class LaneFigures:
    """The degree of saturation, and the mean delay in seconds per vehicle: None where the lane is saturated."""
    name: str
    saturation: Fraction
    delay: Fraction | None


@dataclass(frozen=True)
class Stage:
    """The groups that are green together, by name, from which second on and how long."""
    number: int
    first: int
    seconds: int
    groups: tuple[str, ...]


@dataclass
class Report:
    """Without a plan, cycle, multiplier and reserve are None, and the lists are empty."""
    title: str
    claim: str
    least: Fraction
    nodes: int
    cycle: int | None = None
    multiplier: Fraction | None = None
    reserve: Fraction | None = None
    groups: list[GroupTimes] = field(default_factory=list)
    lanes: list[LaneFigures] = field(default_factory=list)
    stages: list[Stage] = field(default_factory=list)


def read_report(text, name="the report"):
    """The report that a text is; the name is for the line of a fault."""
    try:
        return report_of(text.splitlines())
    except (ValueError, IndexError, KeyError, ZeroDivisionError):
        raise Fault("%s: no report of the program" % name) from None


def report_of(lines):
    title, claim, least, nodes = lines[:4]
    report = Report(title=after("junction", title), claim=after("claim", claim),
                    least=fraction(after("least", least)), nodes=whole(after("nodes", nodes)))
    for line in lines[4:]:
        word, rest = line.split(" ", 1)
        READERS[word](report, rest.split(" "))
    return report


def after(word, line):
    first, rest = line.split(" ", 1)
    if first != word:
        raise ValueError
    return rest


def whole(word):
    return int(written_as(WHOLE, word))


def fraction(word):
    return Fraction(written_as(FRACTION, word))


def written_as(form, word):
    """The word, if it has the form in which the program writes such a number."""
    if not re.fullmatch(form, word):
        raise ValueError
    return word


def read_cycle(report, words):
    [cycle] = words
    report.cycle = whole(cycle)


def read_multiplier(report, words):
    [multiplier] = words
    report.multiplier = fraction(multiplier)


def read_reserve(report, words):
    reserve, _, _ = words
    report.reserve = fraction(reserve)


def read_group(report, words):
    name, _, start, _, green = words
    report.groups.append(GroupTimes(name, whole(start), whole(green)))


def read_lane(report, words):
    name, _, saturation, _, delay = words
    report.lanes.append(LaneFigures(name, fraction(saturation), None if delay == SATURATED else fraction(delay)))


def read_stage(report, words):
    number, _, first, _, seconds, _, *groups = words
    report.stages.append(Stage(whole(number), whole(first), whole(seconds), tuple(groups)))


READERS = {
    "cycle": read_cycle,
    "multiplier": read_multiplier,
    "reserve": read_reserve,
    "group": read_group,
    "lane": read_lane,
    "stage": read_stage,
}
