"""Pictures with as much in them as may be: plans drawn by chance, which no program made and which no junction needs."""
import random
from fractions import Fraction

from dolthrew_view.certificates import Certificate, Plan
from dolthrew_view.junctions import Conflict, Group, Junction, Lane
from dolthrew_view.needs import Target
from dolthrew_view.orders import GREEN_OF_PAIR, LINK_BACK, Edge
from dolthrew_view.reasons import Question, Reason
from dolthrew_view.reports import GroupTimes, LaneFigures, Report, Stage
from dolthrew_view.shown import Shown
from dolthrew_view.timetables import AMBER, GREEN, RED, RED_AMBER, Timetable, runs_of

MOST_GROUPS = 16
MOST_LANES = 32
CYCLES = (2, 10, 37, 120, 299, 300)
NAMES = ("W" * 14 + "%02d", "G%02d", "M%d")


def crowded(seed):
    """What is shown of the plan of a number; it has the same groups, lanes and times each time."""
    draws = random.Random(seed)
    junction = junction_of(draws)
    cycle = draws.choice(CYCLES)
    groups = len(junction.groups)
    lengths = (1, 2, 5, cycle // 3, cycle - 1, cycle - 7)
    plan = Plan(cycle, tuple(draws.randrange(cycle) for _ in range(groups)),
                tuple(min(max(draws.choice(lengths), 1), cycle - 1) for _ in range(groups)))
    certificate = Certificate((), 1, "capacity", Fraction(1), plan)
    report = report_of(draws, junction, plan)
    timetable = timetable_of(junction, plan)
    return Shown(junction, certificate, "proved capacity", report, timetable, reason_of(plan), (b"", b""))


def junction_of(draws):
    name = draws.choice(NAMES)
    groups = tuple(Group(name % number, 1, draws.randint(0, 6), draws.randint(0, 3), 0, 0, 300)
                   for number in range(draws.randint(2, MOST_GROUPS)))
    lanes = tuple(Lane("W" * 14 + "%02d" % number, draws.randrange(len(groups)), draws.choice((1, 20000)),
                       draws.choice((1, 20000)), draws.choice((1, 1000))) for number in range(MOST_LANES))
    return Junction(1, "W" * 60, 1, 300, groups, lanes, (Conflict(0, 1, 5, 5),), ())


def is_green(plan, group, second):
    return (second - plan.starts[group]) % plan.cycle < plan.greens[group]


def aspect(junction, plan, number, second):
    group = junction.groups[number]
    if is_green(plan, number, second):
        return GREEN
    if any(is_green(plan, number, second - back) for back in range(1, group.amber + 1)):
        return AMBER
    return RED_AMBER if any(is_green(plan, number, second + ahead) for ahead in range(1, group.red_amber + 1)) else RED


def timetable_of(junction, plan):
    columns = ([aspect(junction, plan, number, second) for second in range(plan.cycle)]
               for number in range(len(junction.groups)))
    return Timetable(plan.cycle, tuple(map(runs_of, columns)))


def report_of(draws, junction, plan):
    degrees = [Fraction(lane.arrival, 1 + draws.randrange(20000)) for lane in junction.lanes]
    report = Report(junction.title, "capacity", Fraction(1), 1, plan.cycle, Fraction(1), Fraction(0))
    names = [group.name for group in junction.groups]
    report.groups = [GroupTimes(*times) for times in zip(names, plan.starts, plan.greens)]
    report.lanes = [LaneFigures(lane.name, degree, draws.choice((None, Fraction(9999999, 7))))
                    for lane, degree in zip(junction.lanes, degrees)]
    firsts = sorted({second for group, green in zip(plan.starts, plan.greens)
                     for second in (group, (group + green) % plan.cycle)})
    for number, (first, after) in enumerate(zip(firsts, firsts[1:] + [firsts[0] + plan.cycle]), 1):
        green = tuple(group.name for group_number, group in enumerate(junction.groups)
                      if is_green(plan, group_number, first))
        report.stages.append(Stage(number, first, after - first, green))
    return report


def reason_of(plan):
    """A walk through all groups, half of its steps by links."""
    walk = tuple(range(len(plan.starts)))
    edges = tuple(Edge(u, v, LINK_BACK, -u, 0) if u % 2 else
                  Edge(u, v, GREEN_OF_PAIR, plan.greens[u] + 6, 0 if v else 1, plan.greens[u] + 1)
                  for u, v in zip(walk, walk[1:] + walk[:1]))
    question = Question(Target(Fraction(1), True), plan.cycle, [])
    return Reason("Why no more is possible", "W" * 400, question, walk, edges, "words " * 200)
