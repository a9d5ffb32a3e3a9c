"""What a report of the program tells by the definitions (docs/DEFINITIONS.md), against which each report is held."""
from dataclasses import replace

from .fault import Fault
from .needs import lane_saturation, plan_multiplier
from .reports import GroupTimes, LaneFigures, Report, Stage
from .timetables import runs_of

# Stands for a mean delay where only that there is one is known.
DELAY = "a delay"

# The parts of a report as a fault tells them.
PARTS = {
    "title": "junction",
    "claim": "claim",
    "least": "least multiple",
    "nodes": "number of nodes",
    "cycle": "cycle",
    "multiplier": "multiplier",
    "reserve": "reserve",
    "groups": "list of groups",
    "lanes": "list of lanes",
    "stages": "list of stages",
}


def see_that_it_is_of(report, junction, certificate, name):
    """A fault where the report tells anything else of these than the definitions do. Lengths of delays aren't held."""
    defined = defined_report(junction, certificate)
    told = replace(report, lanes=[replace(lane, delay=None if lane.delay is None else DELAY) for lane in report.lanes])
    for part, words in PARTS.items():
        if getattr(told, part) != getattr(defined, part):
            raise Fault("%s: it isn't the report of this certificate: it has another %s" % (name, words))


def defined_report(junction, certificate):
    """The report that is due; DELAY stands for each mean delay."""
    plan = certificate.plan
    report = Report(junction.title, certificate.claim, certificate.least, visited_nodes(certificate))
    if plan is None:
        return report
    multiplier = plan_multiplier(junction, plan)
    return replace(report, cycle=plan.cycle, multiplier=multiplier, reserve=(multiplier - 1) * 100,
                   groups=groups_of(junction, plan), lanes=lanes_of(junction, plan), stages=stages_of(junction, plan))


def visited_nodes(certificate):
    return sum(len(tree) - tree.count(None) for tree in certificate.branches)


def groups_of(junction, plan):
    return [GroupTimes(group.name, start, green)
            for group, start, green in zip(junction.groups, plan.starts, plan.greens)]


def lanes_of(junction, plan):
    """A saturated lane has no mean delay."""
    lanes = []
    for lane in junction.lanes:
        saturation = lane_saturation(lane, junction.groups[lane.group], plan.greens[lane.group], plan.cycle)
        lanes.append(LaneFigures(lane.name, saturation, DELAY if saturation < 1 else None))
    return lanes


def stages_of(junction, plan):
    """The runs of seconds round the cycle in which the same groups are green, of which there are some."""
    greens = [tuple(group.name for group, start, green in zip(junction.groups, plan.starts, plan.greens)
                    if (second - start) % plan.cycle < green) for second in range(plan.cycle)]
    runs = [run for run in runs_of(greens) if run.aspect]
    return [Stage(number, run.first, run.seconds, run.aspect) for number, run in enumerate(runs, 1)]
