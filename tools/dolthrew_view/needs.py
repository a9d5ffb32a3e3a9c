"""The least green that a group needs for a target, computed here from its definition (docs/DEFINITIONS.md)."""
from dataclasses import dataclass
from fractions import Fraction

from .junctions import LONGEST_GREEN

# What a group needs for which no green is enough.
UNSERVED = LONGEST_GREEN + 1


@dataclass(frozen=True)
class Target:
    """A multiple of all flows that lanes have to reach, or to beat."""
    multiple: Fraction
    to_beat: bool

    def is_served(self, multiplier):
        return multiplier > self.multiple if self.to_beat else multiplier >= self.multiple


def effective_green(group, green):
    """In seconds."""
    return green + group.end_gain - group.start_lost


def lane_saturation(lane, group, green, cycle):
    """The lane's degree of saturation."""
    return Fraction(lane.arrival * cycle, lane.saturation * effective_green(group, green))


def lane_multiplier(lane, group, green, cycle):
    """How far the lane's flow may grow until it is at its limit."""
    return Fraction(lane.limit * lane.saturation * effective_green(group, green), 1000 * lane.arrival * cycle)


def plan_multiplier(junction, plan):
    """The least multiplier of the lanes on which something arrives."""
    return min(lane_multiplier(lane, junction.groups[lane.group], plan.greens[lane.group], plan.cycle)
               for lane in junction.lanes if lane.arrival)


def short_lanes(junction, target, cycle, number, green):
    """The lanes of a group, as numbered, that don't meet the target with a green."""
    group = junction.groups[number]
    return [lane for lane in junction.lanes if lane.group == number and lane.arrival > 0
            and not target.is_served(lane_multiplier(lane, group, green, cycle))]


def need(junction, target, cycle, number):
    """The least green of a group that is enough, in seconds; UNSERVED where none is."""
    group = junction.groups[number]
    greens = range(group.min_green, group.max_green + 1)
    return next((green for green in greens if not short_lanes(junction, target, cycle, number, green)), UNSERVED)


def needs(junction, target, cycle):
    """The need of each group."""
    return [need(junction, target, cycle, number) for number in range(len(junction.groups))]


def asking_lanes(junction, target, cycle, number):
    """The lanes for which a second less isn't enough; none where the minimum green alone asks for it."""
    least = need(junction, target, cycle, number)
    if least == junction.groups[number].min_green:
        return []
    return short_lanes(junction, target, cycle, number, min(least - 1, junction.groups[number].max_green))
