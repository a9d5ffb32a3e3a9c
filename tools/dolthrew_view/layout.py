"""Where things stand in a diagram: groups below each other, seconds from left to right, lanes at the right."""
from dataclasses import dataclass

from .drawing import width_of
from .figures import delay_text, per_cent

MARGIN = 14
TOTAL_WIDTH = 1180
LEAST_PLOT = 560

# Left and right of the seconds, for a number that doesn't fit within a green.
OVERHANG = 24

# Between a column of names and what follows it.
NAME_GAP = 6

ROW_HEIGHT = 40
LANE_HEIGHT = 17
BAR_TOP = 13
BAR_HEIGHT = 14

# The columns of a lane behind its name: their widths, and the least ones of those that grow with their figures.
FLOW = 48
SATURATION_FLOW = 60
DEGREE = 92
LEAST_PER_CENT = 52
LEAST_DELAY = 50
COLUMN_GAP = 10
DIAMOND = 12

DELAY_PLACES = 1


@dataclass(frozen=True)
class Layout:
    """In the drawing's units; `tops` has the top of each group's row, and then the bottom of the last one."""
    cycle: int
    names: float
    lane_names: float
    per_cents: float
    delays: float
    top: float
    tops: tuple[float, ...]

    @property
    def plot_left(self):
        return MARGIN + self.names + OVERHANG

    @property
    def lanes_width(self):
        return DIAMOND + self.lane_names + FLOW + SATURATION_FLOW + DEGREE + self.per_cents + self.delays

    @property
    def plot_width(self):
        return max(LEAST_PLOT, TOTAL_WIDTH - 2 * MARGIN - self.names - 2 * OVERHANG - self.lanes_width)

    @property
    def plot_right(self):
        return self.plot_left + self.plot_width

    @property
    def lanes_left(self):
        return self.plot_right + OVERHANG

    @property
    def width(self):
        return self.lanes_left + self.lanes_width + MARGIN

    @property
    def bottom(self):
        return self.tops[-1]

    def x(self, second):
        """The place of a second from 0 to the cycle."""
        return self.plot_left + self.plot_width * second / self.cycle

    def bar_top(self, group):
        return self.tops[group] + BAR_TOP

    def bar_middle(self, group):
        return self.bar_top(group) + BAR_HEIGHT / 2


def layout_of(shown, top):
    """The layout of a plan's rows below a top."""
    junction, lanes = shown.junction, shown.report.lanes
    return Layout(
        cycle=shown.report.cycle,
        names=widest("walk-name", [group.name for group in junction.groups]) + NAME_GAP,
        lane_names=widest("holding", [lane.name for lane in junction.lanes]) + NAME_GAP,
        per_cents=max(LEAST_PER_CENT, widest("holding", [per_cent(lane.saturation) for lane in lanes]) + COLUMN_GAP),
        delays=max(LEAST_DELAY,
                   widest("holding", [delay_text(lane.delay, DELAY_PLACES) for lane in lanes]) + COLUMN_GAP),
        top=top,
        tops=tops_of(junction, top),
    )


def widest(kind, texts):
    return max(width_of(kind, text) for text in texts)


def tops_of(junction, top):
    """The rows of groups, as high as their lanes ask for."""
    tops = [top]
    for number in range(len(junction.groups)):
        lanes = sum(lane.group == number for lane in junction.lanes)
        tops.append(tops[-1] + max(ROW_HEIGHT, LANE_HEIGHT * lanes + 6))
    return tuple(tops)
