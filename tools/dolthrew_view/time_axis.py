"""The seconds: numbers above the groups, and a line down through them."""
from .drawing import lettering, line

HEIGHT = 18
STEPS = (1, 2, 5, 10, 20, 30, 60)
LEAST_STEP = 30


def step_of(layout):
    """The seconds from number to number, so that they keep apart."""
    return next(step for step in STEPS if layout.plot_width * step / layout.cycle >= LEAST_STEP or step == STEPS[-1])


def seconds_of(layout):
    """The seconds that are numbered: the last is the cycle, and none stands too near to it."""
    step = step_of(layout)
    return [second for second in range(0, layout.cycle, step)
            if layout.x(layout.cycle) - layout.x(second) >= LEAST_STEP] + [layout.cycle]


def time_axis(layout):
    shapes = []
    for second in seconds_of(layout):
        x = layout.x(second)
        shapes.append(line("grid", x, layout.top, x, layout.bottom))
        shapes.append(line("axis", x, layout.top - 4, x, layout.top))
        shapes.append(lettering("head", x, layout.top - 6, str(second), "middle"))
    return shapes + [line("axis", layout.plot_left, layout.top, layout.plot_right, layout.top)]
