"""What the shapes of a diagram stand for."""
from .drawing import lettering, line, polygon, rectangle, width_of
from .lane_columns import diamond
from .layout import MARGIN

HEIGHT = 44
SWATCH = 22
KIND = "head"


def legend(layout, shown):
    """A row of samples with their words."""
    y = layout.bottom + 20
    shapes = []
    x = MARGIN
    for sample, words in entries(shown):
        shapes += sample(x, y)
        shapes.append(lettering(KIND, x + SWATCH + 5, y + 3.5, words))
        x += SWATCH + 5 + width_of(KIND, words) + 12
    return shapes


def entries(shown):
    """The samples that this diagram has, and their words."""
    found = [(box("green"), "green"), (box("amber"), "amber"), (box("red_amber"), "red and amber"), (red, "red"),
             (box("degree"), "degree of saturation"), (limit, "its limit"), (holding, "holds the multiplier down")]
    if shown.reason.edges:
        found.append((arrow, "step of the reason"))
    if len(shown.reason.walk) == 1:
        found.append((box("walk-frame"), "the reason"))
    return found


def box(kind):
    return lambda x, y: [rectangle(kind, x, y - 5, SWATCH, 10)]


def red(x, y):
    return [line("red", x, y, x + SWATCH, y)]


def limit(x, y):
    return [line("limit", x + SWATCH / 2, y - 6, x + SWATCH / 2, y + 6)]


def holding(x, y):
    return [diamond(x + 4, y), rectangle("holding-degree", x + 10, y - 5, SWATCH - 10, 10)]


def arrow(x, y):
    tip = x + SWATCH
    return [line("walk", x, y, tip, y), polygon("walk-head", [(tip, y), (tip - 7, y - 3.5), (tip - 7, y + 3.5)])]
