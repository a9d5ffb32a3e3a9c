"""What the steps of a reason need, laid end to end; below it the time that there is, and how much more is needed."""
from .drawing import lettering, line, rectangle, width_of
from .layout import MARGIN
from .orders import GREEN_OF_PAIR, LINK_BACK
from .reasons import time_needed, time_there, what_there_is

HEIGHT = 46
BAR_HEIGHT = 16
LABEL = "number"


def chain(layout, junction, reason, top):
    """The shapes of a reason that has steps."""
    needed, there = time_needed(reason), time_there(reason)
    scale = (layout.width - 2 * MARGIN) / max(needed, there)
    bars, labels = segments_from(MARGIN, top, scale, segments(junction, reason))
    end = MARGIN + scale * there
    low = top + BAR_HEIGHT + 10
    rule = [rectangle("too-much", end, low - 5, scale * (needed - there), 10),
            line("limit", MARGIN, low - 5, MARGIN, low + 5), line("axis", MARGIN, low, end, low),
            line("limit", end, top - 5, end, low + 5)]
    return bars + rule + labels


def segments_from(left, top, scale, parts):
    """The bars of the parts one after another, and the words of those in which they fit."""
    bars, labels = [], []
    for kind, seconds, words in parts:
        length = scale * seconds
        bars.append(rectangle(kind, left, top, length, BAR_HEIGHT))
        if width_of(LABEL, words) + 3 <= length:
            labels.append(lettering(LABEL, left + length / 2, top + BAR_HEIGHT - 4.5, words, "middle"))
        left += length
    return bars, labels


def summary(junction, reason):
    """What the chain shows, in words."""
    words = what_there_is(junction, reason)
    needed = time_needed(reason)
    return "%s s, and %d s are needed: %d s too much" % (
        words[0].upper() + words[1:], needed, needed - time_there(reason))


def segments(junction, reason):
    """(kind, seconds, words) of each part that takes time."""
    turned = max(0, -reason.turns)
    parts = [("link", reason.question.cycle, "a turn")] * turned
    for edge in reason.edges:
        name = junction.groups[edge.u].name
        if edge.kind == GREEN_OF_PAIR:
            intergreen = edge.seconds - edge.green
            parts += [("green", edge.green, "%s %d" % (name, edge.green)), ("intergreen", intergreen, str(intergreen))]
        elif edge.kind != LINK_BACK:
            parts.append(("link", edge.seconds, "%s %d" % (name, edge.seconds)))
    return parts
