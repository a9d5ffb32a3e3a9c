"""The stages above the groups: a box for each, with its number, and with its groups where they fit."""
from .drawing import lettering, line, rectangle, width_of
from .lettering import spread

LABEL_HEIGHT = 20
BAND_HEIGHT = 18
KIND = "figure"


def band_height():
    return LABEL_HEIGHT + BAND_HEIGHT


def stage_band(layout, stages, top):
    """The shapes of the band, whose labels of narrow stages stand above it."""
    band = top + LABEL_HEIGHT
    shapes = []
    outside = []
    for stage in stages:
        pieces = pieces_of(stage, layout.cycle)
        shapes += [rectangle("stage", layout.x(begin), band, layout.x(end) - layout.x(begin), BAND_HEIGHT)
                   for begin, end in pieces]
        begin, end = max(pieces, key=lambda piece: piece[1] - piece[0])
        centre, space = (layout.x(begin) + layout.x(end)) / 2, layout.x(end) - layout.x(begin)
        label = fitting_label(stage, space)
        if label:
            shapes.append(lettering(KIND, centre, band + 13, label, "middle"))
        else:
            outside.append((centre, str(stage.number)))
    return shapes + outside_labels(sorted(outside), band)


def pieces_of(stage, cycle):
    end = stage.first + stage.seconds
    return [(stage.first, end)] if end <= cycle else [(stage.first, cycle), (0, end - cycle)]


def fitting_label(stage, space):
    """The longest label that fits within the space, or none."""
    labels = ["%d: %s" % (stage.number, " ".join(stage.groups)), str(stage.number)]
    return next((label for label in labels if width_of(KIND, label) + 4 <= space), None)


def outside_labels(labelled, band):
    """Numbers above the band, side by side, each with a line to its stage."""
    if not labelled:
        return []
    widths = [width_of(KIND, label) for _, label in labelled]
    places = spread([centre for centre, _ in labelled], widths, 4)
    shapes = []
    for (centre, label), place in zip(labelled, places):
        shapes.append(line("leader", place, band - 8, centre, band))
        shapes.append(lettering(KIND, place, band - 10, label, "middle"))
    return shapes
