"""The signal timing diagram of a plan, with its lanes and the reason why no more is possible, as an SVG document."""
from functools import partial

from .arrows import arrows
from .bars import bar_numbers, bars
from .chain import HEIGHT as CHAIN_HEIGHT
from .chain import chain, summary
from .claims import claim_words, headline
from .drawing import document, lettering, size_of, width_of
from .lane_columns import lane_columns
from .layout import MARGIN, TOTAL_WIDTH, layout_of
from .legend import HEIGHT as LEGEND_HEIGHT
from .legend import legend
from .lettering import wrapped
from .shown import shown_by
from .stage_band import band_height, stage_band
from .time_axis import HEIGHT as AXIS_HEIGHT
from .time_axis import time_axis

LINE_HEIGHT = 16
HEAD_TOP = 30
NOTE = ("Drawn by dolthrew-view from what the program printed: bars from play, stages and figures from the report "
        "(rounded), the verdict from check. Needs and sums of the reason are computed by dolthrew-view. The drawing "
        "itself isn't proved.")
NOTE_WITHOUT_PLAN = "Written by dolthrew-view from what the program printed. The picture itself isn't proved."


def run(words, out):
    """`diagram JUNCTION CERT`: the document to a stream."""
    out.write(diagram(shown_by(words)))


def diagram(shown):
    """A whole SVG document."""
    if shown.timetable is None:
        return diagram_without_plan(shown)
    head, top = paragraphs(TOTAL_WIDTH, HEAD_TOP, head_texts(shown))
    layout = layout_of(shown, top + band_height() + AXIS_HEIGHT)
    shapes = head + stage_band(layout, shown.report.stages, top)
    shapes += time_axis(layout)
    shapes += bars(layout, shown.junction, shown.timetable, shown.reason.walk)
    shapes += arrows(layout, shown.timetable, shown.reason)
    shapes += bar_numbers(layout, shown.timetable)
    shapes += lane_columns(layout, shown)
    shapes += legend(layout, shown)
    foot, bottom = foot_shapes(layout, shown)
    return document(layout.width, bottom, title_of(shown), description_of(shown), shapes + foot)


def foot_shapes(layout, shown):
    """The reason in words and as a chain, and the note; and where they end."""
    shapes, y = paragraphs(layout.width, layout.bottom + LEGEND_HEIGHT, reason_texts(shown))
    if shown.reason.edges:
        shapes += chain(layout, shown.junction, shown.reason, y)
        words, y = paragraphs(layout.width, y + CHAIN_HEIGHT, [("figure", summary(shown.junction, shown.reason))])
        shapes += words
    note, bottom = paragraphs(layout.width, y, [("note", NOTE)])
    return shapes + note, bottom


def diagram_without_plan(shown):
    texts = head_texts(shown) + reason_texts(shown) + [("note", NOTE_WITHOUT_PLAN)]
    shapes, bottom = paragraphs(TOTAL_WIDTH, HEAD_TOP, texts)
    return document(TOTAL_WIDTH, bottom, title_of(shown), description_of(shown), shapes)


def head_texts(shown):
    return [("title", shown.junction.title), ("plain", headline(shown)), ("plain", claim_words(shown))]


def reason_texts(shown):
    reason = shown.reason
    texts = [("strong", reason.heading), ("plain", reason.sentence)]
    return texts + ([("plain", reason.greens)] if reason.greens else [])


def paragraphs(width, top, texts):
    """Texts below each other, broken into lines; and where they end."""
    shapes = []
    y = top
    for kind, text in texts:
        for part in wrapped(text, partial(width_of, kind), width - 2 * MARGIN):
            shapes.append(lettering(kind, MARGIN, y, part))
            y += max(LINE_HEIGHT, size_of(kind) + 6)
    return shapes, y


def title_of(shown):
    return "Signal timing diagram: %s" % shown.junction.title


def description_of(shown):
    """The plan in words."""
    greens = ["%s green from second %d for %d s" % (group.name, group.start, group.green)
              for group in shown.report.groups]
    return "; ".join([headline(shown), *greens]) + ". %s: %s" % (shown.reason.heading, shown.reason.sentence)
