"""The lanes at the right of their group: flows, degree of saturation with its limit, and delay."""
from fractions import Fraction

from .drawing import lettering, line, polygon, rectangle
from .figures import delay_text, per_cent
from .layout import DEGREE, DELAY_PLACES, DIAMOND, FLOW, LANE_HEIGHT, SATURATION_FLOW

BAR_HEIGHT = 9
BAR_WIDTH = DEGREE - 14


def ends_of(layout):
    """The right ends of the columns of flow, saturation flow, per cent and delay; the bar begins after the second."""
    flow = layout.lanes_left + DIAMOND + layout.lane_names + FLOW
    saturation_flow = flow + SATURATION_FLOW
    per_cents = saturation_flow + DEGREE + layout.per_cents
    return flow, saturation_flow, per_cents, per_cents + layout.delays


def lane_heads(layout):
    flow, saturation_flow, per_cents, delay = ends_of(layout)
    shapes = [lettering("head", layout.lanes_left + DIAMOND, layout.top - 6, "lane")]
    heads = [(flow, "flow", "veh/h"), (saturation_flow, "sat. flow", "veh/h"),
             (per_cents, "degree of saturation", "per cent"), (delay, "delay", "s/veh")]
    for end, above, below in heads:
        shapes.append(lettering("head", end, layout.top - 18, above, "end"))
        shapes.append(lettering("head", end, layout.top - 6, below, "end"))
    return shapes


def scale_of(report):
    """The degree of saturation at the end of a bar."""
    return max([Fraction(1)] + [lane.saturation for lane in report.lanes])


def lane_columns(layout, shown):
    junction = shown.junction
    holding = shown.holding_lanes()
    shapes = lane_heads(layout)
    for number in range(len(junction.groups)):
        rows = [(lane, figures) for lane, figures in zip(junction.lanes, shown.report.lanes) if lane.group == number]
        middle = (layout.tops[number] + layout.tops[number + 1]) / 2
        for place, (lane, figures) in enumerate(rows):
            y = middle + LANE_HEIGHT * (place - (len(rows) - 1) / 2) + 4
            shapes += lane_row(layout, lane, figures, y, lane.name in holding, scale_of(shown.report))
    return shapes


def lane_row(layout, lane, figures, y, is_holding, scale):
    flow, saturation_flow, per_cents, delay = ends_of(layout)
    kind = "holding" if is_holding else "figure"
    shapes = [lettering(kind, layout.lanes_left + DIAMOND, y, lane.name),
              lettering(kind, flow, y, str(lane.arrival), "end"),
              lettering(kind, saturation_flow, y, str(lane.saturation), "end"),
              lettering(kind, per_cents, y, per_cent(figures.saturation), "end"),
              lettering(kind, delay, y, delay_text(figures.delay, DELAY_PLACES), "end")]
    if is_holding:
        shapes.append(diamond(layout.lanes_left + DIAMOND / 2 - 2, y - 4))
    return shapes + degree_bar(saturation_flow + 10, y - 4, lane, figures, is_holding, scale)


def degree_bar(left, middle, lane, figures, is_holding, scale):
    top = middle - BAR_HEIGHT / 2
    limit = left + BAR_WIDTH * float(Fraction(lane.limit, 1000) / scale)
    kind = "holding-degree" if is_holding else "degree"
    return [rectangle("scale", left, top, BAR_WIDTH, BAR_HEIGHT),
            rectangle(kind, left, top, BAR_WIDTH * float(figures.saturation / scale), BAR_HEIGHT),
            line("limit", limit, top - 2.5, limit, top + BAR_HEIGHT + 2.5)]


def diamond(x, y):
    return polygon("diamond", [(x - 4, y), (x, y - 4), (x + 4, y), (x, y + 4)])
