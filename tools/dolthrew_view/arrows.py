"""The steps of the walk as arrows from bar to bar: of a pair from the end of a green to the next start; of a link, and
of group 0 that starts first, from start to start."""
from math import hypot

from .drawing import line, polygon, rectangle
from .orders import GREEN_OF_PAIR, LINK_BACK

HEAD = 7

# How far a frame stands out at both ends.
FRAME = 6


def arrows(layout, timetable, reason):
    """The halves of an arrow that passes the cycle's end stand at both ends of the picture."""
    if len(reason.walk) == 1:
        return frame(layout, reason.walk[0])
    shapes = []
    for edge in reason.edges:
        begin, seconds = span_of(timetable, edge)
        from_y, to_y = layout.bar_middle(edge.u), layout.bar_middle(edge.v)
        for piece in pieces_of(begin, seconds, layout.cycle):
            shapes += piece_shapes(layout, piece, from_y, to_y)
    return shapes


def span_of(timetable, edge):
    """The second at which an arrow begins, and how many seconds it leads forward, or back."""
    u, v = timetable.green(edge.u), timetable.green(edge.v)
    begin = u.last_end(timetable.cycle) if edge.kind == GREEN_OF_PAIR else u.first
    if edge.kind == LINK_BACK:
        return begin, -((begin - v.first) % timetable.cycle)
    return begin, (v.first - begin) % timetable.cycle


def pieces_of(begin, seconds, cycle):
    """(from second, to second, share at the begin, share at the end) of each piece within the cycle."""
    end = begin + seconds
    if 0 <= end <= cycle:
        return [(begin, end, 0, 1)]
    border, other = (cycle, 0) if end > cycle else (0, cycle)
    share = (border - begin) / seconds
    return [(begin, border, 0, share), (other, other + end - border, share, 1)]


def piece_shapes(layout, piece, from_y, to_y):
    begin, end, begin_share, end_share = piece
    x1, x2 = layout.x(begin), layout.x(end)
    y1, y2 = (from_y + (to_y - from_y) * share for share in (begin_share, end_share))
    length = hypot(x2 - x1, y2 - y1)
    if not length:
        return []
    shapes = [line("halo", x1, y1, x2, y2), line("walk", x1, y1, x2, y2)]
    if end_share == 1:
        along_x, along_y = (x2 - x1) / length * HEAD, (y2 - y1) / length * HEAD
        back_x, back_y = x2 - along_x, y2 - along_y
        shapes.append(polygon("walk-head", [(x2, y2), (back_x - along_y / 2, back_y + along_x / 2),
                                            (back_x + along_y / 2, back_y - along_x / 2)]))
    return shapes


def frame(layout, group):
    """Of a walk of one group a frame round its row of seconds."""
    top, bottom = layout.tops[group] + 2, layout.tops[group + 1] - 2
    return [rectangle("walk-frame", layout.plot_left - FRAME, top, layout.plot_width + 2 * FRAME, bottom - top)]
