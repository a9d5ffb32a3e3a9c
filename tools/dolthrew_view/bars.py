"""What each group shows over the cycle: a bar of its aspects, with the seconds at which they begin and end."""
from .drawing import lettering, line, rectangle, width_of
from .layout import BAR_HEIGHT, MARGIN
from .timetables import GREEN, RED

# Between a number and the second that it tells, or another number.
GAP = 2.5


def bars(layout, junction, timetable, walk):
    """The rows of all groups; the names of those on the walk stand out."""
    shapes = []
    for number, group in enumerate(junction.groups):
        shapes.append(line("rule", MARGIN, layout.tops[number + 1], layout.width - MARGIN, layout.tops[number + 1]))
        kind = "walk-name" if number in walk else "name"
        shapes.append(lettering(kind, MARGIN, layout.bar_middle(number) + 4, group.name))
        for run in timetable.runs[number]:
            shapes += run_shapes(layout, number, run)
    return shapes


def run_shapes(layout, number, run):
    shapes = []
    for begin, end in run.pieces(layout.cycle):
        left, right = layout.x(begin), layout.x(end)
        if run.aspect == RED:
            shapes.append(line("red", left, layout.bar_middle(number), right, layout.bar_middle(number)))
        else:
            shapes.append(rectangle(run.aspect, left, layout.bar_top(number), right - left, BAR_HEIGHT))
    return shapes


def bar_numbers(layout, timetable):
    """The seconds of begins and ends: those of greens above the bars, the others below; in a green how long it is."""
    shapes = []
    for number, runs in enumerate(timetable.runs):
        above, below = [], []
        for before, run in zip(runs[-1:] + runs[:-1], runs):
            if len(runs) > 1:
                is_of_green = GREEN in (before.aspect, run.aspect)
                mark_boundary(layout, above if is_of_green else below, before, run)
        shapes += [lettering("number", left, layout.bar_top(number) - 3, text) for left, _, text in above]
        low = layout.bar_top(number) + BAR_HEIGHT + 9
        shapes += [lettering("small-number", left, low, text) for left, _, text in below]
        shapes += green_length(layout, number, timetable.green(number))
    return shapes


def mark_boundary(layout, numbers, before, run):
    """Puts the second at which a run begins beside those of its line: within the green or the red that it bounds, or
    beside that where it is too short."""
    begins = run.aspect in (GREEN, RED)
    second = layout.cycle if run.first == 0 and not begins else run.first
    size = width_of("number", str(second))
    right, left = layout.x(second) + GAP, layout.x(second) - GAP - size
    length = layout.plot_width * seconds_beside(layout.cycle, before, run, begins) / layout.cycle
    is_within = length >= 2 * size + 4 * GAP
    first, other = (right, left) if begins == is_within else (left, right)
    place = next(place for place in places(first, other) if is_free(numbers, place, size))
    numbers.append((place, place + size, str(second)))


def seconds_beside(cycle, before, run, begins):
    """How long the bounded run is at that side of the cycle's end."""
    if begins:
        return min(run.seconds, cycle - run.first)
    return min(before.seconds, run.first or cycle)


def places(first, second):
    """Where a number may stand: the best place first, then ever further to the right."""
    yield first
    yield second
    while True:
        second = max(first, second) + GAP
        yield second


def is_free(numbers, place, size):
    return all(right + GAP <= place or place + size + GAP <= left for left, right, _ in numbers)


def green_length(layout, number, green):
    begin, end = max(green.pieces(layout.cycle), key=lambda piece: piece[1] - piece[0])
    text = "%d s" % green.seconds
    if layout.x(end) - layout.x(begin) < width_of("length", text) + 4:
        return []
    return [lettering("length", (layout.x(begin) + layout.x(end)) / 2, layout.bar_middle(number) + 4, text, "middle")]
