"""Every figure of a diagram against the report and the rows of `play`; no text over text."""
import unittest
from decimal import ROUND_HALF_UP, Decimal
from functools import cache

from dolthrew_view.diagram import diagram
from dolthrew_view.drawing import document
from dolthrew_view.layout import layout_of
from dolthrew_view.timetables import AMBER, GREEN, RED_AMBER

from .drawn import lines_of, outside_of, overlaps_of, rectangles_of, root_of, texts_of
from .stored import CASES, shown, stored


def decimal(fraction, places):
    """The decimal that an engineer would write, by another way than the tool's."""
    exact = Decimal(fraction.numerator) / Decimal(fraction.denominator)
    return str(exact.quantize(Decimal(1).scaleb(-places), ROUND_HALF_UP))


@cache
def picture(case):
    return diagram(shown(*case))


def with_plan():
    """(case, what is shown, the picture) of each case with a plan."""
    return [(case, shown(*case), picture(case)) for case in CASES if shown(*case).timetable]


def aspects_drawn(svg, drawn):
    """What the bars of each group show in the middle of each second: red where a red line lies."""
    cycle, groups = drawn.timetable.cycle, len(drawn.junction.groups)
    layout = layout_of(drawn, 0)
    names = [text for text in texts_of(svg) if text.kind in ("name", "walk-name")]
    middles = [(name.top + name.bottom) / 2 for name in names]
    spans = [("red", x1, x2, y1) for x1, y1, x2, _ in lines_of(svg, "red")]
    for aspect in (GREEN, AMBER, RED_AMBER):
        spans += [(aspect, x, x + width, y + height / 2) for x, y, width, height in rectangles_of(svg, aspect)]
    rows = []
    for second in range(cycle):
        x = layout.x(second + 0.5)
        rows.append([[aspect for aspect, left, right, y in spans if left < x < right and abs(y - middles[group]) < 6]
                     for group in range(groups)])
    return rows


class DiagramTest(unittest.TestCase):
    def test_every_picture_is_well_formed_and_has_a_description(self):
        for case in CASES:
            root = root_of(picture(case))
            self.assertEqual([child.tag.split("}")[1] for child in root][:2], ["title", "desc"], case)

    def test_bars_show_the_rows_of_play(self):
        for case, drawn, svg in with_plan():
            rows = [line.split(",")[1:] for line in stored(*case, "rows.csv").read_text().splitlines()[1:]]
            self.assertEqual(aspects_drawn(svg, drawn), [[[aspect] for aspect in row] for row in rows], case)

    def test_each_begin_of_an_aspect_is_told_once(self):
        for case, drawn, svg in with_plan():
            cycle = drawn.timetable.cycle
            numbers = [text for text in texts_of(svg) if text.kind in ("number", "small-number")]
            names = [text for text in texts_of(svg) if text.kind in ("name", "walk-name")]
            for name, runs in zip(names, drawn.timetable.runs):
                told = sorted(int(number.content) % cycle for number in numbers
                              if abs(number.top - name.top) < 20 and number.content.isdecimal())
                self.assertEqual(told, sorted(run.first for run in runs if len(runs) > 1), (case, name.content))

    def test_lengths_of_greens_are_the_reports(self):
        for case, drawn, svg in with_plan():
            told = [text.content for text in texts_of(svg) if text.kind == "length"]
            greens = ["%d s" % group.green for group in drawn.report.groups]
            self.assertTrue(set(told) <= set(greens), case)

    def test_lanes_are_the_reports(self):
        for case, drawn, svg in with_plan():
            texts = [text.content for text in texts_of(svg) if text.kind in ("figure", "holding")]
            for lane, figures in zip(drawn.junction.lanes, drawn.report.lanes):
                place = texts.index(lane.name)
                delay = "over" if figures.delay is None else decimal(figures.delay, 1)
                degree = decimal(figures.saturation * 100, 1)
                told = [str(lane.arrival), str(lane.saturation), degree, delay]
                self.assertEqual(texts[place + 1:place + 5], told, case)

    def test_bars_of_saturation_are_in_proportion(self):
        for case, drawn, svg in with_plan():
            whole = rectangles_of(svg, "scale")[0][2]
            scale = max([1] + [float(lane.saturation) for lane in drawn.report.lanes])
            legend = 1
            widths = sorted(width / whole * scale for kind in ("degree", "holding-degree")
                            for _, _, width, _ in rectangles_of(svg, kind)[:-legend])
            degrees = sorted(float(lane.saturation) for lane in drawn.report.lanes)
            for width, expected in zip(widths, degrees, strict=True):
                self.assertAlmostEqual(width, expected, 2, case)

    def test_saturated_lanes(self):
        # 720 of 1800 vehicles are 8.4 seconds of 21, which leave 17 of green: 8 for one group and 9 for the other.
        texts = [text.content for text in texts_of(picture(("two-groups-infeasible", "half")))]
        self.assertEqual([texts.count(text) for text in ("over", "105.0", "93.3")], [1, 1, 1])

    def test_the_lanes_that_hold_the_multiplier_stand_out(self):
        for case, drawn, svg in with_plan():
            texts = [text.content for text in texts_of(svg) if text.kind == "holding"]
            least = min(lane.limit / (1000 * figures.saturation)
                        for lane, figures in zip(drawn.junction.lanes, drawn.report.lanes) if lane.arrival)
            holding = [lane.name for lane, figures in zip(drawn.junction.lanes, drawn.report.lanes)
                       if lane.arrival and lane.limit / (1000 * figures.saturation) == least]
            self.assertTrue(holding, case)
            self.assertEqual(sorted(set(texts) & {lane.name for lane in drawn.junction.lanes}), sorted(holding), case)

    def test_stages_are_the_reports(self):
        for case, drawn, svg in with_plan():
            layout = layout_of(drawn, 0)
            share = sum(width for _, _, width, _ in rectangles_of(svg, "stage")) / layout.plot_width
            seconds = sum(stage.seconds for stage in drawn.report.stages)
            self.assertAlmostEqual(share * drawn.timetable.cycle, seconds, 1, case)
            texts = {text.content for text in texts_of(svg)}
            for stage in drawn.report.stages:
                labels = {"%d: %s" % (stage.number, " ".join(stage.groups)), str(stage.number)}
                self.assertTrue(labels & texts, case)

    def test_the_head_tells_the_report_and_the_verdict(self):
        for case, drawn, svg in with_plan():
            told = " ".join(text.content for text in texts_of(svg) if text.kind == "plain")
            multiplier, reserve = decimal(drawn.report.multiplier, 3), decimal(drawn.report.reserve, 1)
            self.assertIn("cycle %d s; multiplier %s; reserve %s per cent; check says: %s" % (
                drawn.report.cycle, multiplier, reserve, drawn.verdict), told)
            self.assertIn(drawn.reason.sentence, told)

    def test_the_reason_is_drawn_as_arrows(self):
        for case, drawn, svg in with_plan():
            heads = [element for element in root_of(svg).iter("{http://www.w3.org/2000/svg}polygon")
                     if element.get("class") == "walk-head"]
            legend = 1 if drawn.reason.edges else 0
            self.assertEqual(len(heads), len(drawn.reason.edges) + legend, case)

    def test_no_text_over_text_nor_outside(self):
        for case in CASES:
            svg = picture(case)
            self.assertEqual((overlaps_of(svg), outside_of(svg)), ([], []), case)

    def test_letters_of_markup_are_escaped(self):
        root_of(document(10, 10, "a < b & \"c\"", "d > e", []))


if __name__ == "__main__":
    unittest.main()
