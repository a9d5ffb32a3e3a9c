"""Every figure of a table against the report and the rows."""
import csv
import io
import unittest
from fractions import Fraction

from dolthrew_view.table import COLUMNS, lane_rows, table

from .stored import CASES, shown

HALF = Fraction(1, 200)


class TableTest(unittest.TestCase):
    def test_every_figure(self):
        for case in CASES:
            drawn = shown(*case)
            head, *rows = csv.reader(io.StringIO(table(drawn)))
            self.assertEqual(tuple(head), COLUMNS)
            self.assertEqual(len(rows), len(drawn.junction.lanes))
            for number, row in enumerate(rows):
                self.assert_is_row(drawn, number, dict(zip(head, row, strict=True)))

    def assert_is_row(self, drawn, number, row):
        lane = drawn.junction.lanes[number]
        self.assertEqual((row["Lane"], row["Group"]), (lane.name, drawn.junction.groups[lane.group].name))
        self.assertEqual((row["Flow (veh/h)"], row["Saturation flow (veh/h)"]),
                         (str(lane.arrival), str(lane.saturation)))
        self.assertEqual(Fraction(row["Limit of saturation (%)"]) * 10, lane.limit)
        if drawn.timetable is None:
            self.assertEqual(set(list(row.values())[5:]), {""})
            return
        times, figures = drawn.report.groups[lane.group], drawn.report.lanes[number]
        self.assertEqual([row["Green start (s)"], row["Green (s)"], row["Cycle (s)"]],
                         [str(times.start), str(times.green), str(drawn.report.cycle)])
        self.assertEqual(int(row["Green end (s)"]), (times.start + times.green) % drawn.report.cycle)
        self.assertLessEqual(abs(Fraction(row["Degree of saturation (%)"]) - figures.saturation * 100), HALF)
        if figures.delay is None:
            self.assertEqual(row["Mean delay (s/veh)"], "over")
        else:
            self.assertLessEqual(abs(Fraction(row["Mean delay (s/veh)"]) - figures.delay), HALF)

    def test_the_crossroads(self):
        # 833/1170 is 0.71197, and 4599115797/119907970 is 38.3554.
        self.assertEqual(lane_rows(shown("crossroads", "capacity"))[0],
                         ["N1", "N", "420", "1800", "90.0", "119", "0", "40", "40", "71.20", "38.36", "no"])
        holding = [row[0] for row in lane_rows(shown("crossroads", "capacity")) if row[-1] == "yes"]
        self.assertEqual(holding, ["E1"])


if __name__ == "__main__":
    unittest.main()
