"""Runs of aspects, from rows."""
import unittest

from dolthrew_view.fault import Fault
from dolthrew_view.timetables import AMBER, GREEN, RED, RED_AMBER, Run, read_timetable

from .stored import CASES, shown, stored

# Two groups in a cycle of 6 seconds; the green of B passes the cycle's end.
ROWS = """second,A,B
0,red,green
1,red,amber
2,red_amber,red
3,green,red
4,green,red_amber
5,amber,green
"""


class TimetablesTest(unittest.TestCase):
    def test_runs_round_the_cycle(self):
        timetable = read_timetable(ROWS, ["A", "B"])
        self.assertEqual(timetable.cycle, 6)
        self.assertEqual(timetable.runs[0], (Run(RED, 0, 2), Run(RED_AMBER, 2, 1), Run(GREEN, 3, 2), Run(AMBER, 5, 1)))
        self.assertEqual(timetable.runs[1], (Run(AMBER, 1, 1), Run(RED, 2, 2), Run(RED_AMBER, 4, 1), Run(GREEN, 5, 2)))

    def test_pieces_at_the_end_of_the_cycle(self):
        timetable = read_timetable(ROWS, ["A", "B"])
        self.assertEqual(timetable.green(1).pieces(6), [(5, 6), (0, 1)])
        self.assertEqual(timetable.green(0).pieces(6), [(3, 5)])
        self.assertEqual(timetable.green(1).last_end(6), 1)

    def test_intergreens(self):
        # A is green to the end of second 4, B from second 5 on; B to the end of second 0, A from second 3 on.
        timetable = read_timetable(ROWS, ["A", "B"])
        self.assertEqual((timetable.intergreen(0, 1), timetable.intergreen(1, 0)), (0, 2))

    def test_one_aspect_all_the_time(self):
        timetable = read_timetable("second,A\n0,green\n1,green\n", ["A"])
        self.assertEqual(timetable.runs, ((Run(GREEN, 0, 2),),))

    def test_rows_of_other_groups_are_refused(self):
        for text in (ROWS.replace("A", "C"), "second,A,B\n", "second,B,A\n0,red,red\n"):
            with self.assertRaises(Fault):
                read_timetable(text, ["A", "B"])

    def test_runs_tell_the_stored_rows(self):
        for case in CASES:
            timetable = shown(*case).timetable
            if timetable is None:
                continue
            rows = [line.split(",")[1:] for line in stored(*case, "rows.csv").read_text().splitlines()[1:]]
            for group, runs in enumerate(timetable.runs):
                told = {second % len(rows): run.aspect
                        for run in runs for second in range(run.first, run.first + run.seconds)}
                self.assertEqual([told[second] for second in range(len(rows))], [row[group] for row in rows], case)


if __name__ == "__main__":
    unittest.main()
