"""Where the arrows of a reason begin and end."""
import unittest

from dolthrew_view.arrows import pieces_of, span_of
from dolthrew_view.orders import GREEN_OF_PAIR, LINK_BACK, LINK_FORTH, ORIGIN, Edge
from dolthrew_view.timetables import GREEN, RED, Run, Timetable

# Greens of A from 0 to 20, of B from 25 to 50, of C from 50 to 5, in 60 seconds.
TIMETABLE = Timetable(60, (
    (Run(GREEN, 0, 20), Run(RED, 20, 40)),
    (Run(RED, 50, 35), Run(GREEN, 25, 25)),
    (Run(RED, 5, 45), Run(GREEN, 50, 15)),
))


class ArrowsTest(unittest.TestCase):
    def test_of_a_pair_from_the_end_of_a_green_to_the_next_start(self):
        self.assertEqual(span_of(TIMETABLE, Edge(0, 1, GREEN_OF_PAIR, 25, 0, 20)), (20, 5))
        self.assertEqual(span_of(TIMETABLE, Edge(1, 0, GREEN_OF_PAIR, 30, 1, 25)), (50, 10))
        self.assertEqual(span_of(TIMETABLE, Edge(2, 1, GREEN_OF_PAIR, 20, 1, 15)), (5, 20))

    def test_of_links_and_of_group_0_from_start_to_start(self):
        self.assertEqual(span_of(TIMETABLE, Edge(0, 1, LINK_FORTH, 25, 0)), (0, 25))
        self.assertEqual(span_of(TIMETABLE, Edge(1, 0, LINK_BACK, -25, 0)), (25, -25))
        self.assertEqual(span_of(TIMETABLE, Edge(2, 0, ORIGIN, 1, 1)), (50, 10))

    def test_an_arrow_within_the_cycle_is_one_piece(self):
        self.assertEqual(pieces_of(20, 5, 60), [(20, 25, 0, 1)])
        self.assertEqual(pieces_of(50, 10, 60), [(50, 60, 0, 1)])
        self.assertEqual(pieces_of(25, -25, 60), [(25, 0, 0, 1)])

    def test_an_arrow_over_the_end_of_the_cycle_is_two(self):
        self.assertEqual(pieces_of(50, 20, 60), [(50, 60, 0, 0.5), (0, 10, 0.5, 1)])
        self.assertEqual(pieces_of(10, -20, 60), [(10, 0, 0, 0.5), (60, 50, 0.5, 1)])


if __name__ == "__main__":
    unittest.main()
