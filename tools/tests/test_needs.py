"""Needs, from their definition."""
import unittest
from fractions import Fraction

from dolthrew_view.junctions import Conflict, Group, Junction, Lane, read_junction
from dolthrew_view.needs import UNSERVED, Target, asking_lanes, lane_multiplier, need, needs

from .stored import junction_of


def junction_with(group, *lanes):
    """A junction whose group 0 is this one."""
    other = Group("other", 5, 3, 2, 0, 0, 300)
    return Junction(1, "title", 10, 300, (group, other), lanes, (Conflict(0, 1, 5, 5),), ())


# A second of each green is lost.
GROUP = Group("G", 7, 3, 2, 2, 1, 40)
LANE = Lane("L", 0, 450, 1800, 900)


class NeedsTest(unittest.TestCase):
    def test_the_multiplier_of_a_lane(self):
        # 900 per mille of 1800 in 25 - 1 of 60 seconds, by 450.
        self.assertEqual(lane_multiplier(LANE, GROUP, 25, 60), Fraction(900 * 1800 * 24, 1000 * 450 * 60))

    def test_to_beat_asks_a_second_more_where_to_reach_is_met_exactly(self):
        # With 26 seconds of 60 the multiplier is 3.6 * 25 / 60, which is 3/2.
        junction = junction_with(GROUP, LANE)
        self.assertEqual(need(junction, Target(Fraction(3, 2), False), 60, 0), 26)
        self.assertEqual(need(junction, Target(Fraction(3, 2), True), 60, 0), 27)

    def test_the_minimum_green(self):
        junction = junction_with(GROUP, LANE)
        self.assertEqual(need(junction, Target(Fraction(1, 100), False), 60, 0), 7)
        self.assertEqual(asking_lanes(junction, Target(Fraction(1, 100), False), 60, 0), [])

    def test_the_longest_green_is_too_short(self):
        # 40 seconds give 3.6 * 39 / 60 = 2.34.
        junction = junction_with(GROUP, LANE)
        self.assertEqual(need(junction, Target(Fraction(234, 100), False), 60, 0), 40)
        self.assertEqual(need(junction, Target(Fraction(234, 100), True), 60, 0), UNSERVED)
        self.assertEqual(asking_lanes(junction, Target(Fraction(234, 100), True), 60, 0), [LANE])

    def test_a_lane_without_flow_asks_nothing(self):
        empty = Lane("empty", 0, 0, 1, 1)
        self.assertEqual(need(junction_with(GROUP, empty, LANE), Target(Fraction(3, 2), False), 60, 0), 26)

    def test_the_lanes_that_ask(self):
        busy = Lane("busy", 0, 451, 1800, 900)
        junction = junction_with(GROUP, LANE, busy)
        self.assertEqual(need(junction, Target(Fraction(3, 2), False), 60, 0), 27)
        self.assertEqual(asking_lanes(junction, Target(Fraction(3, 2), False), 60, 0), [busy])

    def test_the_certificate_that_is_checked_by_hand(self):
        # docs/CERTIFICATE.md: both groups need 26 at 60 seconds to beat 3/2.
        junction = read_junction(junction_of("two-groups-one-cycle"), "file")
        self.assertEqual(needs(junction, Target(Fraction(3, 2), True), 60), [26, 26])


if __name__ == "__main__":
    unittest.main()
