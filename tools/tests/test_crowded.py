"""No text over text, and none outside, however much there is: two to sixteen groups with names of sixteen letters, more
than twenty stages, a cycle of 300 seconds."""
import unittest

from dolthrew_view.diagram import diagram

from .crowded import crowded
from .drawn import outside_of, overlaps_of

SEEDS = range(40)


class CrowdedTest(unittest.TestCase):
    def test_no_text_over_text_nor_outside(self):
        for seed in SEEDS:
            svg = diagram(crowded(seed))
            self.assertEqual((overlaps_of(svg), outside_of(svg)), ([], []), seed)

    def test_the_pictures_are_as_crowded_as_said(self):
        drawn = [crowded(seed) for seed in SEEDS]
        self.assertEqual({len(shown.junction.groups) for shown in drawn} & {2, 16}, {2, 16})
        self.assertTrue(any(len(shown.report.stages) >= 20 and shown.timetable.cycle == 300 for shown in drawn))
        self.assertTrue(any(len(shown.junction.groups[0].name) == 16 for shown in drawn))


if __name__ == "__main__":
    unittest.main()
