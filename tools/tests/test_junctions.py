"""Junction files as the tools see them."""
import unittest

from dolthrew_view.fault import Fault
from dolthrew_view.junctions import Conflict, Group, Lane, Link, read_junction

from .stored import JUNCTIONS, junction_of


class JunctionsTest(unittest.TestCase):
    def test_a_file_of_version_2(self):
        junction = read_junction(junction_of("crossing-and-early-start"), "file")
        self.assertEqual((junction.version, junction.title), (2, "crossing and early start"))
        self.assertEqual((junction.least_cycle, junction.greatest_cycle), (40, 90))
        self.assertEqual(junction.groups[0], Group("main", 7, 3, 2, 2, 1, 300))
        self.assertEqual(junction.groups[3].max_green, 12)
        self.assertEqual(junction.lanes[1], Lane("side-1", 1, 310, 1750, 900))
        self.assertEqual(junction.conflicts[1], Conflict(0, 3, 4, 9))
        self.assertEqual(junction.links, (Link(2, 0, 4),))

    def test_intergreens_in_both_senses(self):
        asked = read_junction(junction_of("crossing-and-early-start"), "file").intergreens()
        self.assertEqual((asked[0, 3], asked[3, 0]), (4, 9))
        self.assertNotIn((0, 2), asked)

    def test_every_file_is_read(self):
        for name in JUNCTIONS:
            junction = read_junction(junction_of(name), name)
            self.assertTrue(junction.groups and junction.lanes and junction.conflicts, name)

    def test_a_byte_order_mark(self):
        crossing = junction_of("crossing-and-early-start")
        self.assertEqual(read_junction(b"\xef\xbb\xbf" + crossing, "file"), read_junction(crossing, "file"))

    def test_what_is_no_junction_is_one_fault(self):
        crossing = junction_of("crossing-and-early-start")
        for content in (b"", b"\xff", b"[", b"group = 3", b"group = [3]", crossing.replace(b'b = "side"', b'b = "sid"'),
                        crossing.replace(b"min_green", b"minimum"), b"a = " + b"[" * 100000,
                        b"version = " + b"9" * 5000, b"\xef\xbb\xbf" * 2 + crossing):
            with self.assertRaisesRegex(Fault, "^file: no (TOML 1.0, and the tools read no other|junction): "):
                read_junction(content, "file")


if __name__ == "__main__":
    unittest.main()
