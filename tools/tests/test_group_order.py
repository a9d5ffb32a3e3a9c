"""The order of groups: what is placed when, that nothing else of a file changes, and that the multiplier is kept."""
import tempfile
import tomllib
import unittest
from pathlib import Path
from unittest import mock

from dolthrew_view.fault import Fault
from dolthrew_view.group_order import document_text, has_lines_of, moved_text, reordered, search_order
from dolthrew_view.junctions import read_junction
from dolthrew_view.program import CERTIFICATE_FILE, JUNCTION_FILE, STOPPED, Program, files

from .live import program
from .stored import JUNCTIONS, ROOT, junction_of
from .test_main import run

# Three groups, of which B conflicts with both others.
PATH = b"""version = 1
name = "a \\"path\\""
least_cycle = 20
greatest_cycle = 60

# What A is.
[[group]] # first
name = "A"
min_green = 1
amber = 0
red_amber = 0
start_lost = 0
end_gain = 0


# What B is,
# in two lines.
[[group]]
name = "B"
min_green = 1
amber = 0
red_amber = 0
start_lost = 0
end_gain = 0
[[group]]
name = "C"
min_green = 9
amber = 0
red_amber = 0
start_lost = 0
end_gain = 0

# What comes in.
[[lane]]
name = "A1"
group = "A"
arrival = 100
saturation = 1800

[[conflict]]
a = "A"
b = "B"
a_to_b = 4
b_to_a = 4

[[conflict]]
a = "B"
b = "C"
a_to_b = 2
b_to_a = 2
"""

INLINE = """version = 1
group = [{name = "A", min_green = 1}, {name = "B", min_green = 2}]
name = 'an \\ "inline" list'
conflict = [{a = "A", b = "B"}]
link = []
"""


def placed(content):
    junction = read_junction(content, "file")
    return [junction.groups[number].name for number in search_order(junction)]


def without_groups(document):
    return {key: value for key, value in document.items() if key != "group"}


class SearchOrderTest(unittest.TestCase):
    def test_the_group_of_most_conflicts_is_first(self):
        self.assertEqual(placed(PATH), ["B", "A", "C"])

    def test_equal_groups_keep_their_order(self):
        self.assertEqual(placed(junction_of("ring-of-three")), ["A", "B", "C"])

    def test_the_crossroads(self):
        # N has six conflicts, and E is the first of its rivals. WR and S conflict with E, and WR with N too. S
        # conflicts with E and WR, P then with WR and S. Of W and ER, which conflict with S and N, W stands first; ER
        # then conflicts with W and S, and Q with W alone.
        self.assertEqual(placed(junction_of("crossroads")), ["N", "E", "WR", "S", "P", "W", "ER", "Q"])

    def test_each_group_is_placed_once(self):
        for name in JUNCTIONS:
            junction = read_junction(junction_of(name), name)
            self.assertEqual(sorted(search_order(junction)), list(range(len(junction.groups))), name)


class TextTest(unittest.TestCase):
    def test_tables_move_with_their_comments(self):
        moved = moved_text(PATH.decode(), [1, 2, 0])
        first, second, third = (moved.index('name = "%s"' % name) for name in "BCA")
        self.assertLess(first, second)
        self.assertLess(second, third)
        self.assertIn('# What A is.\n[[group]] # first\nname = "A"\n', moved)
        self.assertIn('# What B is,\n# in two lines.\n[[group]]\nname = "B"\n', moved)
        self.assertIn('end_gain = 0\n\n# What comes in.\n[[lane]]\n', moved)
        self.assertEqual(sorted(moved.split("\n")), sorted(PATH.decode().split("\n")))

    def test_the_same_order_leaves_each_byte(self):
        for name in JUNCTIONS:
            text = junction_of(name).decode("utf-8")
            count = len(tomllib.loads(text)["group"])
            self.assertEqual(moved_text(text, list(range(count))), text, name)

    def test_nothing_else_changes(self):
        for name in JUNCTIONS:
            text = junction_of(name).decode("utf-8")
            for variant in (text, text.replace("\n", "\r\n"), text.rstrip("\n")):
                before = tomllib.loads(variant)
                numbers = list(range(len(before["group"])))[::-1]
                after = tomllib.loads(reordered(variant, numbers))
                self.assertEqual(after["group"], before["group"][::-1], name)
                self.assertEqual(without_groups(after), without_groups(before), name)

    def test_a_byte_order_mark_is_left_away(self):
        text = junction_of("crossroads").decode("utf-8")
        numbers = search_order(read_junction(text.encode("utf-8"), "crossroads"))
        self.assertEqual(reordered("\ufeff" + text, numbers), reordered(text, numbers))

    def test_where_comments_are_lost_it_is_told(self):
        text = PATH.decode()
        self.assertTrue(has_lines_of(reordered(text, [1, 2, 0]), text))
        self.assertFalse(has_lines_of(reordered("# Why.\n" + INLINE, [1, 0]), "# Why.\n" + INLINE))

    def test_inline_groups(self):
        before = tomllib.loads(INLINE)
        after = tomllib.loads(reordered(INLINE, [1, 0]))
        self.assertEqual(after["group"], before["group"][::-1])
        self.assertEqual(without_groups(after), without_groups(before))
        self.assertEqual(tomllib.loads(document_text(before)), before)


class CommandTest(unittest.TestCase):
    def test_a_fault_of_the_program_is_one_line(self):
        with mock.patch.object(Program, "judge", side_effect=Fault("bad junction 4 count top 0 group")):
            said = run(["order", str(ROOT / "README.md")])
        self.assertEqual(said, (2, "", "dolthrew-view: bad junction 4 count top 0 group\n"))

    def test_a_junction_that_is_refused(self):
        program()
        with files(junction_of("crossroads").replace(b"amber = 3", b"amber = 31", 1)) as folder:
            said = run(["order", str(Path(folder, JUNCTION_FILE))])
        self.assertEqual(said, (2, "", "dolthrew-view: bad junction 5 range group 1 amber\n"))

    def test_the_multiplier_is_kept(self):
        asked = program()
        for name in ("crossroads", "crossing-and-early-start", "ring-of-three"):
            content = junction_of(name)
            numbers = search_order(read_junction(content, name))[::-1]
            renumbered = reordered(content.decode("utf-8"), numbers).encode("utf-8")
            self.assertEqual(figures(asked, renumbered), figures(asked, content), name)

    def test_a_sample_that_stops_in_the_order_of_its_file_is_decided(self):
        asked = program()
        with tempfile.TemporaryDirectory() as folder:
            asked.text(["sample", "2", JUNCTION_FILE, CERTIFICATE_FILE], folder, (STOPPED,))
            content = Path(folder, JUNCTION_FILE).read_bytes()
        ordered = reordered(content.decode("utf-8"), search_order(read_junction(content, "sample 2")))
        self.assertEqual(figures(asked, ordered.encode("utf-8"))[0], "claim capacity")

    def test_the_command_line(self):
        program()
        with tempfile.TemporaryDirectory() as folder, mock.patch("sys.stderr") as errors:
            path = Path(folder, "path.toml")
            path.write_bytes(PATH)
            status, printed, said = run(["order", str(path)])
        self.assertEqual((status, said), (0, ""))
        self.assertEqual([group["name"] for group in tomllib.loads(printed)["group"]], ["B", "A", "C"])
        self.assertIn("the groups are renumbered", str(errors.write.mock_calls))


def figures(asked, content):
    """What is proved of the best plan."""
    with files(content) as folder:
        report = asked.text(["capacity", JUNCTION_FILE, CERTIFICATE_FILE], folder, (0,))
    return [line for line in report.splitlines() if line.split()[0] in ("claim", "cycle", "multiplier", "reserve")]


if __name__ == "__main__":
    unittest.main()
