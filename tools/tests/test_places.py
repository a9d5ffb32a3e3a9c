"""Where the fault of a refused file stands: its line, told by hand in the files below."""
import io
import os
import pty
import subprocess
import tempfile
import unittest
from pathlib import Path
from unittest import mock

from dolthrew_view.fault import Fault
from dolthrew_view.places import place
from dolthrew_view.toml_lines import toml_lines

from .live import program
from .stored import ROOT, junction_of
from .test_main import run

TABLES = """# a comment with [[group]]
version = 2
name = '''
[[group]]'''
least_cycle = 40

[[ group ]]  # the first one
name = "A"
min_green = 7

[[group]]
"na\\u006de" = "B"
max_green = 6
colour = "red"
limits = [
    # nothing
    [1, 2], "]",
]

[[lane]]
name = "A1"

[[conflict]]
a = "A"

[group.times]
amber = 3
"""

INLINE = """version = 1
group = [
    {name = "A", min_green = 7},
    {name = "}{", min_green = 7, max_green = 300},  # "
    5,
]
lane = [{name = "L", group = "A"}, {name = "M"}]
link = []
a.b = 1
greatest_cycle = 1979-05-27 07:32:00
"""


def found(text, spot, word="shape"):
    """The line's number and text."""
    name, number, line = place("bad junction 3 %s %s" % (word, spot), text.encode("utf-8"), "f.toml").split(":", 2)
    assert name == "f.toml"
    return int(number), line.strip()


class PlaceTest(unittest.TestCase):
    def test_tables(self):
        for spot, line in (("top 0 version", 2), ("top 0 name", 3), ("top 0 least_cycle", 5),
                           ("top 0 greatest_cycle", 1), ("top 0 group", 7), ("top 0 lane", 20), ("top 0 whole", 1),
                           ("group 1 whole", 7), ("group 1 name", 8), ("group 1 min_green", 9), ("group 1 amber", 7),
                           ("group 2 whole", 11), ("group 2 name", 12), ("group 2 max_green", 13),
                           ("group 2 other", 14), ("lane 1 name", 21), ("lane 1 group", 20), ("conflict 1 a", 24),
                           ("conflict 1 b_to_a", 23)):
            self.assertEqual(found(TABLES, spot), (line, TABLES.split("\n")[line - 1]), spot)

    def test_a_table_within_a_table(self):
        self.assertEqual(toml_lines(TABLES).lists["group"][1].keys["times"], 26)

    def test_inline_tables(self):
        for spot, line in (("top 0 group", 2), ("group 1 name", 3), ("group 1 amber", 3), ("group 2 min_green", 4),
                           ("group 2 other", 4), ("group 3 whole", 5), ("lane 1 group", 7), ("lane 2 group", 7),
                           ("top 0 other", 8), ("top 0 greatest_cycle", 10)):
            self.assertEqual(found(INLINE, spot), (line, INLINE.split("\n")[line - 1].strip()), spot)

    def test_a_key_of_version_2_is_another_one_in_version_1(self):
        self.assertEqual(found(INLINE.replace("version = 1", "version = 2"), "top 0 other")[0], 9)

    def test_line_ends_of_windows(self):
        self.assertEqual(found(TABLES.replace("\n", "\r\n"), "group 2 max_green"), (13, "max_green = 6"))

    def test_the_issue_of_a_short_intergreen(self):
        text = junction_of("two-groups").decode("utf-8").replace("a_to_b = 2", "a_to_b = 1")
        self.assertEqual(found(text, "conflict 1 a_to_b", "short_intergreen"), (43, "a_to_b = 1"))

    def test_a_terminal_obeys_nothing(self):
        text = 'version = 1\nname = "\u202e\t%s"\n' % ("x" * 300)
        line = found(text, "top 0 name")[1]
        self.assertTrue(line.startswith('name = "? xxx') and line.endswith("xxx.."))


class NoTomlTest(unittest.TestCase):
    def test_line_and_column(self):
        for content, expected in ((b"version = 1\n\nname = \"a\n", "f.toml:3:10: name = \"a"),
                                  (b"version = 1\nname 2\n", "f.toml:2:6: name 2"),
                                  (b"version =", "f.toml:1:10: version ="),
                                  (b"a = 1\nb = \"\xff\"\n", "f.toml:2:6: b = \"\ufffd\"")):
            self.assertEqual(place("bad junction 1 not_toml top 0 whole", content, "f.toml"), expected)

    def test_what_python_reads(self):
        with self.assertRaisesRegex(Fault, "^f.toml: Python reads it as TOML"):
            place("bad junction 1 not_toml top 0 whole", b"a = 1\n", "f.toml")

    def test_a_byte_order_mark(self):
        bad = b"\xef\xbb\xbfname 2\n"
        self.assertEqual(place("bad junction 1 not_toml top 0 whole", bad, "f.toml"), "f.toml:1:6: name 2")
        bad = b"\xef\xbb\xbfa = 1\nb = \"\xff\"\n"
        self.assertEqual(place("bad junction 1 not_toml top 0 whole", bad, "f.toml"), "f.toml:2:6: b = \"\ufffd\"")
        marked = b"\xef\xbb\xbf" + TABLES.encode()
        self.assertEqual(place("bad junction 5 range top 0 least_cycle", marked, "f.toml"),
                         "f.toml:5: least_cycle = 40")

    def test_more_digits_than_python_reads(self):
        with self.assertRaisesRegex(Fault, "^f.toml: Python's reader doesn't say in which line"):
            place("bad junction 1 not_toml top 0 whole", b"version = " + b"9" * 5000, "f.toml")

    def test_what_nests_too_deep(self):
        for word in ("not_toml", "shape"):
            with self.assertRaisesRegex(Fault, "^f.toml: "):
                place("bad junction 1 %s top 0 whole" % word, b"a = " + b"[" * 100000, "f.toml")
        for depth in range(1, 500, 7):
            try:
                place("bad junction 3 shape top 0 a", b"a = " + b"[" * depth + b"]" * depth, "f.toml")
            except Fault as fault:
                self.assertIn("nest", str(fault).replace("recursion", "nest"))


class CommandTest(unittest.TestCase):
    def where(self, line, content):
        with tempfile.TemporaryDirectory() as folder:
            path = Path(folder, "f.toml")
            path.write_bytes(content)
            with mock.patch("sys.stdin", io.TextIOWrapper(io.BytesIO(line))):
                status, printed, said = run(["where", str(path)])
            return status, printed.replace(folder + "/", ""), said.replace(folder + "/", "")

    def test_the_line_and_its_place(self):
        line = b"bad junction 5 range top 0 least_cycle\n"
        self.assertEqual(self.where(line, TABLES.encode()), (0, line.decode() + "f.toml:5: least_cycle = 40\n", ""))

    def test_lines_that_are_none(self):
        for line in (b"", b"bad words\n", b"bad junction 5 range top 0\n", b"bad junction 5 range node 0 a\n",
                     b"\xff" * 1000):
            status, printed, said = self.where(line, TABLES.encode())
            self.assertEqual((status, printed), (2, ""))
            self.assertRegex(said, r"\Adolthrew-view: standard input has no line: bad junction [^\n]+\n\Z")

    def test_files_that_have_no_such_place(self):
        line = b"bad junction 5 range lane 7 limit\n"
        self.assertEqual(self.where(line, TABLES.encode()), (2, "", "dolthrew-view: f.toml: it has no lane 7\n"))
        status, printed, said = self.where(line, b"[")
        self.assertEqual((status, printed), (2, ""))
        self.assertRegex(said, r"\Adolthrew-view: f.toml: no TOML 1.0, and the tools read no other: [^\n]+\n\Z")


# Written behind what the launcher shows, to know its end.
END = b"\0"

TIMES = "min_green = 7\namber = 3\nred_amber = 2\nstart_lost = 2\nend_gain = 1"

# What is changed in crossing-and-early-start.toml, how often that stands before, and the word of the fault. The place
# of each is the line that is changed.
CHANGES = (
    ("version = 2", "version = 3", 0, "version"),
    ("least_cycle = 40", "least_cycle = '40'", 0, "shape"),
    ("max_green = 12", "maximum = 12", 0, "shape"),
    ("amber = 3", "amber = 31", 1, "range"),
    ("saturation = 1750", "saturation = 0", 0, "range"),
    ('name = "side"', 'name = "main"', 0, "name"),
    ('group = "side"', 'group = "sides"', 0, "unknown"),
    ('b = "side"', 'b = "sidle"', 1, "unknown"),
    ("[[conflict]]\na = \"main\"", "[[conflict]] # one\na = \"crossing\"", 1, "self_conflict"),
    ("[[conflict]]\na = \"main\"\nb = \"crossing\"", "[[conflict]] # again\na = \"side\"\nb = \"main\"", 0, "twice"),
    ("[[conflict]]", "[[group]] # alone\nname = \"x\"\n%s\n[[conflict]]" % TIMES, 0, "lonely"),
    ("a_to_b = 4", "a_to_b = 2", 0, "short_intergreen"),
    ("end_gain = 1", "end_gain = 4", 1, "end_gain"),
    ("start_lost = 1", "start_lost = 10", 0, "no_effective"),
    ("max_green = 12", "max_green = 5", 0, "max_green"),
    ("[[link]]\nleader = \"cyclists\"", "[[link]] # one\nleader = \"main\"", 0, "self_link"),
    ("[[link]]", "[[link]]\nleader = \"main\"\nfollower = \"cyclists\"\nafter = 0\n[[link]] # again", 0, "link_twice"),
)


class ProgramsFaultTest(unittest.TestCase):
    """Places of what the program says of a file."""

    def test_the_changed_line(self):
        asked = program()
        for old, new, before, word in CHANGES:
            text = changed(junction_of("crossing-and-early-start").decode("utf-8"), old, new, before)
            with self.assertRaises(Fault) as caught:
                asked.judge(text.encode("utf-8"))
            line = str(caught.exception)
            self.assertEqual(line.split()[3], word)
            self.assertEqual(place(line, text.encode("utf-8"), "f").split(": ", 1)[1], marked_line(new), line)


    def test_faults_of_a_whole_list(self):
        text = junction_of("crossing-and-early-start").decode("utf-8")
        empty = text.replace("arrival = 540", "arrival = 0").replace("arrival = 310", "arrival = 0")
        head, lanes = text.split("[[group]]", 1)[0], text.index("[[lane]]")
        none = "lane = []\n" + text[:lanes] + text[text.index("[[conflict]]"):]
        for content, word, line in ((empty, "no_flow", "[[lane]]"), (none, "count", "lane = []"),
                                    (head + "group = []\nlane = []\nconflict = []\n", "count", "group = []")):
            with self.assertRaises(Fault) as caught:
                program().judge(content.encode("utf-8"))
            self.assertEqual(str(caught.exception).split()[3], word)
            self.assertEqual(place(str(caught.exception), content.encode("utf-8"), "f").split(": ", 1)[1], line)


def changed(text, old, new, before):
    """The text with the next old part behind so many of them changed."""
    parts = text.split(old)
    return old.join(parts[:before + 1]) + new + old.join(parts[before + 1:])


def marked_line(new):
    """The line with a comment, or the only line."""
    return next((line for line in new.split("\n") if "#" in line), new)


class LauncherTest(unittest.TestCase):
    """What the launcher shows at a terminal."""

    def setUp(self):
        program()
        folder = tempfile.TemporaryDirectory()
        self.addCleanup(folder.cleanup)
        self.bad = Path(folder.name, "bad.toml")
        self.bad.write_bytes(junction_of("two-groups").replace(b"a_to_b = 2", b"a_to_b = 1"))
        self.certificate = Path(folder.name, "plan.json")

    def launch(self, junction):
        """The status, standard output, and what a terminal at standard error shows."""
        terminal, errors = pty.openpty()
        words = [str(ROOT / "dolthrew"), "capacity", str(junction), str(self.certificate)]
        done = subprocess.run(words, stdout=subprocess.PIPE, stderr=errors, check=False)
        os.write(errors, END)
        shown = b""
        while not shown.endswith(END):
            shown += os.read(terminal, 10000)
        os.close(errors)
        os.close(terminal)
        return done.returncode, done.stdout, shown[:-len(END)].replace(b"\r\n", b"\n").decode()

    def test_a_refused_file(self):
        status, printed, shown = self.launch(self.bad)
        self.assertEqual((status, printed), (5, b"bad junction 11 short_intergreen conflict 1 a_to_b\n"))
        self.assertEqual(shown, "%s:43: a_to_b = 1\n" % self.bad)
        self.assertFalse(self.certificate.exists())

    def test_a_file_that_is_not_refused(self):
        status, printed, shown = self.launch(ROOT / "examples" / "two-groups.toml")
        self.assertEqual((status, shown), (0, ""))
        self.assertTrue(printed.startswith(b"junction two groups\nclaim capacity\n"))

    def test_no_terminal(self):
        words = [str(ROOT / "dolthrew"), "capacity", str(self.bad), str(self.certificate)]
        done = subprocess.run(words, capture_output=True, check=False)
        self.assertEqual((done.returncode, done.stderr), (5, b""))


if __name__ == "__main__":
    unittest.main()
