"""Plans as programs of SUMO: the states of each second, files of links that are refused, and SUMO where it is there."""
import shutil
import subprocess
import sys
import tempfile
import unittest
import xml.etree.ElementTree as ElementTree
from pathlib import Path

from dolthrew_view.fault import Fault
from dolthrew_view.sumo import program_text, read_light, states

from .live import program
from .stored import ROOT, StoredProgram, junction_of, stored
from .test_main import run

EXAMPLE = ROOT / "examples" / "sumo"
LINKS = EXAMPLE / "crossroads.links.toml"

ROWS = """second,A,B
0,green,red
1,green,red
2,amber,red_amber
3,red,green
"""

TWO = """version = 1
light = "a&b"
program = "best"

[[signal]]
index = 1
group = "A"
gives_way = true

[[signal]]
index = 0
group = "B"

[[signal]]
index = 2
group = "A"
"""


def light(text):
    return read_light(text.encode("utf-8"), "l.toml")


class StatesTest(unittest.TestCase):
    def test_each_second(self):
        self.assertEqual(states(ROWS, light(TWO), "l.toml"), ["rgG", "rgG", "uyy", "Grr"])

    def test_a_phase_for_each_state(self):
        root = ElementTree.fromstring(program_text(light(TWO), states(ROWS, light(TWO), "l.toml")))
        logic = root.find("tlLogic")
        self.assertEqual(logic.attrib, {"id": "a&b", "type": "static", "programID": "best", "offset": "0"})
        self.assertEqual([(phase.get("duration"), phase.get("state")) for phase in logic],
                         [("2", "rgG"), ("1", "uyy"), ("1", "Grr")])

    def test_the_crossroads(self):
        rows = StoredProgram("crossroads", "capacity").rows(b"", b"", 0)
        signals = read_light(LINKS.read_bytes(), "links")
        shown = states(rows, signals, "links")
        phases = ElementTree.fromstring(program_text(signals, shown)).find("tlLogic")
        played = [phase.get("state") for phase in phases for _ in range(int(phase.get("duration")))]
        self.assertEqual(played, shown)
        # At second 0 N and S are green alone.
        self.assertEqual(shown[0], "GGrrrrGGrrrrr")
        self.assertEqual(len(shown), len(rows.splitlines()) - 1)

    def test_a_group_that_is_not_there(self):
        with self.assertRaisesRegex(Fault, "^l.toml: the junction has no group A$"):
            states(ROWS.replace("A", "C"), light(TWO), "l.toml")


class RefusedLinksTest(unittest.TestCase):
    def assert_refused(self, old, new, line):
        self.assertIn(old, TWO)
        with self.assertRaises(Fault) as caught:
            light(TWO.replace(old, new, 1))
        self.assertEqual(str(caught.exception), "l.toml: " + line)

    def test_keys(self):
        self.assert_refused("version = 1", "version = 2", "the version of such a file is 1")
        self.assert_refused("version = 1", "version = true", "the key version is missing or has another kind")
        self.assert_refused('light = "a&b"\n', "", "the key light is missing or has another kind")
        self.assert_refused("program =", "programme =", "the key programme isn't known")
        self.assert_refused("a&b", "", "the key light is empty or has a letter that can't be printed")
        self.assert_refused("best", "be\\u0000st", "the key program is empty or has a letter that can't be printed")
        self.assert_refused('group = "B"', "group = 2", "signal 2: the key group is missing or has another kind")
        self.assert_refused('group = "B"', 'color = "B"', "signal 2: the key color isn't known")

    def test_indexes(self):
        self.assert_refused("index = 0", "index = 1", "signal 2: the index stands twice or isn't from 0 to 999")
        self.assert_refused("index = 0", "index = -1", "signal 2: the index stands twice or isn't from 0 to 999")
        self.assert_refused("index = 2", "index = 1000", "signal 3: the index stands twice or isn't from 0 to 999")
        self.assert_refused("index = 0", "index = 0x" + "f" * 5000,
                            "signal 2: the index stands twice or isn't from 0 to 999")
        self.assert_refused("index = 0", "index = 3", "no signal has the index 0")

    def test_no_links(self):
        for text, line in (('version = 1\nlight = "a"\n', "the key signal is missing or has another kind"),
                           ('version = 1\nlight = "a"\nsignal = []\n', "no signal has the index 0"),
                           ('version = 1\nlight = "a"\nsignal = [1]\n', "signal 1: no table")):
            with self.assertRaisesRegex(Fault, "^l.toml: %s$" % line):
                light(text)
        for content in (b"[", b"\xff"):
            with self.assertRaisesRegex(Fault, "^l.toml: no TOML 1.0, "):
                read_light(content, "l.toml")


class CommandTest(unittest.TestCase):
    def setUp(self):
        program()
        folder = tempfile.TemporaryDirectory()
        self.addCleanup(folder.cleanup)
        self.junction = Path(folder.name, "junction.toml")
        self.junction.write_bytes(junction_of("crossroads"))

    def sumo(self, name, command, links=LINKS):
        return run(["sumo", str(self.junction), str(stored(name, command, "json")), str(links)])

    def test_the_crossroads(self):
        status, printed, said = self.sumo("crossroads", "capacity")
        signals = read_light(LINKS.read_bytes(), "links")
        rows = StoredProgram("crossroads", "capacity").rows(b"", b"", 0)
        self.assertEqual((status, printed, said), (0, program_text(signals, states(rows, signals, "links")), ""))

    def test_the_certificate_of_another_junction(self):
        self.assertEqual(self.sumo("two-groups", "capacity"), (2, "", "dolthrew-view: bad certificate 3 range\n"))

    def test_a_certificate_without_a_plan(self):
        self.junction.write_bytes(junction_of("two-groups-infeasible"))
        path = stored("two-groups-infeasible", "capacity", "json")
        said = self.sumo("two-groups-infeasible", "capacity")
        self.assertEqual(said, (2, "", "dolthrew-view: %s: it has no plan\n" % path))

    def test_a_file_of_links_that_is_a_junction(self):
        status, printed, said = self.sumo("crossroads", "capacity", self.junction)
        self.assertEqual((status, printed), (2, ""))
        self.assertRegex(said, r"\Adolthrew-view: .*junction.toml: the key name isn't known\n\Z")


@unittest.skipUnless(shutil.which("sumo") and shutil.which("netconvert"), "SUMO isn't there")
class SumoTest(unittest.TestCase):
    def test_it_shows_what_play_says(self):
        program()
        words = [sys.executable, str(EXAMPLE / "compare"), "states"]
        done = subprocess.run(words, capture_output=True, text=True, check=False)
        self.assertEqual((done.returncode, done.stderr), (0, ""))
        self.assertEqual(done.stdout, "states: 357 of 357 seconds are those of play\n")


if __name__ == "__main__":
    unittest.main()
