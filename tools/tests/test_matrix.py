"""Matrices of intergreens: there and back, and what is refused."""
import tempfile
import tomllib
import unittest
from pathlib import Path
from unittest import mock

from dolthrew_view import matrix
from dolthrew_view.fault import Fault
from dolthrew_view.junctions import read_junction
from dolthrew_view.program import Program

from .live import program
from .stored import JUNCTIONS, ROOT, junction_of
from .test_main import run

SQUARE = """ends/starts,N,E,P
N,-,5,
E,6,-,8
P,,0,-
"""

REAL = ROOT / "examples" / "real"


def conflicts_of(text):
    """The seconds from group to group of conflict tables, by the groups' names."""
    seconds = {}
    for table in tomllib.loads(text).get("conflict", ()):
        seconds[table["a"], table["b"]] = table["a_to_b"]
        seconds[table["b"], table["a"]] = table["b_to_a"]
    return seconds


def read(text):
    return conflicts_of(matrix.conflicts_text(text.encode("utf-8"), "m.csv"))


class MatrixTest(unittest.TestCase):
    def test_rows_end_and_columns_start(self):
        self.assertEqual(read(SQUARE), {("N", "E"): 5, ("E", "N"): 6, ("E", "P"): 8, ("P", "E"): 0})

    def test_what_spreadsheets_write(self):
        expected = read(SQUARE)
        for old, new in ((",", ";"), (",", "\t"), (",", " , "), ("\n", "\r\n"), ("ends", "\ufeffends"), ("N", '"N"'),
                         ("P,,0,-", "\n,,,\nP,,0,-,,\n"), ("N,-,5,", "N,,5")):
            text = SQUARE.replace(old, new)
            self.assertEqual(read(text), expected, text)
        self.assertEqual(read("\n ;;\n" + SQUARE.replace(",", ";")), expected)

    def test_there_and_back(self):
        for name in JUNCTIONS:
            content = junction_of(name)
            self.assertEqual(read(matrix.matrix_text(read_junction(content, name))),
                             conflicts_of(content.decode("utf-8")), name)

    def test_and_there_again(self):
        names = [group["name"] for group in tomllib.loads(junction_of("crossroads").decode("utf-8"))["group"]]
        text = matrix.matrix_text(read_junction(junction_of("crossroads"), "file"))
        self.assertEqual(text.splitlines()[0].split(",")[1:], names)
        self.assertEqual(text.splitlines()[7], "P,8,8,,,,8,-,")

    def test_the_real_matrix_is_that_of_its_junction(self):
        text = (REAL / "rilsa-intergreens.csv").read_text()
        self.assertEqual(read(text), conflicts_of((REAL / "rilsa-twelve-groups.toml").read_text()))


class RefusedMatrixTest(unittest.TestCase):
    def assert_refused(self, text, line):
        content = text if isinstance(text, bytes) else text.encode("utf-8")
        with self.assertRaises(Fault) as caught:
            matrix.conflicts_text(content, "m.csv")
        self.assertEqual(str(caught.exception), "m.csv: " + line)

    def test_cells(self):
        for cell in ("61", "-1", "4.5", "five", "1e1", "\u0665", "9999999999", "+5"):
            self.assert_refused(SQUARE.replace("N,-,5,", "N,-,%s," % cell),
                                "row N, column E: an intergreen is 0 to 60 whole seconds, not %s" % cell)
        self.assert_refused(SQUARE.replace("N,-,5,", "N,4,5,"), "row N, column N: a group doesn't conflict with itself")
        self.assert_refused(SQUARE.replace("N,-,5,", "N,\u2013,5,"),
                            "row N, column N: an intergreen is 0 to 60 whole seconds, not \u2013")

    def test_one_side(self):
        self.assert_refused(SQUARE.replace("N,-,5,", "N,-,,"),
                            "row E, column N has an intergreen, and row N, column E has none")
        self.assert_refused(SQUARE.replace("E,6,-,8", "E,6,-,-"),
                            "row P, column E has an intergreen, and row E, column P has none")

    def test_names(self):
        same = "both have the same groups in the same order"
        self.assert_refused(SQUARE.replace("E,6", "S,6"), "row 2 is S and column 2 is E: " + same)
        self.assert_refused(SQUARE.replace("P,,0,-\n", ""), "row 3 is missing and column 3 is P: " + same)
        self.assert_refused(SQUARE + "Q,,,\n", "row 4 is Q and column 4 is missing: " + same)
        self.assert_refused(SQUARE.replace("N", "N 1"), "row 1: a name is 1 to 16 of A-Z, a-z, 0-9, _ and -, not N 1")
        self.assert_refused(SQUARE.replace("P", "N"), "row 3: N has a row above")

    def test_shapes(self):
        self.assert_refused(SQUARE.replace("N,-,5,", "N,-,5,,7"), "row N has 5 columns, and the first row names 4")
        self.assert_refused("x,N\nN,-\n", "it has 1 groups, and a junction has 2 to 16")
        names = ["G%d" % number for number in range(17)]
        text = "\n".join([",".join(["x", *names]), *names])
        self.assert_refused(text, "it has 17 groups, and a junction has 2 to 16")
        self.assert_refused(" \n,,\n", "no matrix: all is blank")
        self.assert_refused("", "no matrix: all is blank")

    def test_no_csv(self):
        for content in (b"\xff\xfe", b'x,"N'):
            with self.assertRaisesRegex(Fault, "^m.csv: no CSV in UTF-8: "):
                matrix.conflicts_text(content, "m.csv")


class CommandTest(unittest.TestCase):
    def setUp(self):
        self.folder = tempfile.TemporaryDirectory()
        self.addCleanup(self.folder.cleanup)

    def file(self, name, content):
        path = Path(self.folder.name, name)
        path.write_bytes(content)
        return str(path)

    def test_a_matrix(self):
        status, printed, said = run(["matrix", self.file("m.csv", SQUARE.encode())])
        self.assertEqual((status, said), (0, ""))
        self.assertEqual(conflicts_of(printed), read(SQUARE))

    def test_a_fault_is_one_line(self):
        path = self.file("m.csv", SQUARE.replace("5", "x\x1b\ny").encode())
        status, printed, said = run(["matrix", path])
        self.assertEqual((status, printed, said.count("\n")), (2, "", 1))

    def test_a_junction_is_judged_first(self):
        path = self.file("j.toml", b"[")
        with mock.patch.object(Program, "judge", side_effect=Fault("bad junction 1 not_toml top 0 whole")):
            self.assertEqual(run(["matrix", path]), (2, "", "dolthrew-view: bad junction 1 not_toml top 0 whole\n"))

    def test_a_junction(self):
        program()
        status, printed, said = run(["matrix", self.file("j.toml", junction_of("crossroads"))])
        self.assertEqual((status, said), (0, ""))
        self.assertEqual(read(printed), conflicts_of(junction_of("crossroads").decode("utf-8")))


if __name__ == "__main__":
    unittest.main()
