"""Every figure of a sheet against the report, the rows and the certificate; it is well-formed."""
import tempfile
import unittest
import xml.etree.ElementTree as ElementTree
from fractions import Fraction
from pathlib import Path

from dolthrew_view.program import Program
from dolthrew_view.sheet import sheet, sums_of
from dolthrew_view.table import COLUMNS, lane_rows

from .stored import CASES, certificate_of, junction_of, shown

HTML = "{http://www.w3.org/1999/xhtml}"
SUMS = {"junction": "a" * 64, "certificate": "b" * 64, "program": "c" * 64}


def tables_of(drawn):
    """For each heading of a sheet the rows of its table."""
    tables = {}
    for section in ElementTree.fromstring(sheet(drawn, SUMS)).iter(HTML + "section"):
        rows = [[cell.text or "" for cell in row] for row in section.iter(HTML + "tr")]
        tables[section.find(HTML + "h2").text.split(":")[0]] = rows
    return tables


class SheetTest(unittest.TestCase):
    def test_lanes_are_those_of_the_table(self):
        for case in CASES:
            drawn = shown(*case)
            head, *rows = tables_of(drawn)["Lanes"]
            self.assertEqual((tuple(head), rows), (COLUMNS, lane_rows(drawn)), case)

    def test_intergreens_asked_and_shown(self):
        for case in CASES:
            drawn = shown(*case)
            names = [group.name for group in drawn.junction.groups]
            head, *rows = tables_of(drawn)["Intergreens in seconds"]
            self.assertEqual(head[1:], names)
            asked = drawn.junction.intergreens()
            for u, row in enumerate(rows):
                self.assertEqual(row[0], names[u])
                for v, text in enumerate(row[1:]):
                    self.assert_is_intergreen(drawn, text, asked.get((u, v)), u, v)

    def assert_is_intergreen(self, drawn, text, asked, u, v):
        if asked is None:
            self.assertEqual(text, "")
        elif drawn.timetable is None:
            self.assertEqual(text, str(asked))
        else:
            first, second = map(int, text.split(" / "))
            start, green = drawn.report.groups[u].start, drawn.report.groups[u].green
            self.assertEqual(first, asked)
            self.assertGreaterEqual(second, asked)
            self.assertEqual((start + green + second - drawn.report.groups[v].start) % drawn.report.cycle, 0)

    def test_stages_and_claim(self):
        for case in CASES:
            drawn = shown(*case)
            tables = tables_of(drawn)
            stages = [[str(stage.number), str(stage.first), str(stage.seconds), " ".join(stage.groups)]
                      for stage in drawn.report.stages]
            self.assertEqual(tables.get("Stages", [[]])[1:], stages)
            claim = dict(tables["Claim"])
            self.assertEqual((claim["claim"], claim["check says"]), (drawn.certificate.claim, drawn.verdict))
            self.assertEqual(claim["nodes of the proof"], str(drawn.report.nodes))
            if drawn.report.cycle:
                self.assertEqual(Fraction(claim["multiplier"].split(" (")[0]), drawn.report.multiplier)

    def test_files(self):
        files = dict(tables_of(shown("crossing-and-early-start", "cycle"))["Files"])
        self.assertEqual(files, {"version of the junction file": "2", "SHA-256 of the junction": "a" * 64,
                                 "SHA-256 of the certificate": "b" * 64, "SHA-256 of the program": "c" * 64})

    def test_sums(self):
        # The example of three letters in FIPS 180-2, and the sum of no bytes.
        with tempfile.TemporaryDirectory() as folder:
            launcher = Path(folder, "dolthrew")
            binary = Program(launcher).binary
            binary.parent.mkdir(parents=True)
            binary.write_bytes(b"abc")
            of_letters = "ba7816bf8f01cfea414140de5dae2223b00361a396177a9cb410ff61f20015ad"
            of_nothing = "e3b0c44298fc1c149afbf4c8996fb92427ae41e4649b934ca495991b7852b855"
            self.assertEqual(sums_of(Program(launcher), b"abc", b""),
                             {"junction": of_letters, "certificate": of_nothing, "program": of_letters})

    def test_the_sums_are_of_what_was_judged(self):
        case = "two-groups", "capacity"
        self.assertEqual(shown(*case).contents, (junction_of(case[0]), certificate_of(*case)))

    def test_it_holds_the_diagram(self):
        root = ElementTree.fromstring(sheet(shown("crossroads", "capacity"), SUMS))
        self.assertEqual(len(list(root.iter("{http://www.w3.org/2000/svg}svg"))), 1)


if __name__ == "__main__":
    unittest.main()
