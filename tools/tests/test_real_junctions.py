"""The junctions after the books: the program finds what their README says."""
import re
import unittest
from fractions import Fraction

from dolthrew_view.program import CERTIFICATE_FILE, JUNCTION_FILE, files

from .live import program
from .stored import ROOT

REAL = ROOT / "examples" / "real"

# File, cycle, multiplier, reserve, nodes, and the shortest cycle.
ROW = re.compile(r"\| `([a-z-]+\.toml)` \| ([0-9]+) \| ([0-9]+/[0-9]+) \| ([0-9.]+) per cent \| ([0-9]+) "
                 r"\| ([0-9]+)[ ,]")


def designed(asked, command, content):
    """The values of a report's lines that have one, by their words; the certificate is proved."""
    with files(content) as folder:
        report = asked.text([command, JUNCTION_FILE, CERTIFICATE_FILE], folder, (0,))
        asked.text(["check", JUNCTION_FILE, CERTIFICATE_FILE], folder, (0,))
    return dict(line.split()[:2] for line in report.splitlines())


class RealJunctionTest(unittest.TestCase):
    def test_the_table_of_the_readme(self):
        asked = program()
        rows = ROW.findall((REAL / "README.md").read_text("utf-8"))
        self.assertEqual({row[0] for row in rows}, {path.name for path in REAL.glob("*.toml")})
        for name, cycle, multiplier, reserve, nodes, shortest in rows:
            content = (REAL / name).read_bytes()
            found = designed(asked, "capacity", content)
            self.assertEqual((found["cycle"], found["multiplier"], found["nodes"]), (cycle, multiplier, nodes), name)
            self.assertEqual("%.1f" % (100 * (Fraction(multiplier) - 1)), reserve, name)
            self.assertEqual(designed(asked, "cycle", content)["cycle"], shortest, name)


if __name__ == "__main__":
    unittest.main()
