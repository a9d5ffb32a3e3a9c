"""Reports, read line by line."""
import unittest
from dataclasses import replace
from fractions import Fraction

from dolthrew_view.certificates import read_certificate
from dolthrew_view.defined_reports import see_that_it_is_of
from dolthrew_view.fault import Fault
from dolthrew_view.junctions import read_junction
from dolthrew_view.reports import GroupTimes, LaneFigures, Stage, read_report

from .stored import CASES, StoredProgram, certificate_of, junction_of

# The report of the crossroads as README.md has it, but for some lanes and stages.
TEXT = """junction crossroads
claim capacity
least 1/1
nodes 1349
cycle 119
multiplier 171/136
reserve 875/34 per cent
group N start 0 green 40
group E start 45 green 50
lane N1 saturation 833/1170 delay 4599115797/119907970
lane E1 saturation 68/95 delay over
stage 2 first 45 seconds 47 groups E W P
"""


class ReportsTest(unittest.TestCase):
    def test_all_parts(self):
        report = read_report(TEXT)
        self.assertEqual((report.title, report.claim), ("crossroads", "capacity"))
        self.assertEqual((report.least, report.nodes), (1, 1349))
        self.assertEqual((report.cycle, report.multiplier), (119, Fraction(171, 136)))
        self.assertEqual(report.reserve, Fraction(875, 34))
        self.assertEqual(report.groups, [GroupTimes("N", 0, 40), GroupTimes("E", 45, 50)])
        self.assertEqual(report.lanes, [LaneFigures("N1", Fraction(833, 1170), Fraction(4599115797, 119907970)),
                                        LaneFigures("E1", Fraction(68, 95), None)])
        self.assertEqual(report.stages, [Stage(2, 45, 47, ("E", "W", "P"))])

    def test_without_a_plan(self):
        report = read_report("\n".join(TEXT.splitlines()[:4]) + "\n")
        self.assertEqual((report.cycle, report.groups, report.lanes, report.stages), (None, [], [], []))

    def test_what_is_no_report_is_one_fault(self):
        for text in ("", "bad words\n", TEXT.replace("claim", "claims"), TEXT.replace("cycle 119", "cycle many"),
                     TEXT.replace("833/1170", "833/0"), TEXT + "street 3\n", TEXT.replace(" start 0", ""),
                     TEXT.replace("1349", "1_349"), TEXT.replace("1/1", "1"), TEXT.replace("171/136", "1.257"),
                     TEXT.replace("68/95", "1e5000"), TEXT.replace("68/95", "1e3000000000"),
                     TEXT.replace("68/95", "9" * 5000 + "/1"), TEXT.replace("first 45", "first -45"),
                     TEXT.replace("cycle 119", "cycle 119 1")):
            with self.assertRaisesRegex(Fault, "^file: no report of the program$"):
                read_report(text, "file")

    def test_each_stored_report_is_of_its_certificate(self):
        for case in CASES:
            junction, certificate, report = self.parts_of(*case)
            see_that_it_is_of(report, junction, certificate, "file")

    def test_the_report_of_another_certificate_is_refused(self):
        junction, certificate, report = self.parts_of("crossroads", "capacity")
        for other in (replace(report, title="other"), replace(report, claim="cycle"), replace(report, least=2),
                      replace(report, nodes=1), replace(report, cycle=118), replace(report, groups=report.groups[1:]),
                      replace(report, lanes=report.lanes[1:]), self.parts_of("crossroads", "cycle")[2]):
            self.assert_of_another(other, junction, certificate)

    def test_another_multiplier_or_reserve_is_refused(self):
        junction, certificate, report = self.parts_of("crossroads", "capacity")
        for other in (replace(report, multiplier=Fraction(999)), replace(report, multiplier=None),
                      replace(report, reserve=Fraction(99800)), replace(report, reserve=None),
                      replace(report, multiplier=Fraction(999), reserve=Fraction(99800)), replace(report, cycle=None)):
            self.assert_of_another(other, junction, certificate)

    def test_other_lanes_or_stages_are_refused(self):
        junction, certificate, report = self.parts_of("crossroads", "capacity")
        lane, *lanes = report.lanes
        stage, *stages = report.stages
        for other in (replace(report, lanes=[replace(lane, saturation=Fraction(1, 2)), *lanes]),
                      replace(report, lanes=[replace(lane, delay=None), *lanes]), replace(report, stages=[]),
                      replace(report, stages=stages), replace(report, stages=[replace(stage, groups=("ZZ",)), *stages]),
                      replace(report, stages=[replace(stage, seconds=500), *stages])):
            self.assert_of_another(other, junction, certificate)

    def test_the_length_of_a_delay_is_held_against_nothing(self):
        junction, certificate, report = self.parts_of("crossroads", "capacity")
        lane, *lanes = report.lanes
        other = replace(report, lanes=[replace(lane, delay=Fraction(1)), *lanes])
        see_that_it_is_of(other, junction, certificate, "file")

    def assert_of_another(self, report, junction, certificate):
        with self.assertRaisesRegex(Fault, "^file: it isn't the report of this certificate: it has another "):
            see_that_it_is_of(report, junction, certificate, "file")

    @staticmethod
    def parts_of(name, command):
        report = read_report(StoredProgram(name, command).report(None, None))
        return read_junction(junction_of(name), name), read_certificate(certificate_of(name, command), name), report


if __name__ == "__main__":
    unittest.main()
