"""The program as the tools run it. Skipped where it isn't built and fresh."""
import tempfile
import unittest
from pathlib import Path
from unittest import mock

from dolthrew_view.certificates import read_certificate
from dolthrew_view.diagram import diagram
from dolthrew_view.fault import Fault
from dolthrew_view.program import CERTIFICATE_FILE, JUNCTION_FILE, NOT_BUILT, Program, files
from dolthrew_view.shown import show, shown_of

from .drawn import outside_of, overlaps_of
from .live import program
from .stored import CASES, StoredProgram, certificate_of, junction_of, turned
from .test_main import run
from .walks import see_that_walks_close

# Samples that are decided within the default budget, with few nodes.
SAMPLES = (8, 23, 28)


class LiveProgramTest(unittest.TestCase):
    @classmethod
    def setUpClass(cls):
        cls.program = program()

    def test_it_prints_what_is_stored(self):
        for case in CASES:
            junction, certificate, kept = junction_of(case[0]), certificate_of(*case), StoredProgram(*case)
            self.assertEqual(self.program.verdict(junction, certificate), kept.verdict(junction, certificate), case)
            self.assertEqual(self.program.report(junction, certificate), kept.report(junction, certificate), case)
            plan = read_certificate(certificate, "file").plan
            if plan:
                rows = self.program.rows(junction, certificate, plan.cycle)
                self.assertEqual(rows, kept.rows(junction, certificate, plan.cycle), case)

    def test_the_certificate_of_another_junction_is_refused_with_its_line(self):
        with self.assertRaisesRegex(Fault, "^refuted 2 fit cycle_limit$"):
            shown_of(self.program, junction_of("two-groups"), certificate_of("two-groups-short", "cycle"))
        with self.assertRaisesRegex(Fault, "^refuted 4 cycles$"):
            shown_of(self.program, junction_of("two-groups"), certificate_of("two-groups-one-cycle", "capacity"))
        with self.assertRaisesRegex(Fault, "^bad certificate 3 range$"):
            shown_of(self.program, junction_of("crossroads"), certificate_of("two-groups", "capacity"))
        with self.assertRaisesRegex(Fault, "^bad junction 1 not_toml top 0 whole$"):
            shown_of(self.program, b"[", certificate_of("two-groups", "capacity"))

    def test_a_certificate_that_is_not_the_programs_needs_its_report(self):
        junction, written = junction_of("two-groups-one-cycle"), certificate_of("two-groups-one-cycle", "capacity")
        other = written.replace(b'"budget":20000,', b'"budget": 20000,')
        self.assertNotEqual(other, written)
        with self.assertRaisesRegex(Fault, "--report FILE"):
            shown_of(self.program, junction, other)
        report = StoredProgram("two-groups-one-cycle", "capacity").report(junction, other)
        self.assertEqual(shown_of(self.program, junction, other, report).report.cycle, 60)

    def test_a_plan_that_does_not_begin_with_group_0_is_proved_too(self):
        certificate = turned(certificate_of("crossroads", "capacity"), 70)
        self.assertEqual(self.program.verdict(junction_of("crossroads"), certificate), "proved capacity")

    def test_samples(self):
        for number in SAMPLES:
            with tempfile.TemporaryDirectory() as folder:
                self.program.text(["sample", str(number), JUNCTION_FILE, CERTIFICATE_FILE], folder, (0,))
                paths = Path(folder, JUNCTION_FILE), Path(folder, CERTIFICATE_FILE)
                drawn = show(self.program, *paths)
                self.assertEqual(drawn.verdict, "proved capacity")
                see_that_walks_close(self, drawn.junction, drawn.certificate)
                svg = diagram(drawn)
                self.assertEqual((overlaps_of(svg), outside_of(svg)), ([], []), number)

    def test_the_command_line(self):
        with files(junction_of("crossroads"), certificate_of("crossroads", "capacity")) as folder:
            words = [str(Path(folder, JUNCTION_FILE)), str(Path(folder, CERTIFICATE_FILE))]
            for tool, begin in (("diagram", "<svg "), ("sheet", "<!DOCTYPE html>\n"), ("table", "Lane,Group,")):
                status, printed, said = run([tool, *words])
                self.assertEqual((status, said), (0, ""))
                self.assertTrue(printed.startswith(begin))
            self.assertEqual(sorted(path.name for path in Path(folder).iterdir()), [CERTIFICATE_FILE, JUNCTION_FILE])

    def test_the_command_line_refuses_with_the_programs_line(self):
        with files(junction_of("crossroads"), certificate_of("two-groups", "capacity")) as folder:
            words = [str(Path(folder, JUNCTION_FILE)), str(Path(folder, CERTIFICATE_FILE))]
            for tool in ("diagram", "sheet", "table"):
                self.assertEqual(run([tool, *words]), (2, "", "dolthrew-view: bad certificate 3 range\n"))


class LauncherTest(unittest.TestCase):
    """How the tools take what a launcher does, with scripts in its place."""

    def launched(self, script):
        folder = tempfile.TemporaryDirectory()
        self.addCleanup(folder.cleanup)
        path = Path(folder.name, "dolthrew")
        path.write_text("#!/bin/sh\n" + script)
        path.chmod(0o755)
        return Program(path)

    def test_the_program_cannot_be_built(self):
        failing = self.launched("echo 'dolthrew: first' >&2; echo 'dolthrew: no kit' >&2; exit %d\n" % NOT_BUILT)
        with mock.patch("sys.stderr") as errors, self.assertRaisesRegex(Fault, "^dolthrew: no kit$"):
            failing.verdict(b"", b"")
        self.assertIn("dolthrew: first", str(errors.write.mock_calls))

    def test_what_a_build_tells_is_passed_on_while_it_runs(self):
        waiting = self.launched("echo 'dolthrew: building' >&2; while [ ! -e go ]; do sleep 0.05; done; echo done\n")
        with files(b"") as folder, mock.patch("sys.stderr") as errors:
            errors.write.side_effect = lambda text: Path(folder, "go").touch()
            self.assertEqual(waiting.answer([], folder), (0, b"done\n"))
        self.assertIn("dolthrew: building", str(errors.write.mock_calls))

    def test_a_status_that_is_not_expected_is_a_fault_with_the_line(self):
        with self.assertRaisesRegex(Fault, "^refuted 6 pair cycle 60 node 0$"):
            self.launched("echo 'refuted 6 pair cycle 60 node 0'; exit 3\n").verdict(b"", b"")
        with self.assertRaisesRegex(Fault, "^the program ended with status 9$"):
            self.launched("exit 9\n").verdict(b"", b"")

    def test_the_program_is_killed(self):
        with self.assertRaisesRegex(Fault, "^the program was ended by signal 15$"):
            self.launched("kill -TERM $$\n").verdict(b"", b"")

    def test_its_files_are_removed(self):
        folder = self.launched("pwd\n").verdict(b"1", b"2")
        self.assertFalse(Path(folder).exists())
        with files(b"1", b"2") as folder:
            self.assertEqual(Path(folder, JUNCTION_FILE).read_bytes(), b"1")
        self.assertFalse(Path(folder).exists())


if __name__ == "__main__":
    unittest.main()
