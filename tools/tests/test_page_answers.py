"""What the page is told of a plan, against what the program printed; and of a fault, against docs/FILE-FORMAT.md."""
import hashlib
import json
import re
import unittest
from fractions import Fraction
from pathlib import Path

from dolthrew_view.diagram import diagram
from dolthrew_view.page.answers import shown_answer
from dolthrew_view.page.faults import fault_answer, refusal_text, sentences

from .stored import CASES, ROOT, StoredProgram, certificate_of, junction_of, shown


class Program(StoredProgram):
    """The stored program, with a file in its place."""
    binary = Path(__file__)


def answer_of(case):
    program = Program(*case)
    return shown_answer(program, junction_of(case[0]), certificate_of(*case), program.text("report"))


class Answers(unittest.TestCase):
    def test_texts_are_the_programs_own(self):
        for case in CASES:
            answer = answer_of(case)
            self.assertEqual(answer["certificate"].encode(), certificate_of(*case), case)
            self.assertEqual(answer["report"], Program(*case).text("report"), case)
            self.assertEqual(answer["verdict"], Program(*case).text("verdict").strip(), case)
            self.assertEqual(json.loads(json.dumps(answer)), answer, case)

    def test_figures_are_those_of_the_report(self):
        for case in CASES:
            answer, report = answer_of(case), Program(*case).text("report")
            self.assertEqual(answer["claim"], re.search(r"^claim (\w+)$", report, re.M)[1], case)
            self.assertEqual(answer["nodes"], int(re.search(r"^nodes (\d+)$", report, re.M)[1]), case)
            if "cycle" not in answer:
                self.assertNotIn("\ncycle ", report, case)
                continue
            multiplier = re.search(r"^multiplier (.*)$", report, re.M)[1]
            self.assertEqual(answer["multiplier"]["exact"], multiplier, case)
            rounding = Fraction(answer["multiplier"]["decimal"]) - Fraction(multiplier)
            self.assertLessEqual(abs(rounding), Fraction(1, 2000), case)
            greens = ["group %(name)s start %(start)d green %(green)d" % group for group in answer["groups"]]
            self.assertEqual(greens, re.findall(r"^group .*$", report, re.M), case)
            stages = ["stage %s first %s seconds %s groups %s" % tuple(stage) for stage in answer["stages"]]
            self.assertEqual(stages, re.findall(r"^stage .*$", report, re.M), case)

    def test_runs_of_aspects_are_the_rows_of_play(self):
        for case in CASES:
            answer = answer_of(case)
            if "cycle" not in answer:
                continue
            rows = [row.split(",")[1:] for row in Program(*case).text("rows.csv").splitlines()[1:]]
            for number, group in enumerate(answer["groups"]):
                column = [None] * answer["cycle"]
                for aspect, first, seconds in group["runs"]:
                    for second in range(first, first + seconds):
                        column[second % answer["cycle"]] = aspect
                self.assertEqual(column, [row[number] for row in rows], case)

    def test_the_picture_is_that_of_the_tool(self):
        for case in CASES:
            self.assertEqual(answer_of(case)["diagram"], diagram(shown(*case)), case)

    def test_the_sheet_tells_the_sums_of_what_was_judged(self):
        case = CASES[0]
        sheet = answer_of(case)["sheet"]
        for content in (junction_of(case[0]), certificate_of(*case), Program.binary.read_bytes()):
            self.assertIn(hashlib.sha256(content).hexdigest(), sheet)


class Faults(unittest.TestCase):
    def test_each_word_of_the_format_has_its_sentence(self):
        rows = re.findall(r"^\| ([0-9]+) \| `(\w+)` \|", (ROOT / "docs" / "FILE-FORMAT.md").read_text(), re.M)
        self.assertEqual([int(number) for number, _ in rows], list(range(1, 18)))
        self.assertEqual(list(sentences()), [word for _, word in rows])

    def test_a_fault_has_its_line_where_that_is_known(self):
        content = junction_of("crossroads").replace(b"a_to_b = 5", b"a_to_b = 2", 1)
        answer = fault_answer("bad junction 11 short_intergreen conflict 1 a_to_b", content)
        line = content[:content.index(b"a_to_b = 2")].count(b"\n") + 1
        told = [answer[key] for key in ("line", "text", "part", "number")]
        self.assertEqual(told, [line, "a_to_b = 2", "conflict", 1])
        self.assertEqual(answer["sentence"], "an intergreen is too short")

    def test_without_a_line_the_sentence_is_told(self):
        answer = fault_answer("bad junction 1 not_toml top 0 whole", b"version = 1")
        self.assertEqual((answer["line"], answer["sentence"]), (None, "the bytes are no TOML document"))

    def test_a_refusal_says_what_it_means_and_the_programs_line(self):
        self.assertEqual(refusal_text(3, "refuted 2 fit"), "the certificate breaks a rule (refuted 2 fit)")
        self.assertEqual(refusal_text(77, ""), "the program ended with status 77")


if __name__ == "__main__":
    unittest.main()
