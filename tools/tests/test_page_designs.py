"""Designs on the page: each figure, file and head against those of the program itself."""
import json
import unittest

from dolthrew_view.diagram import diagram
from dolthrew_view.page.examples import examples
from dolthrew_view.program import Program
from dolthrew_view.shown import shown_of

from .opened import OUTCOME, TEXT, PageCase, designed, element


class Designs(PageCase):
    def test_each_example_is_designed_checked_and_played(self):
        for number, found in enumerate(examples()):
            with self.subTest(found["name"]):
                self.choose(number)
                self.wait_over()
                self.see_the_answer(found["name"].split("/")[-1].removesuffix(".toml"), found["text"])

    def see_the_answer(self, name, text):
        status, report, certificate = designed(text)
        verdict = Program().verdict(text.encode(), certificate)
        self.assertEqual(self.tab.value(element("verdict") + ".textContent"), verdict)
        self.assertEqual(self.saved("save-report", name + ".txt").decode(), report)
        self.assertEqual(self.saved("save-certificate", name + ".json"), certificate)
        drawn = diagram(shown_of(Program(), text.encode(), certificate, report))
        self.assertEqual(self.saved("save-diagram", name + ".svg").decode(), drawn)
        (self.folder / "certificate.json").write_bytes(certificate)
        self.tab.value("%s.textContent = ''" % element("outcome"))
        self.tab.give("#check-file", self.folder / "certificate.json")
        self.tab.wait(OUTCOME + ".startsWith('certificate.json')")
        self.assertEqual(self.tab.value(OUTCOME), "certificate.json: " + verdict)
        if "\ncycle " in report:
            self.see_the_player(text.encode(), certificate)

    def see_the_player(self, junction, certificate):
        """Each head at each second, against the rows of `play`."""
        cycle = json.loads(certificate)["plan"]["cycle"]
        rows = [row.split(",")[1:] for row in Program().rows(junction, certificate, cycle).splitlines()[1:]]
        shown = self.tab.value("""(() => {
            const slider = document.getElementById("second"), rows = [];
            for (let second = 0; second <= Number(slider.max); second += 1) {
              slider.value = second;
              slider.dispatchEvent(new Event("input"));
              rows.push([...document.querySelectorAll(".head")].map((head) => head.dataset.aspect));
            }
            return rows; })()""")
        self.assertEqual(shown, rows)

    def test_the_player_plays_and_pauses(self):
        self.wait_over()
        self.put("pace", "16")
        self.click("play")
        self.tab.wait("Number(%s.value) > 2" % element("second"))
        self.click("play")
        self.assertEqual(self.tab.value(element("play") + ".textContent"), "Play")
        second = self.tab.value(element("second") + ".value")
        self.tab.value("new Promise((resolve) => setTimeout(resolve, 300))")
        self.assertEqual(self.tab.value(element("second") + ".value"), second)

    def test_a_reserve_that_is_rounded_to_nothing_has_no_sign(self):
        shown = """import("./plan.js").then(({ PlanView }) => new PlanView({}).figures({ reserve: { decimal: "%s" },
            multiplier: {}, least: {}, nodes: 1, cycle: 60 }).querySelector("#reserve").textContent)"""
        for decimal, words in (("0.0", "0.0 %"), ("-0.1", "-0.1 %"), ("0.1", "+0.1 %")):
            self.assertEqual(self.tab.value(shown % decimal), words)

    def test_the_shortest_cycle_is_designed(self):
        self.wait_over()
        self.tab.value("%s.textContent = ''" % element("outcome"))
        self.tab.value("document.querySelector('[value=cycle]').click()")
        self.wait_over()
        self.assertEqual(self.tab.value(element("verdict") + ".textContent"), "proved cycle")
        self.assertEqual(self.tab.value(element("cycle") + ".textContent"), "63 s")

    def test_a_run_that_stops_says_what_to_do_next(self):
        self.without_design()
        self.put("budget", "100")
        self.tab.value("%s.textContent = ''" % element("outcome"))
        self.click("run")
        self.assertEqual(self.wait_over(), "Stopped at the budget.")
        self.assertIn("budget of 1000", self.tab.value(element("larger") + ".textContent"))
        before = self.tab.value(TEXT)
        self.click("order")
        self.tab.wait("%s !== %s" % (TEXT, json.dumps(before)))
        self.assertEqual(sorted(self.tab.value(TEXT).split("\n")), sorted(before.split("\n")))
        self.tab.wait("!%s.hidden" % element("former"))
        self.put("budget", "200000")
        self.tab.value("%s.textContent = ''" % element("outcome"))
        self.click("run")
        self.assertEqual(self.wait_over(), "Done.")

    def test_a_certificate_of_another_junction_is_refused(self):
        self.wait_over()
        content = json.loads(self.saved("save-certificate", "crossroads.json"))
        content["plan"]["greens"][0] += 9
        (self.folder / "other.json").write_text(json.dumps(content))
        self.tab.give("#check-file", self.folder / "other.json")
        self.tab.wait(OUTCOME + ".startsWith('Refused')")
        self.assertIn("refuted 2 fit", self.tab.value(OUTCOME))

    def test_a_certificate_that_the_program_writes_otherwise_is_judged_and_not_drawn(self):
        self.wait_over()
        content = self.saved("save-certificate", "crossroads.json").replace(b",", b", ")
        (self.folder / "blanks.json").write_bytes(content)
        self.tab.give("#check-file", self.folder / "blanks.json")
        self.tab.wait(OUTCOME + ".startsWith('blanks.json: proved capacity. Its plan isn')")
        self.assertIn("a design of the junction gives no certificate of the same bytes", self.tab.value(OUTCOME))
        self.assertEqual(self.tab.value(element("answer") + ".textContent"), "")

    def test_the_sheet_is_what_is_printed(self):
        self.wait_over()
        self.tab.call("Emulation.setEmulatedMedia", media="print")
        style = "getComputedStyle(document.querySelector('%s')).display"
        self.assertEqual(self.tab.value(style % "main"), "none")
        self.assertEqual(self.tab.value(style % "#sheet"), "block")
        words = self.tab.value("document.getElementById('sheet').shadowRoot.textContent")
        for word in ("crossroads", "SHA-256", "proved capacity"):
            self.assertIn(word, words)


if __name__ == "__main__":
    unittest.main()
