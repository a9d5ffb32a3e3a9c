"""Runs on the page: how they end, and what is said while the program is being built."""
import json
import unittest

from . import chromium
from .opened import FAULT, PageCase, designed, element, example
from .pages import long_junction


class Runs(PageCase):
    launcher = None

    def test_a_run_is_ended_by_its_button(self):
        self.wait_over()
        self.type("# sleep")
        self.tab.wait("!%s.disabled" % element("end"))
        self.assertRegex(self.tab.value(element("clock-text") + ".textContent"), "^[0-9]+ s of 120 s$")
        self.click("end")
        self.assertEqual(self.wait_over(), "Ended: the run was ended.")
        self.assertEqual(self.page.left(), [])

    def test_a_run_is_ended_by_its_time_limit(self):
        self.wait_over()
        self.put("seconds", "1")
        self.type("# sleep")
        self.assertEqual(self.wait_over(), "Ended: the time limit of 1 seconds was reached.")
        self.assertEqual(self.page.left(), [])

    def test_a_time_limit_that_is_none_is_refused_in_words(self):
        self.wait_over()
        for word in ("abc", "", "-5", "1e400", "0"):
            self.put("seconds", word)
            self.type("# a text of " + json.dumps(word))
            self.assertEqual(self.wait_over(), "Refused: the time limit is 1 to 3600 seconds.")
            self.assertEqual(self.tab.value(FAULT), "Of this text no verdict is known.")

    def test_a_tab_that_is_closed_ends_its_run(self):
        first, self.tab = self.tab, chromium.Tab(self.browser, self.page.address)
        self.tab.wait("document.readyState === 'complete' && !!document.getElementById('text')")
        self.wait_over()
        self.type("# sleep")
        self.tab.wait("!%s.disabled" % element("end"))
        self.tab.close()
        self.tab = first
        chromium.wait_until(lambda: not self.page.server.runs.by_tab)
        self.assertEqual(self.page.left(), [])


class LongRuns(PageCase):
    def test_an_edit_while_a_run_is_under_way_takes_its_place(self):
        self.wait_over()
        self.put("budget", "999999999999")
        self.type(long_junction())
        self.tab.wait("!%s.disabled" % element("end"))
        self.put("budget", "200000")
        self.type(example("two-groups.toml"))
        self.assertEqual(self.wait_over(), "Done.")
        self.assertEqual(self.tab.value(element("multiplier") + ".textContent"), "1.167 7/6")

    def test_after_many_edits_in_a_row_the_plan_is_the_last_ones(self):
        self.wait_over()
        text = example("crossroads.toml")
        for arrival in range(421, 461):
            self.type(text.replace("arrival = 420", "arrival = %d" % arrival))
            self.tab.value("new Promise((resolve) => setTimeout(resolve, %d))" % (arrival % 7 * 100))
        self.tab.wait("%s.hidden && !!%s" % (element("former"), element("verdict")))
        self.assertEqual(self.wait_over(), "Done.")
        status, report, certificate = designed(text.replace("arrival = 420", "arrival = 460"))
        self.assertEqual(self.saved("save-report", "crossroads.txt").decode(), report)


class HalfBuilt:
    """A build that is under way until it is told to be done."""
    is_done = False

    def state(self):
        return {"built": self.is_done, "failed": False, "line": "3 of 27 crates: conflict_matrix"}

    def see_that_it_is_done(self):
        pass


class FirstBuild(PageCase):
    def setUp(self):
        self.page.server.build = HalfBuilt()
        super().setUp()

    def test_the_page_says_how_far_the_build_is_and_then_designs(self):
        words = "The program is being built: 3 of 27 crates: conflict_matrix"
        self.tab.wait("%s.textContent === %s" % (element("build"), json.dumps(words)))
        self.assertTrue(self.tab.value(element("run") + ".disabled"))
        self.tab.wait(element("cell-group-0-name") + "?.value === 'N'")
        self.page.server.build.is_done = True
        self.assertEqual(self.wait_over(), "Done.")
        self.assertEqual(self.tab.value(element("build") + ".textContent"), "")


if __name__ == "__main__":
    unittest.main()
