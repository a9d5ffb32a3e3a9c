"""The junction on the page: its faults, its tables, and the files that are opened and saved."""
import json
import unittest

from . import chromium
from .opened import FAULT, IS_OVER, OUTCOME, TEXT, PageCase, element, example


class Texts(PageCase):
    def test_a_fault_is_shown_at_its_line(self):
        text = example("crossroads.toml")
        self.tab.wait(IS_OVER % OUTCOME)
        wrong = text.replace("a_to_b = 5", "a_to_b = 2", 1)
        line = wrong[:wrong.index("a_to_b = 2")].count("\n") + 1
        self.type(wrong)
        self.assertEqual(self.wait_over(), "The junction file has a fault.")
        self.assertEqual(self.tab.value(FAULT), "Line %d: an intergreen is too short (a_to_b = 2)" % line)
        self.click("fault-go")
        selected = "%s.slice(document.activeElement.selectionStart, document.activeElement.selectionEnd)" % TEXT
        self.assertEqual(self.tab.value(selected), "a_to_b = 2")
        mark = self.tab.value("(e => [e.hidden, Math.round(e.getBoundingClientRect().height)])(%s)" % element("mark"))
        self.assertEqual(mark, [False, 20])
        marked = "[...document.querySelectorAll('[id^=cell-][aria-invalid]')].map((cell) => cell.id)"
        self.assertEqual(self.tab.value(marked), ["cell-conflict-0-2"])
        self.assertFalse(self.tab.value(element("former") + ".hidden"))
        self.type(text)
        self.assertEqual(self.wait_over(), "Done.")
        self.assertTrue(self.tab.value(element("former") + ".hidden"))
        self.assertTrue(self.tab.value(element("mark") + ".hidden"))

    def test_what_is_no_toml_is_shown_at_line_and_column(self):
        self.tab.wait(IS_OVER % OUTCOME)
        self.type("version = 1\nname = x\n")
        self.wait_over()
        self.assertTrue(self.tab.value(FAULT).startswith("Line 2, column 8: "), self.tab.value(FAULT))

    def test_a_number_of_too_many_digits_is_a_fault_that_is_shown(self):
        self.tab.wait(IS_OVER % OUTCOME)
        self.type("version = %s\n" % ("9" * 5000))
        self.assertEqual(self.wait_over(), "The junction file has a fault.")
        self.assertEqual(self.tab.value(FAULT), "the bytes are no TOML document")

    def test_an_edit_in_a_table_is_found_in_the_text(self):
        self.without_design()
        before = self.tab.value(TEXT)
        self.put("cell-group-0-min_green", "9")
        self.tab.wait(TEXT + " !== " + json.dumps(before))
        self.assertEqual(self.tab.value(TEXT), before.replace("min_green = 7", "min_green = 9", 1))
        self.put("cell-conflict-2-0", "6")
        self.tab.wait(TEXT + ".includes('b_to_a = 6')")
        self.click("undo")
        self.click("undo")
        self.assertEqual(self.tab.value(TEXT), before)
        self.click("redo")
        self.assertIn("min_green = 9", self.tab.value(TEXT))

    def test_what_is_typed_while_the_tables_are_read_again_is_kept(self):
        self.without_design()
        self.tab.wait(element("cell-group-1-amber") + " !== null")
        self.click("tab-group")
        self.tab.value(element("cell-group-1-amber") + ".select()")
        self.tab.call("Input.insertText", text="4")
        self.tab.value("%s.dataset.old = 'yes'" % element("cell-group-1-amber"))
        self.put("text", self.tab.value(TEXT) + "# more\n", "input")
        self.tab.wait("%s.dataset.old === undefined" % element("cell-group-1-amber"))
        typed = self.tab.value("[document.activeElement.id, document.activeElement.value]")
        self.assertEqual(typed, ["cell-group-1-amber", "4"])
        before = self.tab.value(TEXT)
        self.tab.value("document.activeElement.blur()")
        self.tab.wait(TEXT + ".includes('amber = 4')")
        second = before.index("amber = 3", before.index('name = "S"'))
        self.assertEqual(self.tab.value(TEXT), before[:second] + before[second:].replace("amber = 3", "amber = 4", 1))

    def test_an_edit_in_the_text_is_found_in_the_tables(self):
        self.without_design()
        text = self.tab.value(TEXT)
        self.type(text.replace("arrival = 420", "arrival = 421").replace('name = "N"', 'name = "North"'))
        self.tab.wait(element("cell-lane-0-arrival") + ".value === '421'")
        self.assertEqual(self.tab.value(element("cell-group-0-name") + ".value"), "North")

    def test_an_edit_that_is_refused_leaves_the_text(self):
        self.without_design()
        before = self.tab.value(TEXT)
        self.put("cell-group-0-amber", "long")
        self.tab.wait(element("edit-note") + ".textContent !== ''")
        self.assertEqual(self.tab.value(TEXT), before)
        self.tab.wait(element("cell-group-0-amber") + ".value === '3'")

    def test_a_file_is_opened_saved_and_read_again(self):
        content = "# Ümläuts\n" + example("two-groups.toml")
        path = self.folder / "street corner.toml"
        path.write_text(content)
        self.tab.give("#open-file", path)
        self.tab.wait(TEXT + " === " + json.dumps(content))
        self.assertEqual(self.saved("save", path.name).decode(), content)
        self.type(content + "# more\n")
        path.write_bytes(self.saved("save", path.name))
        self.tab.give("#open-file", path)
        self.tab.wait(TEXT + " === " + json.dumps(content + "# more\n"))

    def test_the_first_version_is_the_first_text_and_another_file_has_versions_of_its_own(self):
        self.without_design()
        first = self.tab.value(TEXT)
        self.assertTrue(self.tab.value(element("undo") + ".disabled"))
        self.type(first + "# more\n")
        self.click("undo")
        self.assertEqual(self.tab.value(TEXT), first)
        self.choose(0)
        second = self.tab.value(TEXT)
        self.assertNotEqual(second, first)
        for step in ("undo", "redo"):
            self.assertTrue(self.tab.value(element(step) + ".disabled"))
        self.click("undo")
        self.assertEqual(self.tab.value(TEXT), second)

    def test_what_is_not_saved_is_asked_for_before_another_text_is_opened(self):
        self.without_design()
        text, number = self.tab.value(TEXT) + "# more\n", self.tab.value(element("example") + ".value")
        self.type(text)
        self.tab.value("void (window.confirm = (words) => { window.asked = words; return false; })")
        self.choose(0)
        self.assertIn("crossroads.toml isn't saved", self.tab.value("window.asked"))
        self.assertEqual(self.tab.value("[%s, %s.value]" % (TEXT, element("example"))), [text, number])
        self.tab.value("void (window.confirm = () => true)")
        self.choose(0)
        self.assertNotEqual(self.tab.value(TEXT), text)
        self.assertEqual(self.tab.value(element("example") + ".value"), "0")

    def test_a_byte_order_mark_is_no_part_of_the_text(self):
        path = self.folder / "marked.toml"
        path.write_bytes(b"\xef\xbb\xbf# marked\n")
        self.tab.give("#open-file", path)
        self.tab.wait(TEXT + " === '# marked\\n'")

    def test_a_file_is_dropped(self):
        path = self.folder / "dropped.toml"
        path.write_text("# dropped\n")
        data = {"items": [], "files": [str(path)], "dragOperationsMask": 1}
        chromium.wait_until(lambda: self.drag(data) == "# dropped\n")
        self.assertEqual(self.tab.value(element("file-name") + ".textContent"), "dropped.toml")

    def drag(self, data):
        """The text after a drop, which Chromium loses where the page hasn't answered to what came before it."""
        for kind in ("dragEnter", "dragOver", "drop"):
            self.tab.call("Input.dispatchDragEvent", type=kind, x=600, y=300, data=data)
        return self.tab.value(TEXT)

    def test_a_file_that_is_no_text_is_refused(self):
        path = self.folder / "bytes.toml"
        path.write_bytes(b"\xff\xfe")
        self.tab.give("#open-file", path)
        self.tab.wait(element("edit-note") + ".textContent.includes(\"isn't UTF-8\")")


if __name__ == "__main__":
    unittest.main()
