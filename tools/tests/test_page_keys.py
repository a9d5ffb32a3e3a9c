"""The page by the keyboard, and for who hears it."""
import unittest

from .opened import TEXT, PageCase, element


class Keys(PageCase):
    def press(self, key):
        for kind in ("keyDown", "keyUp"):
            self.tab.call("Input.dispatchKeyEvent", type=kind, key=key, code=key)

    def test_tabs_follow_the_arrows(self):
        self.tab.value(element("tab-text") + ".focus()")
        self.press("ArrowRight")
        self.assertEqual(self.tab.value("document.activeElement.id"), "tab-group")
        self.assertFalse(self.tab.value(element("panel-group") + ".hidden"))
        self.press("End")
        self.press("ArrowRight")
        self.assertEqual(self.tab.value("document.activeElement.id"), "tab-text")

    def test_control_z_takes_an_edit_back(self):
        self.tab.wait(element("cell-group-0-amber") + " !== null")
        before = self.tab.value(TEXT)
        self.put("cell-group-0-amber", "4")
        self.tab.wait(TEXT + ".includes('amber = 4')")
        self.tab.value(element("text") + ".focus()")
        for kind in ("keyDown", "keyUp"):
            self.tab.call("Input.dispatchKeyEvent", type=kind, key="z", code="KeyZ", modifiers=2)
        self.assertEqual(self.tab.value(TEXT), before)

    def test_arrows_go_from_row_to_row(self):
        self.tab.wait(element("cell-group-1-amber") + " !== null")
        self.click("tab-group")
        self.tab.value(element("cell-group-0-amber") + ".focus()")
        self.press("ArrowDown")
        self.assertEqual(self.tab.value("document.activeElement.id"), "cell-group-1-amber")

    def test_all_that_is_worked_with_has_a_name(self):
        self.wait_over()
        roles = {"button", "textbox", "combobox", "radio", "checkbox", "tab", "slider", "spinbutton", "region"}
        for part in ("text", "group", "lane", "conflict", "link", "top"):
            self.click("tab-" + part)
            nodes = self.tab.call("Accessibility.getFullAXTree")["nodes"]
            for node in nodes:
                if not node.get("ignored") and node.get("role", {}).get("value") in roles:
                    self.assertTrue(node.get("name", {}).get("value"), node)


if __name__ == "__main__":
    unittest.main()
