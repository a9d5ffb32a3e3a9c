"""The page opened in headless Chromium, with the program behind it: skipped where either is missing."""
import json
import tempfile
import unittest
from pathlib import Path

from dolthrew_view.page.examples import examples
from dolthrew_view.program import CERTIFICATE_FILE, JUNCTION_FILE, LAUNCHER, Program, files

from . import chromium
from .live import program
from .pages import ServedPage

# What a user sees when a run is over.
IS_OVER = "document.getElementById('clock').hidden && /^(Done|Stopped|The junction|Refused|Ended|No answer)/.test(%s)"
OUTCOME = "document.getElementById('outcome').textContent"
FAULT = "document.getElementById('fault-text').textContent"
TEXT = "document.getElementById('text').value"


def element(name):
    return "document.getElementById(%s)" % json.dumps(name)


def example(name):
    """The text of an example."""
    return next(found["text"] for found in examples() if found["name"] == name)


def designed(text, command="capacity"):
    """Status, report and certificate of the program itself."""
    with files(text.encode()) as folder:
        status, printed = Program().answer([command, JUNCTION_FILE, CERTIFICATE_FILE], folder)
        return status, printed.decode(), Path(folder, CERTIFICATE_FILE).read_bytes()


class PageCase(unittest.TestCase):
    """The program stands behind the page, but where a stand-in is asked for."""
    launcher = LAUNCHER

    @classmethod
    def setUpClass(cls):
        if chromium.PROGRAM is None:
            raise unittest.SkipTest("Chromium isn't here")
        if cls.launcher:
            program()
        kept = tempfile.TemporaryDirectory(prefix="dolthrew-chromium-", ignore_cleanup_errors=True)
        cls.addClassCleanup(kept.cleanup)
        cls.folder = Path(kept.name)
        cls.browser = chromium.Browser(cls.folder)
        cls.addClassCleanup(cls.browser.close)
        cls.page = ServedPage(most=4, launcher=cls.launcher)
        cls.addClassCleanup(cls.page.close)

    def setUp(self):
        self.tab = chromium.Tab(self.browser, self.page.address)
        self.tab.wait("document.readyState === 'complete' && %s?.options.length > 1" % element("example"))

    def tearDown(self):
        complaints = self.tab.complaints()
        self.tab.close()
        self.assertEqual(complaints, [])

    def wait_over(self):
        self.tab.wait(IS_OVER % OUTCOME)
        return self.tab.value(OUTCOME)

    def click(self, name):
        self.tab.value(element(name) + ".click()")

    def put(self, name, value, event="change"):
        """What a user types in a field, or chooses."""
        self.tab.value("(e => { e.value = %s; e.dispatchEvent(new Event(%s, { bubbles: true })); })(%s)"
                       % (json.dumps(value), json.dumps(event), element(name)))

    def type(self, text):
        self.tab.value("%s.textContent = ''" % element("outcome"))
        self.put("text", text, "input")

    def choose(self, number):
        self.tab.value("%s.textContent = ''" % element("outcome"))
        self.put("example", str(number))

    def without_design(self):
        self.tab.wait(IS_OVER % OUTCOME)
        self.tab.value("%s.checked = false" % element("auto"))

    def saved(self, button, name):
        """The bytes of what a button saves."""
        self.browser.call("Browser.setDownloadBehavior", behavior="allow", downloadPath=str(self.folder / "saved"),
                          eventsEnabled=True)
        before = len(self.browser.events)
        self.click(button)
        while not any(event["method"] == "Browser.downloadProgress" and event["params"]["state"] == "completed"
                      for event in self.browser.events[before:]):
            self.browser.events.append(self.browser.message())
        path = self.folder / "saved" / name
        content = path.read_bytes()
        path.unlink()
        return content
