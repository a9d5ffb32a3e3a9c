"""Headless Chromium for tests, driven by the DevTools protocol over a pipe: JSON texts, each ended by a zero byte."""
import base64
import itertools
import json
import os
import select
import shutil
import subprocess
import time
from pathlib import Path

PROGRAM = shutil.which("chromium")
SECONDS = 180

FLAGS = ["--headless=new", "--disable-gpu", "--disable-dev-shm-usage", "--no-first-run", "--disable-extensions",
         "--disable-background-networking", "--disable-component-update", "--disable-sync", "--metrics-recording-only",
         "--remote-debugging-pipe", "about:blank"]


def wait_until(is_so, words=""):
    """Waits as long as any machine needs."""
    end = time.monotonic() + SECONDS
    while not is_so():
        if time.monotonic() > end:
            raise AssertionError("it didn't come: %s" % words)
        time.sleep(0.02)


class Browser:
    """One browser with its own folder for all that it keeps."""

    def __init__(self, folder):
        child_reads, self.writes = os.pipe()
        self.reads, child_writes = os.pipe()
        command = 'exec "$@" 3<&%d 4>&%d' % (child_reads, child_writes)
        flags = FLAGS + (["--no-sandbox"] if os.geteuid() == 0 else [])
        self.process = subprocess.Popen(
            ["bash", "-c", command, "chromium", PROGRAM, "--user-data-dir=%s" % folder, *flags],
            pass_fds=(child_reads, child_writes), stdin=subprocess.DEVNULL, stdout=subprocess.DEVNULL,
            stderr=subprocess.DEVNULL, env={**os.environ, "HOME": str(folder), "XDG_CONFIG_HOME": str(folder)})
        os.close(child_reads)
        os.close(child_writes)
        self.numbers = itertools.count(1)
        self.kept = b""
        self.events = []

    def call(self, method, session=None, **words):
        """The result of a call; events that come in between are kept."""
        number = next(self.numbers)
        message = {"id": number, "method": method, "params": words}
        if session:
            message["sessionId"] = session
        content = json.dumps(message).encode() + b"\0"
        while content:
            content = content[os.write(self.writes, content):]
        while True:
            answer = self.message()
            if answer.get("id") == number:
                if "error" in answer:
                    raise AssertionError("%s: %s" % (method, answer["error"]))
                return answer["result"]
            self.events.append(answer)

    def message(self):
        while b"\0" not in self.kept:
            readable, _, _ = select.select([self.reads], [], [], SECONDS)
            content = os.read(self.reads, 1 << 20) if readable else b""
            if not content:
                raise AssertionError("Chromium says nothing")
            self.kept += content
        content, _, self.kept = self.kept.partition(b"\0")
        return json.loads(content)

    def close(self):
        try:
            self.call("Browser.close")
        except (AssertionError, OSError):
            self.process.kill()
        self.process.wait()
        os.close(self.reads)
        os.close(self.writes)


class Tab:
    """One page of the browser."""

    def __init__(self, browser, address, width=1440, height=1000, scheme="light"):
        self.browser = browser
        self.target = browser.call("Target.createTarget", url="about:blank")["targetId"]
        self.session = browser.call("Target.attachToTarget", targetId=self.target, flatten=True)["sessionId"]
        for part in ("Page", "Runtime", "Log", "DOM"):
            self.call(part + ".enable")
        self.call("Emulation.setDeviceMetricsOverride", width=width, height=height, deviceScaleFactor=1, mobile=width < 600)
        self.call("Emulation.setEmulatedMedia", features=[{"name": "prefers-color-scheme", "value": scheme}])
        self.call("Page.navigate", url=address)

    def call(self, method, **words):
        return self.browser.call(method, session=self.session, **words)

    def value(self, expression):
        """What the expression is in the page; a promise is awaited."""
        answer = self.call("Runtime.evaluate", expression=expression, awaitPromise=True, returnByValue=True)
        if "exceptionDetails" in answer:
            raise AssertionError("%s: %s" % (expression, answer["exceptionDetails"]))
        return answer["result"].get("value")

    def wait(self, expression):
        """Waits until the expression is true."""
        wait_until(lambda: self.value(expression), expression)

    def close(self):
        self.browser.call("Target.closeTarget", targetId=self.target)

    def give(self, selector, *paths):
        """Gives files to a file input."""
        root = self.call("DOM.getDocument")["root"]["nodeId"]
        node = self.call("DOM.querySelector", nodeId=root, selector=selector)["nodeId"]
        self.call("DOM.setFileInputFiles", nodeId=node, files=[str(path) for path in paths])

    def complaints(self):
        """What the page wrote to the console as an error, and what was thrown and not caught."""
        self.value("0")
        found = []
        for event in self.browser.events:
            words = event.get("params", {})
            if event.get("sessionId") != self.session:
                continue
            if event["method"] == "Log.entryAdded" and words["entry"]["level"] == "error":
                found.append(words["entry"]["text"])
            if event["method"] == "Runtime.exceptionThrown":
                found.append(words["exceptionDetails"].get("exception", {}).get("description", "thrown"))
        return found

    def picture(self, path):
        """The whole page as a PNG."""
        size = self.call("Page.getLayoutMetrics")["cssContentSize"]
        content = self.call("Page.captureScreenshot", captureBeyondViewport=True,
                            clip={"x": 0, "y": 0, "width": size["width"], "height": size["height"], "scale": 1})
        Path(path).write_bytes(base64.b64decode(content["data"]))
