"""The page as the command line opens it: its address, and that Ctrl-C leaves nothing behind."""
import json
import os
import re
import signal
import subprocess
import sys
import tempfile
import threading
import unittest
import urllib.error
import urllib.request
from pathlib import Path
from unittest import mock

from .chromium import wait_until
from .live import program
from .pages import long_junction

# It writes the address that it is to open, and stays until it is told to be done.
BROWSER = """#!/usr/bin/env bash
cd "$(dirname "$0")"
echo "$1" >began
mv began opened
while [ ! -e done ]; do sleep 0.05; done
"""

VIEW = Path(__file__).resolve().parents[2] / "dolthrew-view"


def answer_of(request):
    """The status, or nothing where the sender was cut off."""
    try:
        with urllib.request.urlopen(request, timeout=3600) as answer:
            return answer.status, answer.read()
    except OSError:
        return None


def is_built(address):
    with urllib.request.urlopen(address + "state") as answer:
        return json.load(answer)["built"]


def programs_in(folder):
    """The processes that work below a folder."""
    found = []
    for path in Path("/proc").glob("[0-9]*"):
        try:
            if (path / "cwd").readlink().is_relative_to(folder):
                found.append(path.name)
        except OSError:
            # It is over, or another user's.
            continue
    return found


class Ending(unittest.TestCase):
    @classmethod
    def setUpClass(cls):
        program()

    def setUp(self):
        kept = tempfile.TemporaryDirectory()
        self.addCleanup(kept.cleanup)
        self.folder = kept.name

    def opened(self, *words, is_quiet=True):
        words = (["--no-browser"] if is_quiet else []) + [*words]
        process = subprocess.Popen([sys.executable, VIEW, "page", *words], stdout=subprocess.PIPE,
                                   stderr=subprocess.PIPE, text=True, env={**os.environ, "TMPDIR": self.folder})
        self.addCleanup(process.communicate)
        self.addCleanup(process.kill)
        return process

    def test_it_says_its_address_and_ends_with_nothing_left(self):
        for number in (signal.SIGINT, signal.SIGTERM, signal.SIGHUP):
            process = self.opened()
            told = r"the page: (http://127\.0\.0\.1:[0-9]+/[A-Za-z0-9_-]{43}/)\n"
            address = re.fullmatch(told, process.stdout.readline())[1]
            with urllib.request.urlopen(address) as answer:
                self.assertEqual(answer.status, 200)
            with self.assertRaises(urllib.error.HTTPError) as refused:
                urllib.request.urlopen(address.rsplit("/", 2)[0] + "/")
            refused.exception.close()
            self.assertNotEqual(os.listdir(self.folder), [])
            process.send_signal(number)
            out, errors = process.communicate(timeout=120)
            self.assertEqual((process.returncode, errors), (0, ""))
            self.assertEqual(os.listdir(self.folder), [])

    def test_a_run_under_way_ends_with_the_page(self):
        process = self.opened()
        address = process.stdout.readline().split()[-1]
        wait_until(lambda: is_built(address))
        words = "tab=%s&seconds=3600&command=capacity&least=1/1&budget=999999999999" % ("0" * 32)
        request = urllib.request.Request(address + "design?" + words, long_junction().encode(),
                                         {"Origin": address.rsplit("/", 2)[0]})
        answers = []
        thread = threading.Thread(target=lambda: answers.append(answer_of(request)))
        thread.start()
        self.addCleanup(thread.join)
        wait_until(lambda: answers or programs_in(self.folder))
        self.assertEqual(answers, [])
        process.send_signal(signal.SIGINT)
        out, errors = process.communicate(timeout=120)
        self.assertEqual((process.returncode, errors), (0, ""))
        self.assertEqual(os.listdir(self.folder), [])
        wait_until(lambda: not programs_in(self.folder))

    def test_a_browser_is_opened_and_not_waited_for(self):
        kept = tempfile.TemporaryDirectory()
        self.addCleanup(kept.cleanup)
        folder = Path(kept.name)
        browser = folder / "browser"
        browser.write_text(BROWSER)
        browser.chmod(0o755)
        with mock.patch.dict(os.environ, {"DISPLAY": ":0", "BROWSER": str(browser)}):
            process = self.opened(is_quiet=False)
        self.addCleanup((folder / "done").touch)
        address = process.stdout.readline().split()[-1]
        wait_until((folder / "opened").exists)
        self.assertEqual((folder / "opened").read_text(), address + "\n")
        process.send_signal(signal.SIGINT)
        process.wait(120)
        self.assertEqual(process.returncode, 0)
        self.assertEqual(os.listdir(self.folder), [])

    def test_a_port_that_is_taken_is_one_line(self):
        first = self.opened()
        port = re.search(r":([0-9]+)/", first.stdout.readline())[1]
        process = self.opened("--port", port)
        out, errors = process.communicate(timeout=120)
        self.assertEqual((process.returncode, out), (2, ""))
        self.assertRegex(errors, r"\Adolthrew-view: port %s of 127\.0\.0\.1 can't be had: [^\n]*\n\Z" % port)
        first.send_signal(signal.SIGINT)
        first.communicate(timeout=120)
        self.assertEqual(os.listdir(self.folder), [])

    def test_other_words_are_one_line(self):
        ports = ("x", "65536", 5000 * "9", "\u0668")
        for words in (["--port"], ["more"], *(["--port", port] for port in ports)):
            process = self.opened(*words)
            out, errors = process.communicate(timeout=120)
            self.assertEqual((process.returncode, out, errors.count("\n")), (2, "", 1))
            self.assertIn("usage: dolthrew-view page", errors)


if __name__ == "__main__":
    unittest.main()
