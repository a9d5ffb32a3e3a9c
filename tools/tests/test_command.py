"""The command line as a process: its streams, and the signals that end it."""
import os
import signal
import subprocess
import sys
import tempfile
import time
import unittest
from pathlib import Path

from dolthrew_view.main import FAILED, SIGNALLED

from .stored import ROOT, junction_of

TOOL = [sys.executable, "-B", str(ROOT / "dolthrew-view")]

# A tool that runs a launcher on files, and what that launcher does: it says that it has begun, and works for a minute.
WAITING = """import sys; sys.argv = ['dolthrew-view', 'wait']; sys.path.insert(0, %r)
from dolthrew_view import main
from dolthrew_view.program import Program
main.COMMANDS['wait'] = ('', lambda words, out: Program(%r).verdict(b'', b''))
sys.exit(main.command())"""
LAUNCHER = "#!/bin/sh\necho $$ > %s.new; mv %s.new %s; exec sleep 60\n"


def heed_signals():
    """Under `nohup` a child would ignore what ends it."""
    for number in (signal.SIGTERM, signal.SIGHUP):
        signal.signal(number, signal.SIG_DFL)


def ends_soon(process):
    """A process that was ended stands in the table until its parent has looked, which takes a while on a busy machine."""
    for _ in range(500):
        try:
            os.kill(process, 0)
        except ProcessLookupError:
            return True
        time.sleep(0.02)
    return False


class SignalsTest(unittest.TestCase):
    def assert_leaves_nothing(self, number):
        with tempfile.TemporaryDirectory() as folder:
            launcher, begun, kept = (Path(folder, name) for name in ("launcher", "begun", "kept"))
            launcher.write_text(LAUNCHER % (begun, begun, begun))
            launcher.chmod(0o755)
            kept.mkdir()
            words = [sys.executable, "-B", "-c", WAITING % (str(ROOT / "tools"), str(launcher))]
            with subprocess.Popen(words, env={**os.environ, "TMPDIR": str(kept)}, stderr=subprocess.PIPE,
                                  preexec_fn=heed_signals) as process:
                while not begun.exists():
                    self.assertIsNone(process.poll())
                    time.sleep(0.02)
                process.send_signal(number)
                said = process.stderr.read()
            self.assertEqual((process.returncode, said), (SIGNALLED + number, b""))
            self.assertEqual(list(kept.iterdir()), [])
            self.assertTrue(ends_soon(int(begun.read_text())))

    def test_it_is_ended(self):
        self.assert_leaves_nothing(signal.SIGTERM)

    def test_its_terminal_is_closed(self):
        self.assert_leaves_nothing(signal.SIGHUP)


class StreamsTest(unittest.TestCase):
    def test_a_closed_standard_output(self):
        words = ["sh", "-c", 'exec "$@" >&-', "sh", *TOOL, "table", "a", "b"]
        done = subprocess.run(words, stderr=subprocess.PIPE, check=False)
        self.assertEqual((done.returncode, done.stderr), (FAILED, b"dolthrew-view: standard output is closed\n"))

    def test_both_are_closed(self):
        done = subprocess.run(["sh", "-c", 'exec "$@" >&- 2>&-', "sh", *TOOL, "table", "a", "b"], check=False)
        self.assertEqual(done.returncode, FAILED)

    def test_a_closed_standard_error(self):
        code = ("import sys; sys.argv = ['dolthrew-view', 'tell']; sys.path.insert(0, %r)\n"
                "from dolthrew_view import main\n"
                "main.COMMANDS['tell'] = ('', lambda words, out: print('note', file=sys.stderr))\n"
                "sys.exit(main.command())" % str(ROOT / "tools"))
        done = subprocess.run(["sh", "-c", 'exec "$@" 2>&-', "sh", sys.executable, "-B", "-c", code],
                              stdout=subprocess.PIPE, check=False)
        self.assertEqual((done.returncode, done.stdout), (0, b""))

    def test_an_older_python(self):
        code = ("import runpy, sys; sys.version_info = (3, 10, 0)\n"
                "runpy.run_path(%r, run_name='__main__')" % TOOL[-1])
        done = subprocess.run([sys.executable, "-B", "-c", code], capture_output=True, check=False)
        self.assertEqual((done.returncode, done.stdout, done.stderr),
                         (FAILED, b"", b"dolthrew-view: it needs Python 3.11 or a later one\n"))

    def test_a_name_that_is_no_utf_8(self):
        with tempfile.TemporaryDirectory() as folder:
            path = os.fsencode(folder) + b"/bad\xff.toml"
            Path(os.fsdecode(path)).write_bytes(junction_of("crossroads"))
            done = subprocess.run([*TOOL, "where", path], input=b"bad junction 5 range top 0 version\n",
                                  stdout=subprocess.PIPE, check=False)
        self.assertEqual(done.returncode, 0)
        self.assertIn(b"/bad\\udcff.toml:", done.stdout.splitlines()[1])


if __name__ == "__main__":
    unittest.main()
