"""The launcher: what it tells of a certificate, how it ends, and that no name of a certificate destroys a junction."""
import os
import shutil
import signal
import subprocess
import tempfile
import time
import unittest
from pathlib import Path

from dolthrew_view.program import LAUNCHER

from .live import NO_BUILD, program
from .stored import junction_of

# The longest certificate that `check` reads, and the status of a stopped search.
LONGEST = 33554432
STOPPED = 2

BUDGET = ("--budget", "99999999")

# It puts a certificate of so many bytes and ends with a status.
PUTS = "truncate -s %d \"$3\"; exit %d"

# It says that it has begun, and works for a minute.
WORKS = "echo $$ > begun; exec sleep 60"


class StandInTest(unittest.TestCase):
    """The launcher beside a script that stands for the program."""

    def setUp(self):
        folder = tempfile.TemporaryDirectory()
        self.addCleanup(folder.cleanup)
        self.folder = Path(folder.name)
        shutil.copy(LAUNCHER, self.folder)
        (self.folder / "crates.txt").touch()
        (self.folder / "crates/dolthrew/out").mkdir(parents=True)

    def started(self, script, *words):
        path = self.folder / "crates/dolthrew/out/dolthrew"
        path.write_text("#!/bin/sh\n%s\n" % script)
        path.chmod(0o755)
        return subprocess.Popen([self.folder / "dolthrew", *words], cwd=self.folder, env={**os.environ, NO_BUILD: "1"},
                                stdin=subprocess.DEVNULL, stderr=subprocess.PIPE, text=True)

    def told(self, length, status, *words):
        with self.started(PUTS % (length, status), *words) as process:
            errors = process.stderr.read()
        self.assertEqual(process.returncode, status)
        return errors

    def test_a_certificate_that_check_does_not_read_is_told(self):
        line = "dolthrew: the certificate c.json has 33554433 bytes, and check reads 33554432 at most\n"
        for command in ("capacity", "cycle"):
            told = self.told(LONGEST + 1, STOPPED, command, "j.toml", "c.json", "--least", "1/1", *BUDGET)
            self.assertEqual(told, line, command)

    def test_nothing_else_is_told(self):
        for length, status, words in (
                (LONGEST, STOPPED, ("capacity", "j.toml", "c.json", *BUDGET)),
                (LONGEST + 1, 7, ("capacity", "j.toml", "c.json", *BUDGET)),
                (LONGEST + 1, 0, ("play", "j.toml", "c.json", "60"))):
            self.assertEqual(self.told(length, status, *words), "", words)

    def test_a_signal_to_the_launcher_alone_ends_the_program_too(self):
        for number, status in ((signal.SIGINT, -signal.SIGINT), (signal.SIGTERM, 128 + signal.SIGTERM),
                               (signal.SIGHUP, 128 + signal.SIGHUP)):
            begun = self.folder / "begun"
            begun.unlink(missing_ok=True)
            with self.started(WORKS, "capacity", "j.toml", "c.json", *BUDGET) as process:
                while not begun.exists() or not begun.read_text().endswith("\n"):
                    time.sleep(0.02)
                process.send_signal(number)
                self.assertEqual(process.wait(timeout=20), status)
            with self.assertRaises(ProcessLookupError):
                os.kill(int(begun.read_text()), 0)


class JunctionTest(unittest.TestCase):
    """The program itself, by its launcher: each name of the certificate leads to the junction file."""

    def setUp(self):
        program()
        folder = tempfile.TemporaryDirectory()
        self.addCleanup(folder.cleanup)
        self.folder = Path(folder.name)
        self.junction = junction_of("two-groups")
        (self.folder / "J").write_bytes(self.junction)
        (self.folder / "inner").mkdir()
        (self.folder / "symbolic").symlink_to("J")
        (self.folder / "twice").symlink_to("symbolic")
        os.link(self.folder / "J", self.folder / "hard")

    def design(self, command, junction, certificate):
        words = [LAUNCHER, command, junction, certificate]
        with open(self.folder / "J", "rb") as read:
            done = subprocess.run(words, cwd=self.folder, stdin=read, stdout=subprocess.PIPE, check=False)
        return done.returncode, done.stdout

    def test_no_name_of_the_certificate_destroys_the_junction(self):
        names = sorted(path.name for path in self.folder.iterdir())
        for junction, certificate in (("./J", "J"), ("J", "./J"), ("J", "inner/../J"), ("J", str(self.folder / "J")),
                                      ("J", "symbolic"), ("J", "twice"), ("J", "hard"), ("symbolic", "J"),
                                      ("hard", "symbolic"), ("/dev/stdin", "J")):
            for command in ("capacity", "cycle"):
                found = self.design(command, junction, certificate)
                self.assertEqual(found, (7, b"shelf failed\n"), (command, junction, certificate))
                for name in ("J", "symbolic", "hard"):
                    self.assertEqual((self.folder / name).read_bytes(), self.junction, (junction, certificate))
        self.assertEqual(sorted(path.name for path in self.folder.iterdir()), names)

    def test_leftovers_and_long_names_are_no_hindrance(self):
        for number in range(20):
            (self.folder / ("plan.part%d" % number)).touch()
        for certificate in ("plan", "p" * 255):
            status, _ = self.design("capacity", "J", certificate)
            self.assertEqual(status, 0, certificate)
            self.assertEqual(self.design("check", "J", certificate), (0, b"proved capacity\n"))


if __name__ == "__main__":
    unittest.main()
