"""The proved program, run by its launcher. Each call works on files in a folder of its own, which it removes."""
import os
import subprocess
import sys
import tempfile
from contextlib import contextmanager
from pathlib import Path
from select import select

from .certificates import read_certificate
from .fault import Fault

LAUNCHER = Path(__file__).resolve().parents[2] / "dolthrew"

JUNCTION_FILE = "junction.toml"
CERTIFICATE_FILE = "certificate.json"

# The program's statuses.
DONE = 0
INFEASIBLE = 1
STOPPED = 2
DESIGNED = (DONE, INFEASIBLE, STOPPED)
BAD_CERTIFICATE = 6

# The launcher's, where the program can't be built.
NOT_BUILT = 70

# After so many seconds a line that the launcher told is no longer its last word.
PAUSE = 0.5
CHUNK = 65536

# What may have made a certificate, by its claim.
DESIGNS = {
    "capacity": ("capacity",),
    "cycle": ("cycle",),
    "infeasible": ("capacity", "cycle"),
    "stopped": ("capacity", "cycle"),
}


class Program:
    def __init__(self, launcher=LAUNCHER):
        self.launcher = Path(launcher).resolve()

    @property
    def binary(self):
        """What the launcher has built and runs."""
        return self.launcher.parent / "crates" / "dolthrew" / "out" / "dolthrew"

    def start(self, words, folder, printed):
        """The process that runs the words in a folder and prints to a file."""
        return subprocess.Popen([self.launcher, *words], cwd=folder, stdin=subprocess.DEVNULL, stdout=printed,
                                stderr=subprocess.PIPE)

    def answer(self, words, folder=None):
        """The status and what was printed; what the launcher tells of a build goes to standard error."""
        with tempfile.TemporaryFile() as printed:
            with self.start(words, folder, printed) as process, ended_with_this(process):
                last = told(process.stderr)
            if process.returncode == NOT_BUILT:
                raise Fault(last or "the program isn't built")
            pass_on(last)
            if process.returncode < 0:
                raise Fault("the program was ended by signal %d" % -process.returncode)
            printed.seek(0)
            return process.returncode, printed.read()

    def text(self, words, folder, statuses):
        """What was printed, where the status is one of these; else a fault with the program's line."""
        status, printed = self.answer(words, folder)
        text = printed.decode("ascii", "replace")
        if status not in statuses:
            raise Fault(text.strip() or "the program ended with status %d" % status)
        return text

    def judge(self, junction):
        """A fault with the program's line where it refuses the junction; else it refuses a certificate of no bytes."""
        with files(junction, b"") as folder:
            self.text(["check", JUNCTION_FILE, CERTIFICATE_FILE], folder, (BAD_CERTIFICATE,))

    def verdict(self, junction, certificate):
        """The line of `check`: a proved claim, or `partial stopped`."""
        with files(junction, certificate) as folder:
            return self.text(["check", JUNCTION_FILE, CERTIFICATE_FILE], folder, (DONE, STOPPED)).strip()

    def rows(self, junction, certificate, seconds):
        """The text of `play`."""
        with files(junction, certificate) as folder:
            return self.text(["play", JUNCTION_FILE, CERTIFICATE_FILE, str(seconds)], folder, (DONE,))

    def report(self, junction, certificate):
        """The report with which the program puts this certificate: what it claims is designed again."""
        asked = read_certificate(certificate, "the certificate")
        least = "%d/%d" % (asked.least.numerator, asked.least.denominator)
        for command in DESIGNS[asked.claim]:
            with files(junction) as folder:
                words = [command, JUNCTION_FILE, CERTIFICATE_FILE, "--least", least, "--budget", str(asked.budget)]
                text = self.text(words, folder, DESIGNED)
                if Path(folder, CERTIFICATE_FILE).read_bytes() == certificate:
                    return text
        raise Fault("designed again, the certificate has other bytes, so its report isn't known: "
                    "give the report that was printed with it as --report FILE")


@contextmanager
def ended_with_this(process):
    """What ends the block early ends the process too."""
    try:
        yield
    except BaseException:
        process.terminate()
        raise


def told(stream):
    """The line with which a stream ends, if no pause follows it; all others are passed on as they come."""
    last, begun = "", b""
    while True:
        if last and not select([stream], [], [], PAUSE)[0]:
            last = pass_on(last)
        chunk = os.read(stream.fileno(), CHUNK)
        if not chunk:
            return last
        *lines, begun = (begun + chunk).split(b"\n")
        for line in lines:
            pass_on(last)
            last = line.decode("utf-8", "replace")


def pass_on(line):
    """Nothing is left of it to tell."""
    if line:
        print(line, file=sys.stderr, flush=True)
    return ""


@contextmanager
def files(junction, certificate=None):
    """A folder with a junction and, where one is given, a certificate; it is removed at the end."""
    with tempfile.TemporaryDirectory(prefix="dolthrew-view-") as folder:
        Path(folder, JUNCTION_FILE).write_bytes(junction)
        if certificate is not None:
            Path(folder, CERTIFICATE_FILE).write_bytes(certificate)
        yield folder
