"""The first build: the launcher proves and builds the program while the page says how far it is."""
import signal
import subprocess
import sys
import threading

from ..fault import Fault
from ..program import LAUNCHER, NOT_BUILT

# The program's status for no words, which it only tells when it is built.
BAD_WORDS = 4

# What the launcher's own lines begin with.
TOLD = "dolthrew: "


class NotBuilt(Fault):
    """There is no program to run yet, or none at all."""


class Build:
    """Calls the launcher with no words, and keeps the last line that it tells."""

    def __init__(self, launcher=LAUNCHER, errors=None):
        self.errors = errors or sys.stderr
        self.line = "the program is looked for"
        self.is_done = False
        self.process = subprocess.Popen([launcher], stdin=subprocess.DEVNULL, stdout=subprocess.DEVNULL,
                                        stderr=subprocess.PIPE, text=True, start_new_session=True)
        self.reader = threading.Thread(target=self.read, daemon=True)
        self.reader.start()

    def read(self):
        with self.process.stderr as told:
            for line in told:
                print(line, end="", file=self.errors, flush=True)
                if line.startswith(TOLD):
                    self.line = line.removeprefix(TOLD).strip()
        status = self.process.wait()
        self.is_done = status == BAD_WORDS
        if not self.is_done and status != NOT_BUILT:
            self.line = "the launcher ended with status %d" % status

    def state(self):
        """For the page: whether runs are possible, and what was told last."""
        return {"built": self.is_done, "failed": not self.is_done and not self.reader.is_alive(), "line": self.line}

    def see_that_it_is_done(self):
        if not self.is_done:
            raise NotBuilt("the program isn't built yet: " + self.line)

    def end(self):
        """Ends a build that is under way, as the launcher ends it when it is asked to."""
        if self.process.poll() is None:
            self.process.send_signal(signal.SIGTERM)
        self.reader.join()
