"""Runs of the program for tabs of the page: each has a time limit and can be ended, and there are never more than
the machine has processors, nor two for one tab."""
import os
import signal
import subprocess
import threading
from contextlib import contextmanager

from ..fault import Fault
from ..program import Program

LONGEST_SECONDS = 3600

CLOSED = "the page is being closed"


class Busy(Fault):
    """No run can begin now."""


class RunEnded(Fault):
    """The run was ended before it was done."""


class Run:
    """All processes that answer one request. Once it is ended, none begins any more."""

    def __init__(self, seconds):
        self.lock = threading.Lock()
        self.process = None
        self.cause = None
        self.is_over = threading.Event()
        self.timer = threading.Timer(seconds, self.end, ["the time limit of %d seconds was reached" % seconds])
        self.timer.daemon = True
        self.timer.start()

    def start(self, command, **options):
        """A process in a group of its own, so that its end is the end of all that it started."""
        with self.lock:
            if self.cause is not None:
                raise RunEnded(self.cause)
            self.process = subprocess.Popen(command, start_new_session=True, **options)
            return self.process

    def end(self, cause):
        """Ends the process at once; the first cause is kept."""
        with self.lock:
            if self.cause is None:
                self.cause = cause
            if self.process is not None and self.process.poll() is None:
                end_group(self.process.pid)

    def close(self):
        self.timer.cancel()
        self.is_over.set()


def end_group(leader):
    try:
        os.killpg(leader, signal.SIGKILL)
    except ProcessLookupError:
        # It ended by itself in the meantime.
        pass


class LimitedProgram(Program):
    """The program as one run calls it. It is never built here: a run is too short for that."""

    def __init__(self, run, **launcher):
        super().__init__(**launcher)
        self.run = run

    def start(self, words, folder, printed):
        return self.run.start([self.launcher, *words], cwd=folder, stdin=subprocess.DEVNULL, stdout=printed,
                              stderr=subprocess.PIPE, env={**os.environ, "DOLTHREW_NO_BUILD": "1"})

    def answer(self, words, folder=None):
        try:
            return super().answer(words, folder)
        except Fault:
            if self.run.cause is not None:
                raise RunEnded(self.run.cause) from None
            raise


class Runs:
    """The runs that are under way, by the name of their tab."""

    def __init__(self, most=None):
        self.most = most or os.cpu_count() or 1
        self.changed = threading.Condition()
        self.by_tab = {}
        self.is_closed = False

    def begin(self, tab, seconds):
        with self.changed:
            if self.is_closed:
                raise Busy(CLOSED)
            if tab in self.by_tab:
                raise Busy("this tab has a run under way")
            if len(self.by_tab) >= self.most:
                raise Busy("%d runs are under way, as many as there are processors" % self.most)
            self.by_tab[tab] = Run(seconds)
            return self.by_tab[tab]

    def close(self, tab):
        with self.changed:
            self.by_tab.pop(tab).close()
            self.changed.notify_all()

    @contextmanager
    def run(self, tab, seconds):
        """A run for as long as the block lasts."""
        run = self.begin(tab, seconds)
        try:
            yield run
        finally:
            self.close(tab)

    def end(self, tab):
        """Whether a run of this tab was under way, which is ended."""
        with self.changed:
            run = self.by_tab.get(tab)
        if run is not None:
            run.end("the run was ended")
        return run is not None

    def end_all(self):
        """Ends every run, lets none begin any more, and waits until all are over."""
        with self.changed:
            self.is_closed = True
            for run in self.by_tab.values():
                run.end(CLOSED)
            self.changed.wait_for(lambda: not self.by_tab)
