"""The tool `page`: serves the page until it is ended, and leaves nothing behind."""
import os
import shutil
import signal
import sys
import tempfile
import threading
import webbrowser
from contextlib import contextmanager

from ..fault import Fault, Misuse
from .build import Build
from .guards import is_count
from .server import PageServer

FORM = "[--port N] [--no-browser]"

ENDING_SIGNALS = (signal.SIGINT, signal.SIGTERM, signal.SIGHUP)
GREATEST_PORT = 65535


def run(words, out):
    """Serves on a free port, or on the one that is given, and opens the browser unless that isn't wanted."""
    port, is_opened = options(words)
    build = server = None
    with ending_signals() as signals, temporary_folder():
        try:
            build = Build()
            server = opened_server(build, port)
            threading.Thread(target=server.serve_forever, daemon=True).start()
            tell(server, is_opened, out)
            os.read(signals, 1)
        finally:
            close(server, build)


@contextmanager
def ending_signals():
    """A pipe with a byte for each signal that ends the page. None is raised, so none is lost nor leaves a thing half
    done."""
    reads, writes = os.pipe()
    os.set_blocking(writes, False)
    former = {number: signal.signal(number, lambda *_: None) for number in ENDING_SIGNALS}
    signal.set_wakeup_fd(writes)
    try:
        yield reads
    finally:
        signal.set_wakeup_fd(-1)
        for number, handler in former.items():
            signal.signal(number, handler)
        os.close(reads)
        os.close(writes)


@contextmanager
def temporary_folder():
    """The one folder for all temporary files of this process, which is removed at the end."""
    folder = tempfile.mkdtemp(prefix="dolthrew-page-")
    tempfile.tempdir = folder
    try:
        yield
    finally:
        tempfile.tempdir = None
        shutil.rmtree(folder, ignore_errors=True)


def options(words):
    words, port = list(words), 0
    is_opened = "--no-browser" not in words
    if not is_opened:
        words.remove("--no-browser")
    if words[:1] == ["--port"] and len(words) == 2 and is_count(words[1]) and int(words[1]) <= GREATEST_PORT:
        port = int(words[1])
    elif words:
        raise Misuse
    return port, is_opened


def opened_server(build, port):
    try:
        return PageServer(build, port)
    except OSError as error:
        raise Fault("port %d of 127.0.0.1 can't be had: %s" % (port, error.strerror)) from None


def tell(server, is_opened, out):
    print("the page: %s" % server.guard.address, file=out)
    print("Ctrl-C ends it; nothing of it is kept", file=out, flush=True)
    if is_opened and (sys.platform == "darwin" or os.environ.get("DISPLAY") or os.environ.get("WAYLAND_DISPLAY")):
        # Some browsers' calls last as long as the browser.
        threading.Thread(target=webbrowser.open, args=[server.guard.address], daemon=True).start()


def close(server, build):
    """Ends all that the page began."""
    if server is not None:
        server.runs.end_all()
        server.shutdown()
        server.server_close()
    if build is not None:
        build.end()
