"""The command line: a word says which tool runs, and every fault is one line and status 2."""
import os
import signal
import sys

from . import diagram, group_order, matrix, places, sheet, sumo, table
from .fault import Fault, Misuse, printable
from .page import opening
from .shown import FORM

DONE = 0
FAILED = 2
INTERRUPTED = 130

# A signal ends a tool as its end would: no file and no process of it is left. Its number and SIGNALLED are the status.
ENDING_SIGNALS = (signal.SIGTERM, signal.SIGHUP)
SIGNALLED = 128

# A line for each tool: its word, its form, and what runs with the words after it and a stream for what it prints.
COMMANDS = {
    "diagram": (FORM, diagram.run),
    "sheet": (FORM, sheet.run),
    "table": (FORM, table.run),
    "matrix": (matrix.FORM, matrix.run),
    "order": (group_order.FORM, group_order.run),
    "sumo": (sumo.FORM, sumo.run),
    "where": (places.FORM, places.run),
    "page": (opening.FORM, opening.run),
}


def usage():
    forms = ("dolthrew-view %s %s" % (word, form) for word, (form, _) in COMMANDS.items())
    return "usage: " + "; ".join(forms)


def run(words, out):
    """Runs the tool that the words name."""
    if not words or words[0] not in COMMANDS:
        raise Fault(usage())
    form, tool = COMMANDS[words[0]]
    try:
        tool(words[1:], out)
    except Misuse:
        raise Fault("usage: dolthrew-view %s %s" % (words[0], form)) from None
    out.flush()


def line_of(error):
    """One line for a fault, or for what the system said of a file."""
    if isinstance(error, OSError):
        cause = error.strerror or str(error)
        text = "%s: %s" % (error.filename, cause) if error.filename is not None else cause
    else:
        text = str(error)
    return printable(" ".join(text.split()))


def main(words=None, out=None, errors=None):
    """The status of a run, which has printed what it had to."""
    out, errors = out or sys.stdout, errors or sys.stderr
    try:
        run(sys.argv[1:] if words is None else words, out)
    except BrokenPipeError:
        # Nothing reads on, so what is left to print goes nowhere.
        os.dup2(os.open(os.devnull, os.O_WRONLY), sys.stdout.fileno())
    except KeyboardInterrupt:
        return INTERRUPTED
    except (Fault, OSError) as error:
        print("dolthrew-view: " + line_of(error), file=errors)
        return FAILED
    return DONE


def command():
    """The status of a run that is a process: its streams and signals are its own."""
    for number in ENDING_SIGNALS:
        # Who starts it may have it ignore one, as nohup does.
        if signal.getsignal(number) != signal.SIG_IGN:
            signal.signal(number, end)
    if sys.stderr is None:
        sys.stderr = open(os.devnull, "w")
    if sys.stdout is None:
        print("dolthrew-view: standard output is closed", file=sys.stderr)
        return FAILED
    # The name of a file may have bytes that are no UTF-8.
    sys.stdout.reconfigure(encoding="utf-8", errors="backslashreplace", newline="\n")
    return main()


def end(number, frame):
    """Leaves all that is under way; a second signal doesn't disturb that."""
    for other in ENDING_SIGNALS:
        signal.signal(other, signal.SIG_IGN)
    sys.exit(SIGNALLED + number)
