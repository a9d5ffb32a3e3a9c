"""What the program refuses, in words for the page."""
import re
from functools import cache

from ..fault import Fault
from ..file_contents import LONGEST_JUNCTION
from ..places import place
from ..program import LAUNCHER

BAD_JUNCTION = 5

FORMAT = LAUNCHER.parent / "docs" / "FILE-FORMAT.md"
ROW = re.compile(r"\| [0-9]+ \| `(\w+)` \| (.*) \|")

PLACE = re.compile(r"junction:([0-9]+)(?::([0-9]+))?: (.*)")

REFUSALS = {
    3: "the certificate breaks a rule",
    4: "the least multiple is 0/1 to 1000000/1 with whole parts of at most 1000000, the budget a whole number above 0",
    6: "the file is no certificate of this junction",
    7: "a file of the run can't be read or written: is the folder for temporary files full?",
    8: "what the program printed couldn't be taken",
    9: "no memory could be had",
    10: "the junction is longer than its limit of %d bytes" % LONGEST_JUNCTION,
}


@cache
def sentences():
    """What each word of a fault says, as docs/FILE-FORMAT.md has it."""
    return dict(ROW.findall(FORMAT.read_text(encoding="utf-8")))


def fault_answer(line, content):
    """The fault of a junction by the program's line, with the line of the file where it stands, if that is known."""
    _, _, _, word, part, number, key = line.split(" ")
    answer = {"line": None, "told": line, "part": part, "number": int(number), "key": key,
              "sentence": sentences().get(word, word)}
    try:
        row, column, text = PLACE.fullmatch(place(line, content, "junction")).groups()
    except Fault:
        return answer
    return {**answer, "line": int(row), "column": column and int(column), "text": text}


def refusal_text(status, line):
    """What a run ended with, and the program's own line."""
    meaning = REFUSALS.get(status, "the program ended with status %d" % status)
    return "%s (%s)" % (meaning, line) if line else meaning
