"""The place of a refused junction file's fault: the line `bad junction NUMBER WORD PART INDEX KEY` says what is wrong
where in the document, and this says where in the file that is. A key that is missing is shown by its table's header."""
import re
import sys
import tomllib

from .fault import Fault, Misuse, printable
from .file_contents import content_of
from .toml_documents import document_of, read_document, without_mark
from .toml_lines import toml_lines

FORM = "JUNCTION"

FAULT_LINE = re.compile(r"bad junction [0-9]+ ([a-z_]+) (top|group|lane|conflict|link) ([0-9]+) ([a-z_]+)")
LONGEST_FAULT_LINE = 100

# How what Python's reader says ends.
AT = re.compile(r"\(at line ([0-9]+), column ([0-9]+)\)$")
AT_END = "(at end of document)"

# The keys of each part, by which one that isn't listed is known; the last one of two parts is of version 2 alone.
PART_KEYS = {
    "top": ("version", "name", "least_cycle", "greatest_cycle", "group", "lane", "conflict", "link"),
    "group": ("name", "min_green", "amber", "red_amber", "start_lost", "end_gain", "max_green"),
    "lane": ("name", "group", "arrival", "saturation", "limit"),
    "conflict": ("a", "b", "a_to_b", "b_to_a"),
    "link": ("leader", "follower", "after"),
}
SECOND_VERSION_KEYS = ("link", "max_green")

# Of a longer line of a file the rest isn't shown.
LONGEST_SHOWN = 160


def run(words, out):
    """Prints the fault line from standard input, and below it the place in the file."""
    if len(words) != 1:
        raise Misuse
    line = sys.stdin.buffer.readline(LONGEST_FAULT_LINE) if sys.stdin else b""
    line = line.decode("ascii", "replace").strip()
    found = place(line, content_of(words[0]), words[0])
    print(line, found, sep="\n", file=out)


def place(line, content, name):
    """`FILE:LINE: TEXT OF THAT LINE`, or with a column for what is no TOML."""
    match = FAULT_LINE.fullmatch(line)
    if match is None:
        raise Fault("standard input has no line: bad junction NUMBER WORD PART INDEX KEY")
    word, part, index, key = match.groups()
    if word == "not_toml":
        return toml_fault_place(content, name)
    version = version_of(read_document(content, name))
    text = content.decode("utf-8")
    number = line_of(toml_lines(text), version, part, int(index), key)
    if number is None:
        raise Fault("%s: it has no %s %s" % (name, part, index))
    return "%s:%d: %s" % (name, number, shown(text, number))


def version_of(document):
    return 2 if document.get("version") == 2 else 1


def line_of(lines, version, part, index, key):
    """The number of the line of a key of an element, or of the element where it hasn't the key; None without it."""
    if part == "top":
        element = lines.top
    else:
        elements = lines.lists.get(part, [])
        if not 1 <= index <= len(elements):
            return None
        element = elements[index - 1]
    if key == "other":
        return line_of_other(element, part, version)
    return element.keys.get(key, element.line)


def line_of_other(element, part, version):
    """The line of the first key that isn't listed."""
    listed = [key for key in PART_KEYS[part] if version == 2 or key not in SECOND_VERSION_KEYS]
    return next((line for key, line in element.keys.items() if key not in listed), element.line)


def toml_fault_place(content, name):
    """The place at which Python's reader refuses the bytes."""
    text = content.decode("utf-8", "replace")
    try:
        document_of(content.decode("utf-8"))
    except UnicodeDecodeError as error:
        line, column = last_place(content[:error.start].decode("utf-8"))
    except tomllib.TOMLDecodeError as error:
        line, column = place_told(str(error), text, name)
    else:
        raise Fault("%s: Python reads it as TOML, so the line isn't known" % name)
    return "%s:%d:%d: %s" % (name, line, column, shown(text, line))


def place_told(refusal, text, name):
    """The line and the column of what Python's reader says."""
    match = AT.search(refusal)
    if match:
        return tuple(map(int, match.groups()))
    if refusal.endswith(AT_END):
        return last_place(text)
    raise Fault("%s: Python's reader doesn't say in which line it refuses it: %s" % (name, refusal))


def last_place(text):
    """The line and the column behind a text."""
    lines = without_mark(text).split("\n")
    return len(lines), len(lines[-1]) + 1


def shown(text, number):
    """The text of a line, without what a terminal would obey."""
    line = without_mark(text).split("\n")[number - 1].expandtabs(1).strip()
    kept = line if len(line) <= LONGEST_SHOWN else line[:LONGEST_SHOWN] + ".."
    return printable(kept)
