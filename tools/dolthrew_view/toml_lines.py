"""Where the tables and the keys of a TOML document stand. It follows only documents that tomllib reads, so it needs to
know no more of TOML than where a key, a text, a list and an inline table begin and end."""
import bisect
import re
import tomllib
from dataclasses import dataclass, field

from .fault import Fault
from .toml_documents import BYTE_ORDER_MARK

TRIVIA = re.compile(r"(?:[ \t\r\n]|#[^\n]*)*")
SPACE = re.compile(r"[ \t]*")
KEY = re.compile(r"""(?:[A-Za-z0-9_-]+|"(?:[^"\\\n]|\\.)*"|'[^'\n]*')""")
TEXT = re.compile(r'''"""(?:[^\\]|\\.)*?"{3,5}|\'{3}.*?\'{3,5}|"(?:[^"\\\n]|\\.)*"|'[^'\n]*\'''', re.DOTALL)
SCALAR = re.compile(r"[^,\]}#\n]+")


@dataclass
class Element:
    """A table of a list, or the document itself: its line from 1 on, and that of each of its keys."""
    line: int
    keys: dict[str, int] = field(default_factory=dict)

    def add(self, key, line):
        self.keys.setdefault(key, line)


@dataclass
class TomlLines:
    """The document, the elements of its lists by the list's key, and the lines of all headers `[..]`."""
    top: Element
    lists: dict[str, list[Element]]
    headers: list[int]


class Scanner:
    """Goes through the text once, and notes what stands where."""

    def __init__(self, text):
        self.text = text
        self.at = 0
        self.ends = [match.start() for match in re.finditer("\n", text)]
        self.lines = TomlLines(Element(1), {}, [])
        self.table = self.lines.top

    def line(self):
        return bisect.bisect_left(self.ends, self.at) + 1

    def take(self, pattern):
        """Steps over what the pattern matches here."""
        match = pattern.match(self.text, self.at)
        if match is None:
            raise Fault("line %d: this isn't followed as TOML" % self.line())
        self.at = match.end()
        return match.group()

    def has(self, mark):
        return self.text.startswith(mark, self.at)

    def step(self, mark):
        """Steps over a mark, where it is here."""
        if self.has(mark):
            self.at += len(mark)
            return True
        return False

    def names(self):
        """The names of a key, of which a dotted one has several."""
        names = []
        while not names or self.step("."):
            self.take(SPACE)
            key = self.take(KEY)
            names += tomllib.loads(key + " = 0") if key[0] in "\"'" else [key]
            self.take(SPACE)
        return names

    def scan(self):
        self.step(BYTE_ORDER_MARK)
        self.take(TRIVIA)
        while self.at < len(self.text):
            if self.has("["):
                self.header()
            else:
                self.member(self.table)
            self.take(TRIVIA)
        return self.lines

    def header(self):
        line = self.line()
        is_element = self.step("[[") or not self.step("[")
        names = self.names()
        self.step("]]" if is_element else "]")
        self.lines.headers.append(line)
        self.lines.top.add(names[0], line)
        self.table = Element(line)
        elements = self.lines.lists.setdefault(names[0], [])
        if len(names) > 1 and elements:
            elements[-1].add(names[1], line)
        elif len(names) == 1 and is_element:
            elements.append(self.table)

    def member(self, table):
        """A key and its value; a list of the document holds elements."""
        line = self.line()
        names = self.names()
        table.add(names[0], line)
        self.step("=")
        self.take(SPACE)
        is_list = table is self.lines.top and len(names) == 1
        self.value(Element(line), self.lines.lists.setdefault(names[0], []) if is_list else [])

    def value(self, element, elements):
        """A value, whose keys go to the element where it is a table, or whose elements go to a list."""
        if self.step("["):
            self.parts("]", lambda: self.element(elements))
        elif self.step("{"):
            self.parts("}", lambda: self.member(element))
        else:
            self.take(TEXT if self.has('"') or self.has("'") else SCALAR)

    def element(self, elements):
        elements.append(Element(self.line()))
        self.value(elements[-1], [])

    def parts(self, end, part):
        """What stands between commas, up to the end."""
        self.take(TRIVIA)
        while not self.step(end):
            part()
            self.take(TRIVIA)
            self.step(",")
            self.take(TRIVIA)


def toml_lines(text):
    """What stands where in a text that tomllib reads."""
    try:
        return Scanner(text).scan()
    except RecursionError:
        raise Fault("the file's lists nest too deep") from None
