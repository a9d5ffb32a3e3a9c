"""The steps of which edits consist. Each is made in the text, and what comes out is read again to see that it says
what it should: so a text that is written in a way which isn't followed here is left as it is."""
import json
import re
import tomllib
from dataclasses import dataclass

from .. import toml_documents
from ..fault import Fault
from ..group_order import is_text_of
from ..toml_lines import toml_lines

TOP = "top"


def document_of(text):
    """What the text says to tomllib, which every edit begins with."""
    try:
        return toml_documents.document_of(text)
    except tomllib.TOMLDecodeError as error:
        raise Fault("no edit can be made in a text that is no TOML: %s" % error) from None


def element(document, part, number):
    if part == TOP:
        return document
    table = document.get(part)
    if not isinstance(table, list) or number >= len(table) or not isinstance(table[number], dict):
        raise Fault("there is no %s of number %d" % (part, number + 1))
    return table[number]


def written(value):
    return json.dumps(value, ensure_ascii=False) if isinstance(value, str) else str(value)


def value_forms(line, key):
    """Where a line may give the key a value: the first and the last character of each."""
    form = r"""(?<![\w-])%s[ \t]*=[ \t]*("(?:[^"\\]|\\.)*"|'[^']*'|[^\s#,"'\[\]{}]+)""" % re.escape(key)
    return [match.span(1) for match in re.finditer(form, line)]


def place_of(text, part, number):
    """The lines of an element, by key and as a whole."""
    found = toml_lines(text)
    return found.top if part == TOP else found.lists[part][number]


def last_line(place, before=None):
    """The number of the last line with a key of the element, or of its own first line."""
    lines = [line for line in place.keys.values() if before is None or line < before]
    return max(lines, default=place.line if before is None else 0)


@dataclass(frozen=True)
class Put:
    """A key gets a value; where it is missing, in a line behind the element's last one."""
    part: str
    number: int
    key: str
    value: int | str

    def in_document(self, document):
        element(document, self.part, self.number)[self.key] = self.value

    def in_text(self, text):
        lines = text.split("\n")
        place = place_of(text, self.part, self.number)
        if self.key not in place.keys:
            first_header = min(toml_lines(text).headers, default=len(lines)) if self.part == TOP else None
            lines.insert(last_line(place, first_header), "%s = %s" % (self.key, written(self.value)))
            yield "\n".join(lines)
            return
        at = place.keys[self.key] - 1
        for start, end in value_forms(lines[at], self.key):
            line = lines[at][:start] + written(self.value) + lines[at][end:]
            yield "\n".join([*lines[:at], line, *lines[at + 1:]])


@dataclass(frozen=True)
class TakeKey:
    """A key is taken away with its line."""
    part: str
    number: int
    key: str

    def in_document(self, document):
        del element(document, self.part, self.number)[self.key]

    def in_text(self, text):
        lines = text.split("\n")
        del lines[place_of(text, self.part, self.number).keys[self.key] - 1]
        yield "\n".join(lines)


@dataclass(frozen=True)
class Add:
    """An element behind the last one of its part, or else behind all others."""
    part: str
    table: dict

    def in_document(self, document):
        document.setdefault(self.part, []).append(self.table)

    def in_text(self, text):
        lists = toml_lines(text).lists
        places = lists.get(self.part) or [place for elements in lists.values() for place in elements]
        lines = text.split("\n")
        end = max(map(last_line, places), default=len(lines))
        lines[end:end] = ["", "[[%s]]" % self.part,
                          *("%s = %s" % (key, written(value)) for key, value in self.table.items())]
        yield "\n".join(lines) + "\n" * (end == len(lines))


@dataclass(frozen=True)
class TakeElement:
    """An element is taken away, from its header to its last key, with a blank line behind it."""
    part: str
    number: int

    def in_document(self, document):
        element(document, self.part, self.number)
        del document[self.part][self.number]
        if not document[self.part]:
            del document[self.part]

    def in_text(self, text):
        place = place_of(text, self.part, self.number)
        lines = text.split("\n")
        end = last_line(place)
        del lines[place.line - 1:end + 1 if lines[end:end + 1] == [""] else end]
        yield "\n".join(lines)


def made(text, steps):
    """The text after the steps, each of which is found in the text and means what it should."""
    document = document_of(text)
    for step in steps:
        step.in_document(document)
        text = next((changed for changed in changes(step, text) if is_text_of(changed, document)), None)
        if text is None:
            raise Fault("the text writes this in a way that the tables don't change: change it in the text")
    return text


def changes(step, text):
    """The texts that a step may make of a text; none where it isn't found there."""
    try:
        yield from step.in_text(text)
    except (IndexError, KeyError, ValueError, RecursionError):
        return
