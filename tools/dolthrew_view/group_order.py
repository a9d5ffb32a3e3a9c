"""The same junction with its groups in the order that the search likes. The search decides the first groups first, so
those that conflict most come first: the group of most conflicts, and then always the one of most conflicts with those
that are placed. Those with the first group don't count there, since the search has decided them before it begins; but
of equal groups one that conflicts with it comes first, and of these the one that stands first in the file."""
import sys
import tomllib

from .fault import Misuse
from .file_contents import content_of
from .junctions import read_junction
from .program import Program
from .toml_documents import document_of, without_mark
from .toml_lines import toml_lines

FORM = "JUNCTION"

NOTE = "dolthrew-view: the groups are renumbered; nothing else of the junction changes"
NOTE_WITHOUT_COMMENTS = ", but the file is written anew, without its comments"


def run(words, out):
    """Prints the junction file with its groups in the order of the search."""
    if len(words) != 1:
        raise Misuse
    content = content_of(words[0])
    Program().judge(content)
    text = content.decode("utf-8")
    ordered = reordered(text, search_order(read_junction(content, words[0])))
    out.write(ordered)
    print(NOTE if has_lines_of(ordered, text) else NOTE + NOTE_WITHOUT_COMMENTS, file=sys.stderr)


def has_lines_of(ordered, text):
    return sorted(ordered.split("\n")) == sorted(without_mark(text).split("\n"))


def search_order(junction):
    """The numbers of the groups in the order in which they are placed."""
    rivals = rivals_of(junction)
    left = list(range(len(rivals)))
    first = max(left, key=lambda group: len(rivals[group]))
    placed = []
    left.remove(first)
    while left:
        placed.append(max(left, key=lambda group: (len(rivals[group].intersection(placed)), first in rivals[group])))
        left.remove(placed[-1])
    return [first, *placed]


def rivals_of(junction):
    """For each group those that it conflicts with."""
    rivals = [set() for _ in junction.groups]
    for conflict in junction.conflicts:
        rivals[conflict.a].add(conflict.b)
        rivals[conflict.b].add(conflict.a)
    return rivals


def reordered(text, numbers):
    """The file with its groups in this order: its own text moved, or all of it written anew where that fails."""
    text = without_mark(text)
    document = document_of(text)
    document["group"] = [document["group"][number] for number in numbers]
    moved = moved_text(text, numbers)
    return moved if is_text_of(moved, document) else document_text(document)


def is_text_of(text, document):
    try:
        return document_of(text) == document
    except tomllib.TOMLDecodeError:
        return False


def moved_text(text, numbers):
    """The text with the tables `[[group]]` moved, each with the comment above it; blank lines stay where they are."""
    lines = text.split("\n")
    places = toml_lines(text)
    tables = [table_span(lines, group.line - 1, places.headers) for group in places.lists["group"]]
    moved = list(lines)
    for (begin, end), number in reversed(list(zip(tables, numbers))):
        first, last = tables[number]
        moved[begin:end] = lines[first:last]
    return "\n".join(moved)


def table_span(lines, header, headers):
    """The lines of the table at a header: from the comment above it up to its last line that isn't blank."""
    following = min((line - 1 for line in headers if line - 1 > header), default=len(lines))
    end = comment_start(lines, following) if following < len(lines) else following
    while not lines[end - 1].strip():
        end -= 1
    return comment_start(lines, header), end


def comment_start(lines, header):
    """The first line of the comment that stands just above a header, or the header."""
    while header > 0 and lines[header - 1].lstrip().startswith("#"):
        header -= 1
    return header


def document_text(document):
    """A junction file of this document, without comments."""
    parts = {key: value for key, value in document.items() if isinstance(value, list) and value}
    head = {key: value for key, value in document.items() if key not in parts}
    tables = ["\n[[%s]]\n%s" % (part, pairs_text(table)) for part, tables in parts.items() for table in tables]
    return pairs_text(head) + "".join(tables)


def pairs_text(table):
    return "".join("%s = %s\n" % (key, value_text(value)) for key, value in table.items())


def value_text(value):
    if isinstance(value, str):
        return '"%s"' % value.replace("\\", "\\\\").replace('"', '\\"')
    return str(value)
