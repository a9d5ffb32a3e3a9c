"""Conflicts from a matrix of intergreens as engineers keep it, and back. A row is the group whose green ends, a column
the group whose green starts; a cell is the intergreen in seconds, and blank or `-` where the two don't conflict."""
import csv
import io
import itertools
import re

from .fault import Fault, Misuse
from .file_contents import content_of
from .junctions import read_junction
from .program import Program

FORM = "MATRIX.csv|JUNCTION.toml"

CORNER = "ends/starts"
NO_CONFLICT = ("", "-")
GROUP_NAME = re.compile("[A-Za-z0-9_-]{1,16}")
LONGEST_INTERGREEN = 60
FEWEST_GROUPS = 2
MOST_GROUPS = 16

HEAD = "# From the end of a's green to the start of b's (a_to_b), and from b's to a's (b_to_a), in seconds.\n"


def run(words, out):
    """Prints the conflict tables of a matrix, or the matrix of a junction whose file's name ends in .toml."""
    if len(words) != 1:
        raise Misuse
    content = content_of(words[0])
    if words[0].endswith(".toml"):
        Program().judge(content)
        out.write(matrix_text(read_junction(content, words[0])))
    else:
        out.write(conflicts_text(content, words[0]))


def matrix_text(junction):
    """The matrix as CSV, its rows and columns in the order of the junction's groups."""
    names = [group.name for group in junction.groups]
    intergreens = junction.intergreens()
    text = io.StringIO()
    rows = csv.writer(text, lineterminator="\n")
    rows.writerow([CORNER, *names])
    for a, name in enumerate(names):
        rows.writerow([name, *("-" if a == b else intergreens.get((a, b), "") for b in range(len(names)))])
    return text.getvalue()


def conflicts_text(content, name):
    """The tables `[[conflict]]`, in the order of the rows."""
    names, cells = read_matrix(content, name)
    tables = [HEAD]
    for i, a in enumerate(names):
        for b in names[i + 1:]:
            a_to_b, b_to_a = cells.get((a, b)), cells.get((b, a))
            if a_to_b is not None and b_to_a is not None:
                tables.append('[[conflict]]\na = "%s"\nb = "%s"\na_to_b = %d\nb_to_a = %d\n' % (a, b, a_to_b, b_to_a))
            elif a_to_b != b_to_a:
                raise one_sided(name, *((a, b) if b_to_a is None else (b, a)))
    return "\n".join(tables)


def one_sided(name, a, b):
    return Fault("%s: row %s, column %s has an intergreen, and row %s, column %s has none" % (name, a, b, b, a))


def read_matrix(content, name):
    """The names of the groups, and the seconds from group to group by their names; None where they don't conflict."""
    head, *rows = read_rows(content, name)
    names = head[1:]
    compare_names(names, [row[0] for row in rows], name)
    cells = {}
    for row in rows:
        for column, cell in zip(names, row[1:], strict=True):
            cells[row[0], column] = seconds(cell, row[0], column, name)
    return names, cells


def read_rows(content, name):
    """The rows that aren't blank, all as long as the first one."""
    try:
        text = content.decode("utf-8-sig")
        delimiter = max(",;\t", key=first_line(text).count)
        lines = csv.reader(io.StringIO(text, newline=""), delimiter=delimiter, strict=True)
        rows = [[cell.strip() for cell in row] for row in lines]
    except (UnicodeDecodeError, csv.Error) as error:
        raise Fault("%s: no CSV in UTF-8: %s" % (name, error)) from None
    rows = [row for row in rows if any(row)]
    if not rows:
        raise Fault("%s: no matrix: all is blank" % name)
    width = max(number for number, cell in enumerate(rows[0], 1) if cell or number == 1)
    return [row_of(row, width, name) for row in rows]


def first_line(text):
    """The first one that isn't blank, if there is one."""
    return next((line for line in text.split("\n") if line.strip(" ,;\t\r")), "")


def row_of(row, width, name):
    """The cells below the names of the first row; those that are missing at the end are blank."""
    if any(row[width:]):
        raise Fault("%s: row %s has %d columns, and the first row names %d" % (name, row[0], len(row), width))
    return row[:width] + [""] * (width - len(row))


def compare_names(columns, rows, name):
    """The rows and the columns have the same groups, whose names a junction file can have."""
    for number, (row, column) in enumerate(itertools.zip_longest(rows, columns, fillvalue=""), 1):
        if row != column:
            raise Fault("%s: row %d is %s and column %d is %s: both have the same groups in the same order"
                        % (name, number, row or "missing", number, column or "missing"))
        if not GROUP_NAME.fullmatch(row):
            raise Fault("%s: row %d: a name is 1 to 16 of A-Z, a-z, 0-9, _ and -, not %s"
                        % (name, number, row or "blank"))
        if row in rows[:number - 1]:
            raise Fault("%s: row %d: %s has a row above" % (name, number, row))
    if not FEWEST_GROUPS <= len(rows) <= MOST_GROUPS:
        raise Fault("%s: it has %d groups, and a junction has %d to %d" % (name, len(rows), FEWEST_GROUPS, MOST_GROUPS))


def seconds(cell, row, column, name):
    """The intergreen of a cell, or None where there is none."""
    if cell in NO_CONFLICT:
        return None
    if not (re.fullmatch("[0-9]{1,9}", cell) and int(cell) <= LONGEST_INTERGREEN):
        raise Fault("%s: row %s, column %s: an intergreen is 0 to %d whole seconds, not %s"
                    % (name, row, column, LONGEST_INTERGREEN, cell))
    if row == column:
        raise Fault("%s: row %s, column %s: a group doesn't conflict with itself" % (name, row, column))
    return int(cell)
