"""One page to hand over: diagram, claim, lanes, intergreens, stages, and the sums of what it was made from."""
import hashlib
from html import escape

from .claims import claim_words
from .diagram import diagram
from .figures import exact, rounded
from .program import Program
from .shown import shown_by
from .table import COLUMNS, lane_rows

STYLE = """
@page { size: A4 landscape; margin: 10mm; }
body { font-family: Helvetica, Arial, 'Liberation Sans', 'DejaVu Sans', sans-serif; font-size: 12px; color: #111;
  background: #fff; margin: 12px auto; max-width: 1180px; }
.sheet-diagram svg { width: 100%; height: auto; }
@media print {
  body { margin: 0; }
  .sheet-diagram { break-after: page; }
  .sheet-diagram svg { max-height: 185mm; }
}
h2 { font-size: 14px; margin: 16px 0 4px; break-after: avoid; }
table { border-collapse: collapse; }
tr, .whole { break-inside: avoid; }
th, td { border: 1px solid #999; padding: 2px 6px; text-align: right; vertical-align: bottom; }
th { background: #f1f1f1; font-weight: bold; }
.word { text-align: left; }
.matrix thead th:not(:first-child) { writing-mode: vertical-rl; text-align: left; }
.holding td { font-weight: bold; background: #ffe3c2; }
"""

# The sections that no page's end parts, where they fit on one.
WHOLE = {"Claim", "Stages", "Start links", "Files"}

# Those of the table's columns whose entries are words.
WORDS = {"Lane", "Group", "Holds the multiplier down"}

# The head of the matrix of intergreens above the names of its rows.
CORNER = "from / to"
PROVED = ("What is proved is what check says of the certificate and the junction file. This sheet isn't proved: it "
          "shows what the program printed, rounded; needs and sums of the reason are computed by dolthrew-view. That "
          "the file's flows and times are those of the street is nobody's proof.")


def run(words, out):
    """`sheet JUNCTION CERT`: the page to a stream."""
    shown = shown_by(words)
    out.write(sheet(shown, sums_of(Program(), *shown.contents)))


def sums_of(program, junction, certificate):
    """The SHA-256, in hexadecimal, of the bytes that were judged and of the program that judged them."""
    contents = {"junction": junction, "certificate": certificate, "program": program.binary.read_bytes()}
    return {name: hashlib.sha256(content).hexdigest() for name, content in contents.items()}


def sheet(shown, sums):
    """A whole HTML page; `sums` are the SHA-256 of junction, certificate and program."""
    asked = "Intergreens in seconds: asked%s, from the row to the column" % (" / shown" if shown.timetable else "")
    sections = [("Claim", fact_table(claim_facts(shown))), ("Lanes", lane_table(shown)), (asked, matrix(shown))]
    if shown.report.stages:
        sections.append(("Stages", stage_table(shown.report.stages)))
    if shown.junction.links:
        sections.append(("Start links", link_table(shown.junction)))
    sections.append(("Files", fact_table(file_facts(shown, sums)) + "\n<p>%s</p>" % escape(PROVED)))
    parts = ['<div class="sheet-diagram">\n%s</div>' % diagram(shown)]
    parts += [section(heading, body) for heading, body in sections]
    return page(shown.junction.title, "\n".join(parts))


def section(heading, body):
    content = "\n<h2>%s</h2>\n%s\n" % (escape(heading), body)
    return classed("section", "whole" if heading in WHOLE else "", content)


def page(title, body):
    return ('<!DOCTYPE html>\n<html lang="en" xmlns="http://www.w3.org/1999/xhtml">\n<head>\n<meta charset="utf-8"/>\n'
            "<title>%s</title>\n<style>%s</style>\n</head>\n<body>\n%s\n</body>\n</html>\n"
            % (escape(title), STYLE, body))


def classed(tag, kind, content):
    """An element of a class, if it has one; the content is HTML."""
    return "<%s%s>%s</%s>" % (tag, ' class="%s"' % kind if kind else "", content, tag)


def table_of(head, rows, kind="", words=()):
    """A table of rows, each with its class; the columns whose heads are among the words are aligned as words."""
    kinds = ["word" if name in words else "" for name in head]
    heads = "".join(classed("th", cell_kind, escape(name)) for name, cell_kind in zip(head, kinds))
    body = [classed("tr", row_kind, "".join(classed("td", cell_kind, escape(content))
                                            for content, cell_kind in zip(row, kinds))) for row_kind, row in rows]
    return classed("table", kind, "\n<thead><tr>%s</tr></thead>\n<tbody>\n%s\n</tbody>\n" % (heads, "\n".join(body)))


def fact_table(facts):
    """A table of names and what they stand for."""
    rows = ["<tr>%s%s</tr>" % (classed("th", "word", escape(name)), classed("td", "word", escape(value)))
            for name, value in facts]
    return "<table>\n<tbody>\n%s\n</tbody>\n</table>" % "\n".join(rows)


def claim_facts(shown):
    certificate, report = shown.certificate, shown.report
    facts = [("claim", certificate.claim), ("check says", shown.verdict), ("in words", claim_words(shown)),
             ("least multiple asked for", exact(certificate.least))]
    if report.cycle:
        limits = shown.junction.least_cycle, shown.junction.greatest_cycle
        facts += [("cycle", "%d s (limits %d to %d s)" % (report.cycle, *limits)),
                  ("multiplier", exact(report.multiplier)),
                  ("reserve", "%s per cent" % rounded(report.reserve, 1))]
    return facts + [("nodes of the proof", str(report.nodes)), ("budget", str(certificate.budget))]


def lane_table(shown):
    holding = shown.holding_lanes()
    rows = [("holding" if row[0] in holding else "", row) for row in lane_rows(shown)]
    return table_of(COLUMNS, rows, words=WORDS)


def matrix(shown):
    names = [group.name for group in shown.junction.groups]
    asked = shown.junction.intergreens()
    rows = [("", [name] + [intergreen_text(shown, asked, u, v) for v in range(len(names))])
            for u, name in enumerate(names)]
    return table_of([CORNER, *names], rows, "matrix", (CORNER,))


def intergreen_text(shown, asked, u, v):
    """Nothing where the groups don't conflict."""
    if (u, v) not in asked:
        return ""
    if shown.timetable is None:
        return str(asked[u, v])
    return "%d / %d" % (asked[u, v], shown.timetable.intergreen(u, v))


def stage_table(stages):
    rows = [("", [str(stage.number), str(stage.first), str(stage.seconds), " ".join(stage.groups)])
            for stage in stages]
    return table_of(["stage", "first second", "seconds", "groups"], rows, words=("groups",))


def link_table(junction):
    rows = [("", [junction.groups[link.leader].name, junction.groups[link.follower].name, str(link.after)])
            for link in junction.links]
    return table_of(["leader", "follower", "after (s)"], rows, words=("leader", "follower"))


def file_facts(shown, sums):
    return [("version of the junction file", str(shown.junction.version)),
            *(("SHA-256 of the %s" % name, value) for name, value in sums.items())]
