"""The few shapes of a drawing as SVG, and how each kind of them looks.

Kinds are told apart without colour: green is filled, amber is hatched, red-amber is crossed, red is a line.
"""
from xml.sax.saxutils import escape, quoteattr

from .lettering import width

# The size of each kind of text; the bold ones.
SIZES = {"title": 18, "strong": 12, "plain": 12, "name": 12, "walk-name": 12, "head": 10, "figure": 10.5,
         "holding": 10.5, "length": 10.5, "number": 9.5, "small-number": 9, "note": 9.5}
BOLD_KINDS = {"title", "strong", "walk-name", "holding"}

STYLE = """
.dolthrew text { font-family: Helvetica, Arial, 'Liberation Sans', 'DejaVu Sans', sans-serif; fill: #111; }
.dolthrew .head, .dolthrew .note { fill: #444; }
.dolthrew .walk-name { fill: #1b2f7a; }
.dolthrew .number, .dolthrew .small-number { stroke: #fff; stroke-width: 2.5px; paint-order: stroke; }
.dolthrew .length { stroke: #a5d9a8; stroke-width: 2.5px; paint-order: stroke; }
.dolthrew .small-number { fill: #444; }
.dolthrew .paper { fill: #fff; }
.dolthrew .rule { stroke: #d5d5d5; stroke-width: 1; }
.dolthrew .grid { stroke: #e4e4e4; stroke-width: 1; }
.dolthrew .axis { stroke: #555; stroke-width: 1; }
.dolthrew .leader { stroke: #777; stroke-width: 0.7; }
.dolthrew .green { fill: #a5d9a8; stroke: #1e5b2a; stroke-width: 1; }
.dolthrew .amber { fill: url(#dolthrew-amber); stroke: #7a5200; stroke-width: 0.8; }
.dolthrew .red_amber { fill: url(#dolthrew-red-amber); stroke: #7d1f0e; stroke-width: 0.8; }
.dolthrew .red { stroke: #b3261e; stroke-width: 2; }
.dolthrew .stage { fill: #f1f1f1; stroke: #555; stroke-width: 0.8; }
.dolthrew .degree { fill: #b5c9e2; stroke: #35507a; stroke-width: 0.8; }
.dolthrew .holding-degree { fill: url(#dolthrew-holding); stroke: #8a3b00; stroke-width: 0.8; }
.dolthrew .scale { fill: none; stroke: #aaa; stroke-width: 0.7; }
.dolthrew .limit { stroke: #111; stroke-width: 1.6; }
.dolthrew .diamond { fill: #b34700; }
.dolthrew .halo { stroke: #fff; stroke-width: 4.5; fill: none; opacity: 0.85; }
.dolthrew .walk { stroke: #1b2f7a; stroke-width: 1.8; fill: none; }
.dolthrew .walk-head { fill: #1b2f7a; }
.dolthrew .walk-frame { stroke: #1b2f7a; stroke-width: 1.8; fill: none; stroke-dasharray: 5 3; }
.dolthrew .intergreen { fill: url(#dolthrew-intergreen); stroke: #555; stroke-width: 0.8; }
.dolthrew .too-much { fill: url(#dolthrew-holding); stroke: #8a3b00; stroke-width: 1; }
.dolthrew .link { fill: #fff; stroke: #1b2f7a; stroke-width: 1; stroke-dasharray: 3 2; }
"""

PATTERNS = """
<pattern id="dolthrew-amber" width="5" height="5" patternUnits="userSpaceOnUse" patternTransform="rotate(45)">
<rect width="5" height="5" fill="#ffe08a"/><rect width="1.6" height="5" fill="#a86f00"/></pattern>
<pattern id="dolthrew-red-amber" width="4" height="4" patternUnits="userSpaceOnUse">
<rect width="4" height="4" fill="#ffc9bb"/><path d="M0 0L4 4M4 0L0 4" stroke="#a32c14" stroke-width="0.9"/></pattern>
<pattern id="dolthrew-holding" width="6" height="6" patternUnits="userSpaceOnUse" patternTransform="rotate(45)">
<rect width="6" height="6" fill="#ffb566"/><rect width="1.5" height="6" fill="#a34a00"/></pattern>
<pattern id="dolthrew-intergreen" width="4" height="4" patternUnits="userSpaceOnUse">
<rect width="4" height="4" fill="#fff"/><circle cx="2" cy="2" r="0.8" fill="#666"/></pattern>
"""


def size_of(kind):
    return SIZES[kind]


def width_of(kind, content):
    """A text of this kind is at most so wide."""
    return width(content, size_of(kind), kind in BOLD_KINDS)


def place(value):
    """A coordinate with two decimals at most."""
    return ("%.2f" % value).rstrip("0").rstrip(".")


def element(name, content=None, **attributes):
    head = "".join(" %s=%s" % (key.replace("_", "-"), quoteattr(value if isinstance(value, str) else place(value)))
                   for key, value in attributes.items())
    return "<%s%s/>" % (name, head) if content is None else "<%s%s>%s</%s>" % (name, head, content, name)


def rectangle(kind, x, y, width, height):
    return element("rect", x=x, y=y, width=width, height=height, **{"class": kind})


def line(kind, x1, y1, x2, y2):
    return element("line", x1=x1, y1=y1, x2=x2, y2=y2, **{"class": kind})


def polygon(kind, points):
    return element("polygon", points=" ".join("%s,%s" % (place(x), place(y)) for x, y in points), **{"class": kind})


def lettering(kind, x, y, content, anchor="start"):
    weight = {"font_weight": "bold"} if kind in BOLD_KINDS else {}
    return element("text", escape(content), x=x, y=y, font_size=size_of(kind), text_anchor=anchor, **weight,
                   **{"class": kind})


def document(width, height, title, description, shapes):
    """A whole SVG document; title and description are for those who don't see it."""
    head = element("title", escape(title)) + element("desc", escape(description))
    style = element("style", STYLE) + element("defs", PATTERNS)
    box = "0 0 %s %s" % (place(width), place(height))
    paper = rectangle("paper", 0, 0, width, height)
    return element("svg", "\n".join([head, style, paper, *shapes]) + "\n", xmlns="http://www.w3.org/2000/svg",
                   viewBox=box, width=width, height=height, role="img", **{"class": "dolthrew"}) + "\n"
