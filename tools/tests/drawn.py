"""A diagram read back: its texts with the boxes that they take, and its shapes by kind."""
import xml.etree.ElementTree as ElementTree
from dataclasses import dataclass

from dolthrew_view.drawing import size_of, width_of

SVG = "{http://www.w3.org/2000/svg}"

# Of a font's size: how high letters stand above their line, and how far below.
ABOVE = 0.74
BELOW = 0.2


@dataclass(frozen=True)
class Text:
    kind: str
    content: str
    left: float
    top: float
    right: float
    bottom: float

    def overlaps(self, other):
        return (self.left < other.right and other.left < self.right
                and self.top < other.bottom and other.top < self.bottom)


def root_of(svg):
    return ElementTree.fromstring(svg)


def texts_of(svg):
    return [text_of(element) for element in root_of(svg).iter(SVG + "text")]


def text_of(element):
    kind, content = element.get("class"), element.text
    size, width = size_of(kind), width_of(kind, content)
    x, y = float(element.get("x")), float(element.get("y"))
    left = x - {"start": 0, "middle": width / 2, "end": width}[element.get("text-anchor")]
    return Text(kind, content, left, y - ABOVE * size, left + width, y + BELOW * size)


def overlaps_of(svg):
    """The pairs of texts that lie over each other."""
    texts = texts_of(svg)
    return [(a.content, b.content) for number, a in enumerate(texts) for b in texts[:number] if a.overlaps(b)]


def outside_of(svg):
    """The texts that don't lie within the picture."""
    root = root_of(svg)
    width, height = float(root.get("width")), float(root.get("height"))
    return [text.content for text in texts_of(svg)
            if text.left < 0 or text.top < 0 or text.right > width or text.bottom > height]


def rectangles_of(svg, kind):
    """(x, y, width, height) of each."""
    return [tuple(float(element.get(key)) for key in ("x", "y", "width", "height"))
            for element in root_of(svg).iter(SVG + "rect") if element.get("class") == kind]


def lines_of(svg, kind):
    """(x1, y1, x2, y2) of each."""
    return [tuple(float(element.get(key)) for key in ("x1", "y1", "x2", "y2"))
            for element in root_of(svg).iter(SVG + "line") if element.get("class") == kind]
