"""How wide texts are, and where they break. Widths are those of DejaVu Sans, a wide font, so that others fit too."""

NARROW = set("iljI.,:;'|! ()[]/-")
WIDE = set("mwMW@%+=<>")

# In parts of the font's size.
NARROW_WIDTH = 0.4
WIDE_WIDTH = 1.0
CAPITAL_WIDTH = 0.79
OTHER_WIDTH = 0.645
BOLD = 1.12


def width(text, size, is_bold):
    """At most so wide, in the unit of the size."""
    return sum(map(letter_width, text)) * size * (BOLD if is_bold else 1)


def letter_width(letter):
    if letter in NARROW:
        return NARROW_WIDTH
    if letter in WIDE:
        return WIDE_WIDTH
    return CAPITAL_WIDTH if letter.isupper() else OTHER_WIDTH


def wrapped(text, measure, space):
    """The lines of a text, each within the space by the measure; a word breaks that is too long for a line."""
    lines = [""]
    for word in text.split():
        longer = (lines[-1] + " " + word).lstrip()
        if measure(longer) <= space:
            lines[-1] = longer
            continue
        *whole, last = pieces_of(word, measure, space)
        lines += whole + [last]
    return [line for line in lines if line] or [""]


def pieces_of(word, measure, space):
    """The word, or its parts that fit each within the space."""
    pieces = [""]
    for letter in word:
        if pieces[-1] and measure(pieces[-1] + letter) > space:
            pieces.append("")
        pieces[-1] += letter
    return pieces


def spread(centres, widths, gap):
    """Places in the order of the centres, near them, at which texts of these widths keep the gap: the mean of pushing
    those that are too near to the right, and to the left."""
    steps = [(left + right) / 2 + gap for left, right in zip(widths, widths[1:])]
    to_right, to_left = centres[:1], centres[-1:]
    for centre, step in zip(centres[1:], steps):
        to_right.append(max(centre, to_right[-1] + step))
    for centre, step in zip(reversed(centres[:-1]), reversed(steps)):
        to_left.append(min(centre, to_left[-1] - step))
    return [(right + left) / 2 for right, left in zip(to_right, reversed(to_left))]
