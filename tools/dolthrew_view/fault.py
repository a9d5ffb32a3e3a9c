"""What ends a tool early."""


class Fault(Exception):
    """One line that names the cause."""


class Misuse(Exception):
    """The words after the command are none of its forms."""


def printable(text):
    """The text without what a terminal would obey."""
    return "".join(letter if letter.isprintable() else "?" for letter in text)
