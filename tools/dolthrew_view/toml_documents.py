"""TOML as Python's reader reads it: TOML 1.0. The program reads some more, which no tool follows."""
import tomllib

from .fault import Fault

# What some editors begin a file with; the program passes over it.
BYTE_ORDER_MARK = "\ufeff"


def without_mark(text):
    return text.removeprefix(BYTE_ORDER_MARK)


def document_of(text):
    """What a text says. Whatever keeps Python's reader from that is a TOMLDecodeError."""
    try:
        return tomllib.loads(without_mark(text))
    except RecursionError:
        raise tomllib.TOMLDecodeError("its lists nest too deep") from None
    except ValueError as error:
        raise tomllib.TOMLDecodeError(str(error)) from None


def read_document(content, name):
    """What the bytes of a file say; the name is for the line of a fault."""
    try:
        return document_of(content.decode("utf-8"))
    except ValueError as error:
        raise Fault("%s: no TOML 1.0, and the tools read no other: %s" % (name, error)) from None
