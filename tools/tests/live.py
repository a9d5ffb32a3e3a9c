"""The program itself, for tests that are skipped where it isn't built and fresh."""
import os
import unittest

from dolthrew_view.fault import Fault
from dolthrew_view.program import Program

# With this variable the launcher doesn't build, and ends with a line where it would have to.
NO_BUILD = "DOLTHREW_NO_BUILD"


def program():
    """The program, or a skipped test."""
    os.environ[NO_BUILD] = "1"
    found = Program()
    try:
        found.answer([])
    except Fault as fault:
        raise unittest.SkipTest("the program isn't built and fresh: %s" % fault) from None
    return found
