"""Files that the words of a tool name, read no further than the program would read them."""
from .fault import Fault

LONGEST_JUNCTION = 1048576
LONGEST_CERTIFICATE = 33554432


def content_of(path, longest=LONGEST_JUNCTION):
    """The bytes of a file."""
    with open(path, "rb") as file:
        content = file.read(longest + 1)
    if len(content) > longest:
        raise Fault("%s: it is longer than %d bytes" % (path, longest))
    return content
