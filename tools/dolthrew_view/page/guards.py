"""Who is let in: the page itself, and no other page and no other user of the machine."""
import hmac
import secrets

from ..fault import Fault

TOKEN_BYTES = 32


class Refused(Fault):
    """A request that isn't answered, with the status that says why."""

    def __init__(self, status, line):
        super().__init__(line)
        self.status = status


class Guard:
    """Knows the one address of the page: its host, its port and its token."""

    def __init__(self, port):
        self.host = "127.0.0.1:%d" % port
        self.origin = "http://" + self.host
        self.token = secrets.token_urlsafe(TOKEN_BYTES)
        self.address = "%s/%s/" % (self.origin, self.token)

    def name(self, path):
        """What is asked for behind the token."""
        token, slash, name = path.removeprefix("/").partition("/")
        if not slash or not hmac.compare_digest(token.encode(), self.token.encode()):
            raise Refused(404, "the token in the address is missing or is another one")
        return name

    def see_sender(self, headers, is_post):
        """A page of another name that leads here has another Host; a page of elsewhere has another Origin."""
        if headers.get_all("Host") != [self.host]:
            raise Refused(403, "the host isn't this page's")
        origins = headers.get_all("Origin", [])
        if origins != [self.origin] and (is_post or origins):
            raise Refused(403, "the origin isn't this page")


def body_length(headers, limit):
    """The number of bytes that a request says it has."""
    lengths = headers.get_all("Content-Length", [])
    if headers.get("Transfer-Encoding") or len(lengths) != 1 or not is_count(lengths[0]):
        raise Refused(411, "the length of the body has to be said once, as a whole number")
    if int(lengths[0]) > limit:
        raise Refused(413, "the body is longer than its limit of %d bytes" % limit)
    return int(lengths[0])


def is_count(word):
    return word.isascii() and word.isdigit() and len(word) <= 12
