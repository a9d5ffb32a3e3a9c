"""The server of the page: on 127.0.0.1 alone, for who has the address with its token. It keeps nothing of what it is
sent but for the time of a run."""
import json
import select
import socket
import sys
import threading
from http.server import BaseHTTPRequestHandler, ThreadingHTTPServer
from pathlib import Path
from urllib.parse import parse_qsl

from ..fault import Fault
from .asks import KINDS, Ask, seconds_of, tab_of
from .connections import Connections, close_quietly
from .examples import examples
from .guards import Guard, Refused, body_length
from .runs import Busy, LimitedProgram, RunEnded, Runs

FOLDER = Path(__file__).resolve().parent

FORMS = {
    ".html": "text/html; charset=utf-8",
    ".css": "text/css; charset=utf-8",
    ".js": "text/javascript; charset=utf-8",
}

# The page's own files, by their address; no other file is ever read for a request.
OWN_FILES = {("" if path.name == "page.html" else path.name): path
             for path in sorted(FOLDER.iterdir()) if path.suffix in FORMS}

# Nothing but this page's own files, nothing of elsewhere, and in no frame.
HEADERS = {
    "Content-Security-Policy": "default-src 'none'; script-src 'self'; style-src 'self'; connect-src 'self'; "
                               "img-src data:; base-uri 'none'; form-action 'none'; frame-ancestors 'none'",
    "Cross-Origin-Opener-Policy": "same-origin",
    "Cross-Origin-Resource-Policy": "same-origin",
    "Referrer-Policy": "no-referrer",
    "X-Content-Type-Options": "nosniff",
    "Cache-Control": "no-store",
}

# Requests that are answered at the same time, and connections that are open, beside the runs.
MOST_REQUESTS = 32
MOST_CONNECTIONS = 256
WAITING_REQUESTS = 256
QUIET_SECONDS = 20
DISCARDED_BYTES = 8388608
MOST_WORDS = 16

# Of the words of an error that isn't foreseen.
LONGEST_ERROR = 200


class PageServer(ThreadingHTTPServer):
    """Answers a bounded number of requests at once; those beyond wait for a free place. Who isn't let in takes none."""
    daemon_threads = True
    request_queue_size = WAITING_REQUESTS

    def __init__(self, build, port=0, runs=None, program=LimitedProgram):
        super().__init__(("127.0.0.1", port), Handler)
        self.build = build
        self.program = program
        self.runs = runs or Runs()
        self.guard = Guard(self.server_port)
        self.places = threading.BoundedSemaphore(MOST_REQUESTS + self.runs.most)
        self.connections = Connections(MOST_CONNECTIONS + self.runs.most)

    def process_request(self, request, client_address):
        self.connections.add(request)
        try:
            super().process_request(request, client_address)
        except BaseException:
            self.connections.remove(request)
            raise

    def process_request_thread(self, request, client_address):
        try:
            super().process_request_thread(request, client_address)
        finally:
            self.connections.remove(request)

    def handle_error(self, request, client_address):
        """A sender that goes away in the middle is no fault of the page."""
        if not isinstance(sys.exception(), OSError):
            super().handle_error(request, client_address)


class Handler(BaseHTTPRequestHandler):
    timeout = QUIET_SECONDS
    server_version = "dolthrew-view"
    sys_version = ""

    def setup(self):
        """Who doesn't send the head of a request within the time loses the connection."""
        super().setup()
        self.deadline = threading.Timer(QUIET_SECONDS, close_quietly, [self.connection])
        self.deadline.daemon = True
        self.deadline.start()

    def finish(self):
        self.deadline.cancel()
        super().finish()

    def log_message(self, *_):
        """Nothing is logged: addresses have the token in them."""

    def do_GET(self):
        self.answer_with(self.get, is_post=False)

    def do_POST(self):
        self.answer_with(self.post, is_post=True)

    def answer_with(self, answer, is_post):
        """The answer, or the one line that says why there is none: with a status of its own where the request isn't
        taken as a question of the page."""
        self.deadline.cancel()
        self.server.connections.hear(self.connection)
        try:
            self.server.guard.see_sender(self.headers, is_post)
            path, _, query = self.path.partition("?")
            name = self.server.guard.name(path)
            with self.server.places:
                answer(name, query)
        except Refused as fault:
            self.send_json(fault.status, {"refusal": str(fault)})
        except Busy as fault:
            self.send_json(503, {"refusal": str(fault)})
        except RunEnded as fault:
            self.send_json(200, {"ended": str(fault)})
        except Fault as fault:
            self.send_json(200, {"refusal": str(fault)})
        except (ConnectionError, TimeoutError):
            # The sender is gone, or stands still.
            raise
        except Exception as error:
            # A bug, which isn't to look like a server that was ended.
            self.send_json(500, {"refusal": ("the page itself failed: %r" % error)[:LONGEST_ERROR]})

    def get(self, name, _):
        if name in OWN_FILES:
            self.send_bytes(200, FORMS[OWN_FILES[name].suffix], OWN_FILES[name].read_bytes())
        elif name == "state":
            self.send_json(200, self.server.build.state())
        elif name == "examples":
            self.send_json(200, examples())
        else:
            raise Refused(404, "nothing stands at this address")

    def post(self, name, query):
        if name == "end":
            ask = self.read_ask(query, 0)
            self.send_json(200, {"ended": self.server.runs.end(tab_of(ask))})
            return
        if name not in KINDS:
            raise Refused(404, "nothing stands at this address")
        kind = KINDS[name]
        ask = self.read_ask(query, kind.limit)
        self.send_json(200, self.run_answer(kind, ask) if kind.is_run else kind.answer(ask))

    def read_ask(self, query, limit):
        try:
            length = body_length(self.headers, limit)
        except Refused:
            self.discard()
            raise
        body = self.rfile.read(length)
        if len(body) < length:
            raise Refused(400, "the body is shorter than it was said to be")
        return Ask(words_of(query), body)

    def discard(self):
        """Takes some of a body that is refused, so that its sender reads why."""
        left = DISCARDED_BYTES
        self.connection.settimeout(1)
        try:
            while left > 0 and (read := len(self.rfile.read1(65536))):
                left -= read
        except OSError:
            pass

    def run_answer(self, kind, ask):
        self.server.build.see_that_it_is_done()
        with self.server.runs.run(tab_of(ask), seconds_of(ask)) as run:
            threading.Thread(target=end_when_left, args=[run, self.connection], daemon=True).start()
            return kind.answer(ask, self.server.program(run))

    def send_json(self, status, answer):
        self.send_bytes(status, "application/json", json.dumps(answer).encode())

    def send_bytes(self, status, form, content):
        self.send_response(status)
        for name, value in {**HEADERS, "Content-Type": form, "Content-Length": str(len(content))}.items():
            self.send_header(name, value)
        self.end_headers()
        self.wfile.write(content)


def words_of(query):
    """The words of an address by name."""
    try:
        words = parse_qsl(query, keep_blank_values=True, strict_parsing=True, max_num_fields=MOST_WORDS)
    except ValueError:
        words = []
    if len(dict(words)) != len(words):
        raise Refused(400, "a word is said twice")
    return dict(words)


def end_when_left(run, connection):
    """Ends a run whose sender is gone, as a tab that was closed."""
    while not run.is_over.wait(0.2):
        try:
            readable, _, _ = select.select([connection], [], [], 0)
            if readable:
                if not connection.recv(1, socket.MSG_PEEK):
                    run.end("the page was left")
                return
        except (OSError, ValueError):
            return
