"""A server of the page for tests, on a free port, with a launcher that stands for the program."""
import http.client
import json
import os
import shutil
import tempfile
import threading
from pathlib import Path
from urllib.parse import urlencode

from dolthrew_view.page.runs import LimitedProgram, Runs
from dolthrew_view.page.server import PageServer

TAB = "0" * 32

# It judges each junction as right, but one that says `sleep` makes it wait until it is ended. It is one process.
STAND_IN = """#!/usr/bin/env bash
read -r -d "" text <junction.toml
if [[ $text == *sleep* ]]; then exec sleep 3600; fi
echo "bad certificate 1 not_json"
exit 6
"""


def long_junction():
    """Sixteen groups in a ring, each in conflict with all but its neighbours, so that a search of it is long."""
    names = ["G%d" % number for number in range(16)]
    groups = "".join('[[group]]\nname = "%s"\nmin_green = 5\namber = 3\nred_amber = 2\nstart_lost = 2\nend_gain = 1\n' % name
                     for name in names)
    lanes = "".join('[[lane]]\nname = "%s"\ngroup = "%s"\narrival = 50\nsaturation = 1800\n' % (name, name) for name in names)
    conflicts = "".join('[[conflict]]\na = "%s"\nb = "%s"\na_to_b = 5\nb_to_a = 6\n' % (names[a], names[b])
                        for a in range(16) for b in range(a + 2, 16) if b - a != 15)
    return 'version = 1\nname = "ring"\nleast_cycle = 60\ngreatest_cycle = 300\n' + groups + lanes + conflicts


class DoneBuild:
    """The build of a program that stands built."""

    def state(self):
        return {"built": True, "failed": False, "line": ""}

    def see_that_it_is_done(self):
        pass


class ServedPage:
    """The server in a thread, and a folder for all temporary files of the process."""

    def __init__(self, most=2, launcher=None):
        self.folder = Path(tempfile.mkdtemp(prefix="dolthrew-test-"))
        self.temporary = self.folder / "temporary"
        self.temporary.mkdir()
        tempfile.tempdir = str(self.temporary)
        self.launcher = launcher or self.stand_in()
        self.server = PageServer(DoneBuild(), runs=Runs(most), program=self.program)
        self.thread = threading.Thread(target=self.server.serve_forever, kwargs={"poll_interval": 0.05})
        self.thread.start()

    def stand_in(self):
        path = self.folder / "dolthrew"
        path.write_text(STAND_IN)
        path.chmod(0o755)
        return path

    def program(self, run):
        return LimitedProgram(run, launcher=self.launcher)

    @property
    def address(self):
        return self.server.guard.address

    def close(self):
        self.server.runs.end_all()
        self.server.shutdown()
        self.thread.join()
        self.server.server_close()
        tempfile.tempdir = None
        shutil.rmtree(self.folder)

    def left(self):
        """What stands in the folder for temporary files."""
        return sorted(os.listdir(self.temporary))

    def connection(self):
        return http.client.HTTPConnection("127.0.0.1", self.server.server_port, timeout=120)

    def request(self, method, path, body=None, headers=()):
        """Status and answer of a request, sent as the page does it but for the headers that are given; one of None is
        left out."""
        sent = {"Host": self.server.guard.host, "Origin": self.server.guard.origin, **dict(headers)}
        connection = self.connection()
        try:
            connection.putrequest(method, path, skip_host=True)
            for name, value in sent.items():
                if value is not None:
                    connection.putheader(name, value)
            if body is not None and "Content-Length" not in sent:
                connection.putheader("Content-Length", str(len(body)))
            connection.endheaders(body)
            answer = connection.getresponse()
            return answer.status, answer.read()
        finally:
            connection.close()

    def ask(self, name, words=(), body=b"", headers=()):
        """Status and JSON of a question of the page."""
        query = urlencode({"tab": TAB, "seconds": "60", **dict(words)})
        status, content = self.request("POST", "/%s/%s?%s" % (self.server.guard.token, name, query), body, headers)
        return status, json.loads(content)
