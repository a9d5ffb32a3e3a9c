"""The server of the page: whom it lets in, what it refuses, and that it leaves nothing behind."""
import os
import socket
import threading
import unittest
from unittest import mock

from dolthrew_view.file_contents import LONGEST_CERTIFICATE, LONGEST_JUNCTION
from dolthrew_view.page.asks import KINDS, Kind
from dolthrew_view.page.runs import CLOSED
from dolthrew_view.page.server import HEADERS, MOST_REQUESTS, OWN_FILES, Handler

from .chromium import wait_until
from .pages import TAB, ServedPage


class PageCase(unittest.TestCase):
    most = 2

    def setUp(self):
        self.page = ServedPage(self.most)
        self.addCleanup(self.page.close)

    def path(self, name=""):
        return "/%s/%s" % (self.page.server.guard.token, name)

    def see_nothing_left(self):
        wait_until(lambda: not self.page.left())

    def begin(self, tab, answers):
        """A run that waits until it is ended, once it has begun."""
        before = len(self.page.server.runs.by_tab)
        thread = threading.Thread(target=lambda: answers.append(self.page.ask("judge", {"tab": tab}, b"sleep")))
        thread.start()
        self.addCleanup(thread.join)
        wait_until(lambda: len(self.page.server.runs.by_tab) > before)
        return thread


class Doors(PageCase):
    def test_the_page_and_its_files_are_sent_with_their_policy(self):
        for name in OWN_FILES:
            status, content = self.page.request("GET", self.path(name), headers={"Origin": None})
            self.assertEqual((status, content), (200, OWN_FILES[name].read_bytes()))

    def test_every_answer_has_the_policy(self):
        for path in (self.path(), self.path("nothing"), "/"):
            connection = self.page.connection()
            self.addCleanup(connection.close)
            connection.request("GET", path)
            answer = connection.getresponse()
            answer.read()
            for name, value in HEADERS.items():
                self.assertEqual(answer.getheader(name), value)

    def test_the_server_is_of_this_machine_alone(self):
        self.assertEqual(self.page.server.server_address[0], "127.0.0.1")

    def test_without_the_token_nothing_is_told(self):
        wrong = "A" * len(self.page.server.guard.token)
        for path in ("/", "/page.js", "/%s/" % wrong, "/%s/state" % wrong, self.path()[:-1]):
            self.assertEqual(self.page.request("GET", path, headers={"Origin": None})[0], 404, path)
        self.assertEqual(self.page.request("POST", "/%s/tables" % wrong, b"")[0], 404)

    def test_two_servers_have_two_tokens(self):
        other = ServedPage()
        self.addCleanup(other.close)
        self.assertNotEqual(self.page.server.guard.token, other.server.guard.token)
        self.assertGreaterEqual(len(self.page.server.guard.token), 43)

    def test_a_host_of_another_name_is_refused(self):
        port = self.page.server.server_port
        for host in ("evil.example:%d" % port, "localhost:%d" % port, "127.0.0.1", "", None):
            headers = {"Host": host, "Origin": None}
            self.assertEqual(self.page.request("GET", self.path(), headers=headers)[0], 403, host)
            self.assertEqual(self.page.ask("tables", body=b"", headers={"Host": host})[0], 403, host)

    def test_a_foreign_origin_is_refused(self):
        for origin in ("http://evil.example", "null", "https://" + self.page.server.guard.host, ""):
            self.assertEqual(self.page.ask("tables", body=b"", headers={"Origin": origin})[0], 403, origin)
            status, _ = self.page.request("GET", self.path("examples"), headers={"Origin": origin})
            self.assertEqual(status, 403, origin)

    def test_a_question_without_an_origin_is_refused(self):
        self.assertEqual(self.page.ask("tables", body=b"", headers={"Origin": None})[0], 403)

    def test_a_path_in_a_name_leads_nowhere(self):
        for name in ("../server.py", "..%2fserver.py", "%2e%2e/server.py", "/etc/passwd", "page.html", "./page.js",
                     "page.js/", "examples/../page.js", "examples/crossroads.toml"):
            self.assertEqual(self.page.request("GET", self.path(name), headers={"Origin": None})[0], 404, name)
            self.assertEqual(self.page.ask(name)[0], 404, name)

    def test_words_of_another_form_are_refused(self):
        right = {"command": "capacity", "least": "1/1", "budget": "1"}
        for words in ({"tab": "../../tmp"}, {"tab": "0"}, {"command": "check"}, {"command": "capacity --budget"}):
            self.assertEqual(self.page.ask("design", {**right, **words})[0], 400, words)
        for query in ("tab=%s&tab=%s" % (TAB, TAB), "&".join("w%d=1" % number for number in range(40)), "tab", "%"):
            self.assertEqual(self.page.request("POST", self.path("end?" + query), b"")[0], 400, query)
        for words in ({"seconds": "0"}, {"seconds": "3601"}, {"seconds": "-1"}, {"least": "--budget"}, {"least": "1/0"},
                      {"least": ""}, {"budget": "-1"}, {"budget": "/tmp/x"}):
            status, answer = self.page.ask("design", {**right, **words})
            self.assertEqual((status, list(answer)), (200, ["refusal"]), words)
        self.assertEqual(self.page.left(), [])

    def test_other_methods_are_refused(self):
        for method in ("PUT", "DELETE", "OPTIONS", "HEAD", "TRACE"):
            self.assertEqual(self.page.request(method, self.path())[0], 501, method)

    def test_who_does_not_send_a_whole_head_loses_the_connection(self):
        with mock.patch("dolthrew_view.page.server.QUIET_SECONDS", 0.2):
            with socket.create_connection(self.page.server.server_address, timeout=120) as sender:
                sender.sendall(b"GET / HTTP/1.1\r\nHost: ")
                self.assertEqual(sender.recv(1), b"")

    def test_a_body_that_stands_still_ends_the_connection(self):
        with mock.patch.object(Handler, "timeout", 0.2):
            with socket.create_connection(self.page.server.server_address, timeout=120) as sender:
                head = "POST %s HTTP/1.1\r\nHost: %s\r\nOrigin: %s\r\nContent-Length: 9\r\n\r\n"
                guard = self.page.server.guard
                sender.sendall((head % (self.path("tables"), guard.host, guard.origin)).encode() + b"name")
                self.assertEqual(sender.recv(1), b"")


class HalfHeads(PageCase):
    """They are never ended for their time here."""

    def setUp(self):
        for patch in (mock.patch("dolthrew_view.page.server.QUIET_SECONDS", 3600),
                      mock.patch.object(Handler, "timeout", 3600)):
            patch.start()
            self.addCleanup(patch.stop)
        super().setUp()

    def half_head(self):
        sender = socket.create_connection(self.page.server.server_address, timeout=120)
        self.addCleanup(sender.close)
        sender.sendall(b"GET / HTTP/1.1\r\nHost: ")
        return sender

    def test_more_of_them_than_there_are_places_hold_nobody_up(self):
        for _ in range(2 * MOST_REQUESTS):
            self.half_head()
        self.assertEqual(self.page.ask("judge", body=b"#"), (200, {}))

    def test_the_oldest_of_too_many_is_closed(self):
        connections = self.page.server.connections
        first, *others = [self.half_head() for _ in range(connections.most)]
        wait_until(lambda: connections.count == connections.most)
        self.assertEqual(self.page.ask("judge", body=b"#"), (200, {}))
        self.assertEqual(first.recv(1), b"")
        wait_until(lambda: connections.count == len(others) == len(connections.headless))


class Bugs(PageCase):
    def test_one_is_told_and_the_page_goes_on(self):
        failing = mock.patch.dict(KINDS, tables=Kind(lambda ask: {}["no\nsuch key"]))
        with failing:
            status, answer = self.page.ask("tables")
        self.assertEqual(status, 500)
        self.assertEqual(answer, {"refusal": "the page itself failed: KeyError('no\\nsuch key')"})
        self.assertEqual(self.page.ask("tables")[0], 200)


class Bodies(PageCase):
    def test_a_junction_of_its_limit_is_read_and_a_longer_one_refused(self):
        self.assertEqual(self.page.ask("judge", body=b"#" * LONGEST_JUNCTION), (200, {}))
        status, answer = self.page.ask("judge", body=b"#" * (LONGEST_JUNCTION + 1))
        self.assertEqual(status, 413)
        self.assertIn(str(LONGEST_JUNCTION), answer["refusal"])

    def test_a_length_that_is_said_too_great_is_refused_before_it_comes(self):
        for name, longest in (("tables", LONGEST_JUNCTION), ("check", LONGEST_JUNCTION + LONGEST_CERTIFICATE)):
            self.assertEqual(self.page.ask(name, headers={"Content-Length": str(longest + 1)})[0], 413)

    def test_the_browser_has_the_same_limits(self):
        script = OWN_FILES["files.js"].read_text()
        for name, longest in (("JUNCTION", LONGEST_JUNCTION), ("CERTIFICATE", LONGEST_CERTIFICATE)):
            self.assertIn("export const LONGEST_%s = %d;\n" % (name, longest), script)

    def test_a_certificate_has_its_own_limit(self):
        junction = b"# a junction"
        words = {"junction": len(junction)}
        self.assertEqual(self.page.ask("check", words, junction + b" " * LONGEST_CERTIFICATE)[0], 200)
        status, answer = self.page.ask("check", words, junction + b" " * (LONGEST_CERTIFICATE + 1))
        self.assertEqual(status, 413)
        self.assertIn(str(LONGEST_CERTIFICATE), answer["refusal"])

    def test_a_length_has_to_be_said_once(self):
        for length in ("x", "-1", "+1", "1e3", "9" * 13):
            self.assertEqual(self.page.ask("tables", headers={"Content-Length": length})[0], 411, length)
        self.assertEqual(self.page.ask("tables", headers={"Transfer-Encoding": "chunked"})[0], 411)

    def test_a_body_that_ends_too_soon_is_refused(self):
        self.assertEqual(self.short_body(b"version"), 400)

    def short_body(self, body):
        connection = self.page.connection()
        self.addCleanup(connection.close)
        connection.putrequest("POST", self.path("tables"))
        connection.putheader("Origin", self.page.server.guard.origin)
        connection.putheader("Content-Length", str(len(body) + 1))
        connection.endheaders(body)
        connection.sock.shutdown(socket.SHUT_WR)
        return connection.getresponse().status

    def test_lists_that_nest_deep_are_a_fault_and_no_end(self):
        deep = b"x = " + 20000 * b"[" + 20000 * b"]"
        self.assertIn("unreadable", self.page.ask("tables", body=deep)[1])
        for name, words in (("edit", {"edit": "add", "part": "group"}), ("order", {})):
            status, answer = self.page.ask(name, words, deep)
            self.assertEqual((status, list(answer)), (200, ["refusal"]))

    def test_numbers_of_too_many_digits_are_a_fault_and_no_end(self):
        for number in ("9" * 5000, "0x" + "f" * 5000):
            text = b"version = %s\ngroup = []\nlane = []\nconflict = []\n" % number.encode()
            self.assertIn("unreadable", self.page.ask("tables", body=text)[1])
            self.assertEqual(list(self.page.ask("order", body=text)[1]), ["refusal"])

    def test_no_groups_have_no_order(self):
        text = 'version = 1\nname = "x"\nleast_cycle = 1\ngreatest_cycle = 2\ngroup = []\nlane = []\nconflict = []\n'
        status, answer = self.page.ask("order", body=text.encode())
        self.assertEqual((status, list(answer)), (200, ["refusal"]))

    def test_a_junction_that_is_not_utf_8_is_refused(self):
        self.assertEqual(self.page.ask("tables", body=b"\xff")[0], 400)


class Running(PageCase):
    def test_a_run_leaves_nothing_behind(self):
        self.assertEqual(self.page.ask("judge", body=b"#"), (200, {}))
        self.assertEqual(self.page.left(), [])

    def test_a_run_that_is_ended_answers_so_and_its_process_is_gone(self):
        answers = []
        thread = self.begin(TAB, answers)
        run = self.page.server.runs.by_tab[TAB]
        wait_until(lambda: run.process is not None)
        self.assertEqual(self.page.ask("end"), (200, {"ended": True}))
        thread.join()
        self.assertEqual(answers, [(200, {"ended": "the run was ended"})])
        self.assertRaises(ProcessLookupError, os.killpg, run.process.pid, 0)
        self.see_nothing_left()
        self.assertEqual(self.page.ask("end"), (200, {"ended": False}))

    def test_a_run_ends_at_its_time_limit(self):
        status, answer = self.page.ask("judge", {"seconds": "1"}, b"sleep")
        self.assertEqual((status, answer), (200, {"ended": "the time limit of 1 seconds was reached"}))
        self.see_nothing_left()

    def test_a_run_ends_when_its_sender_leaves(self):
        connection = self.page.connection()
        connection.request("POST", self.path("judge?tab=%s&seconds=3600" % TAB), b"sleep",
                           {"Origin": self.page.server.guard.origin})
        wait_until(lambda: TAB in self.page.server.runs.by_tab)
        connection.close()
        wait_until(lambda: not self.page.server.runs.by_tab)
        self.see_nothing_left()

    def test_a_tab_has_one_run_at_a_time(self):
        self.begin(TAB, [])
        status, answer = self.page.ask("judge", body=b"#")
        self.assertEqual((status, answer["refusal"]), (503, "this tab has a run under way"))
        self.page.ask("end")

    def test_there_are_no_more_runs_than_processors(self):
        tabs = ["%032x" % number for number in range(1, 3)]
        for tab in tabs:
            self.begin(tab, [])
        status, answer = self.page.ask("judge", body=b"#")
        self.assertEqual(status, 503)
        self.assertIn("as many as there are processors", answer["refusal"])
        for tab in tabs:
            self.page.ask("end", {"tab": tab})
        wait_until(lambda: not self.page.server.runs.by_tab)
        self.assertEqual(self.page.ask("judge", body=b"#"), (200, {}))

    def test_the_end_of_the_page_ends_all_runs_and_lets_none_begin(self):
        answers = []
        threads = [self.begin("%032x" % number, answers) for number in range(1, 3)]
        self.page.server.runs.end_all()
        for thread in threads:
            thread.join()
        self.assertEqual(answers, 2 * [(200, {"ended": CLOSED})])
        self.assertEqual(self.page.ask("judge", body=b"#")[0], 503)
        self.see_nothing_left()


class Crowd(PageCase):
    most = 3

    def test_of_200_requests_at_once_each_is_answered_or_refused(self):
        most_seen, answers = [0], []
        runs, start = self.page.server.runs, threading.Barrier(200)

        def send(number):
            start.wait()
            answers.append(self.page.ask("judge", {"tab": "%032x" % number}, b"#"))
            most_seen[0] = max(most_seen[0], len(runs.by_tab))

        threads = [threading.Thread(target=send, args=[number]) for number in range(200)]
        for thread in threads:
            thread.start()
        for thread in threads:
            thread.join()
        self.assertEqual(len(answers), 200)
        self.assertLessEqual({status for status, _ in answers}, {200, 503})
        self.assertIn((200, {}), answers)
        self.assertLessEqual(most_seen[0], 3)
        self.see_nothing_left()
        self.assertEqual(self.page.ask("judge", body=b"#"), (200, {}))


if __name__ == "__main__":
    unittest.main()
