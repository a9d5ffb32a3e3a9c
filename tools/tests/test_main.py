"""The command line: one line and status 2 for every fault."""
import io
import subprocess
import sys
import unittest

from dolthrew_view import main
from dolthrew_view.fault import Fault, Misuse

from .stored import ROOT


def run(words):
    """The status, what was printed, and what was said of faults."""
    out, errors = io.StringIO(), io.StringIO()
    return main.main(words, out, errors), out.getvalue(), errors.getvalue()


class MainTest(unittest.TestCase):
    def assert_refused(self, words, part):
        status, printed, said = run(words)
        self.assertEqual((status, printed), (main.FAILED, ""))
        self.assertRegex(said, r"\Adolthrew-view: [^\n]+\n\Z")
        self.assertIn(part, said)

    def test_words_that_name_no_tool(self):
        self.assert_refused([], "usage: dolthrew-view diagram JUNCTION CERT")
        self.assert_refused(["paint"], "usage: ")

    def test_words_that_are_no_form_of_a_tool(self):
        for words in (["diagram"], ["sheet", "a"], ["table", "a", "b", "c"], ["diagram", "a", "b", "--paper", "c"]):
            self.assert_refused(words, "usage: dolthrew-view %s JUNCTION CERT [--report FILE]" % words[0])

    def test_a_file_that_is_not_there(self):
        self.assert_refused(["diagram", "/nowhere/a.toml", "/nowhere/b.json"], "/nowhere/a.toml: No such file")

    def test_a_file_without_an_end(self):
        for words in (["table", "/dev/zero", "/dev/zero"], ["matrix", "/dev/zero"], ["order", "/dev/zero"],
                      ["sumo", "/dev/zero", "a", "b"]):
            self.assert_refused(words, "/dev/zero: it is longer than 1048576 bytes")

    def test_a_folder_in_place_of_a_file(self):
        self.assert_refused(["table", str(ROOT), str(ROOT)], "directory")

    def test_faults_of_a_tool(self):
        def tool(words, out):
            raise Misuse if words == ["misuse"] else Fault("two\x1b\nlines")
        commands = dict(main.COMMANDS)
        main.COMMANDS["tool"] = ("FORM", tool)
        self.addCleanup(lambda: (main.COMMANDS.clear(), main.COMMANDS.update(commands)))
        self.assert_refused(["tool"], "two? lines")
        self.assert_refused(["tool", "misuse"], "usage: dolthrew-view tool FORM")

    def test_nobody_reads_on(self):
        code = ("import sys; sys.argv = ['dolthrew-view', 'much']; sys.path.insert(0, %r)\n"
                "from dolthrew_view import main\n"
                "main.COMMANDS['much'] = ('', lambda words, out: out.write('x' * 10000000))\n"
                "sys.exit(main.main())" % str(ROOT / "tools"))
        words = [sys.executable, "-B", "-c", code]
        with subprocess.Popen(words, stdout=subprocess.PIPE, stderr=subprocess.PIPE) as process:
            process.stdout.read(1)
            process.stdout.close()
            said = process.stderr.read()
        self.assertEqual((process.returncode, said), (main.DONE, b""))


if __name__ == "__main__":
    unittest.main()
