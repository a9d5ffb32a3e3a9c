"""The first build, as the page tells of it: with scripts that stand for the launcher."""
import io
import tempfile
import unittest
from pathlib import Path

from dolthrew_view.page.build import Build, NotBuilt


class BuildCase(unittest.TestCase):
    def setUp(self):
        kept = tempfile.TemporaryDirectory()
        self.addCleanup(kept.cleanup)
        self.folder = Path(kept.name)
        self.errors = io.StringIO()

    def build(self, *lines):
        launcher = self.folder / "dolthrew"
        launcher.write_text("\n".join(["#!/usr/bin/env bash", *lines, ""]))
        launcher.chmod(0o755)
        found = Build(launcher, self.errors)
        self.addCleanup(found.end)
        return found

    def test_each_line_is_passed_on_and_the_launchers_last_one_kept(self):
        lines = ["dolthrew: 1 of 2 crates: sig_base", "dolthrew: 2 of 2 crates: dolthrew", "sed: another's line"]
        build = self.build(*('echo "%s" >&2' % line for line in lines), "exit 4")
        build.reader.join()
        self.assertEqual(self.errors.getvalue().splitlines(), lines)
        self.assertEqual(build.state()["line"], "2 of 2 crates: dolthrew")

    def test_a_program_that_stands_built_is_done_at_once(self):
        build = self.build("echo bad words", "exit 4")
        build.reader.join()
        build.see_that_it_is_done()
        self.assertEqual((build.state()["built"], build.state()["failed"]), (True, False))

    def test_what_is_told_last_is_kept_where_it_fails(self):
        build = self.build("echo 'dolthrew: building' >&2", "echo \"dolthrew: rt isn't on the PATH\" >&2", "exit 70")
        build.reader.join()
        self.assertEqual(build.state(), {"built": False, "failed": True, "line": "rt isn't on the PATH"})
        with self.assertRaisesRegex(NotBuilt, "rt isn't on the PATH"):
            build.see_that_it_is_done()

    def test_another_status_is_told(self):
        build = self.build("exit 9")
        build.reader.join()
        self.assertEqual(build.state()["line"], "the launcher ended with status 9")

    def test_a_build_under_way_is_ended(self):
        build = self.build("exec sleep 3600")
        self.assertFalse(build.state()["built"] or build.state()["failed"])
        build.end()
        self.assertEqual(build.process.returncode, -15)
        self.assertTrue(build.state()["failed"])


if __name__ == "__main__":
    unittest.main()
