"""The pictures in examples/ are those that the tool draws, and the README beside them shows them."""
import unittest

from dolthrew_view.diagram import diagram

from .stored import PICTURES, shown


class ExamplesTest(unittest.TestCase):
    def test_each_picture_is_drawn_from_what_the_program_printed(self):
        for path, case in PICTURES.items():
            if shown(*case).timetable:
                self.assertEqual(path.read_text("utf-8"), diagram(shown(*case)), path)
            else:
                self.assertFalse(path.exists(), path)

    def test_the_readme_beside_each_picture_shows_it(self):
        for path in PICTURES:
            text = (path.parent / "README.md").read_text("utf-8")
            self.assertEqual("(%s)" % path.name in text, path.exists(), path)


if __name__ == "__main__":
    unittest.main()
