"""Where texts break, and how they keep apart."""
import unittest

from dolthrew_view.lettering import spread, wrapped


class LetteringTest(unittest.TestCase):
    def test_lines_are_as_long_as_fits(self):
        self.assertEqual(wrapped("one two three four", len, 9), ["one two", "three", "four"])
        self.assertEqual(wrapped("one two", len, 7), ["one two"])

    def test_a_word_breaks_that_is_too_long(self):
        self.assertEqual(wrapped("a bcdefgh i", len, 3), ["a", "bcd", "efg", "h i"])

    def test_nothing_is_one_line(self):
        self.assertEqual(wrapped("  ", len, 5), [""])

    def test_texts_that_are_apart_stay(self):
        self.assertEqual(spread([0, 20, 50], [10, 10, 10], 5), [0, 20, 50])

    def test_texts_that_are_too_near_part_to_both_sides(self):
        # Their centres have to be 10 + 4 apart.
        self.assertEqual(spread([20, 22], [10, 10], 4), [14, 28])

    def test_one_text_and_none(self):
        self.assertEqual((spread([3], [5], 1), spread([], [], 1)), ([3], []))


if __name__ == "__main__":
    unittest.main()
