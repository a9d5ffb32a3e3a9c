"""Fractions as decimals."""
import unittest
from fractions import Fraction

from dolthrew_view.figures import exact, per_cent, rounded


class FiguresTest(unittest.TestCase):
    def test_places(self):
        self.assertEqual(rounded(Fraction(171, 136), 3), "1.257")
        self.assertEqual(rounded(Fraction(875, 34), 1), "25.7")
        self.assertEqual(rounded(7, 0), "7")
        self.assertEqual(rounded(Fraction(1, 1000), 3), "0.001")

    def test_a_half_goes_away_from_0(self):
        self.assertEqual(rounded(Fraction(5, 100), 1), "0.1")
        self.assertEqual(rounded(Fraction(-5, 100), 1), "-0.1")
        self.assertEqual(rounded(Fraction(9996, 100), 1), "100.0")

    def test_nothing_has_no_sign(self):
        self.assertEqual(rounded(Fraction(-1, 100), 1), "0.0")

    def test_a_sentence_that_claims_is_exact(self):
        self.assertEqual(exact(Fraction(171, 136)), "171/136 (1.257)")
        self.assertEqual(exact(Fraction(15001, 10000)), "15001/10000 (1.500)")
        self.assertEqual(exact(Fraction(1, 1000000)), "1/1000000 (0.000)")
        self.assertEqual(exact(Fraction(4, 2)), "2")

    def test_per_cent(self):
        self.assertEqual(per_cent(Fraction(833, 1170)), "71.2")


if __name__ == "__main__":
    unittest.main()
