"""What a claim says is true of the least multiple as it stands in the certificate, not of a rounded one."""
import unittest
from dataclasses import replace
from fractions import Fraction

from dolthrew_view.claims import claim_words

from .stored import shown


def words(name, command, least):
    drawn = shown(name, command)
    return claim_words(replace(drawn, certificate=replace(drawn.certificate, least=least)))


class ClaimsTest(unittest.TestCase):
    def test_no_plan(self):
        self.assertEqual(words("two-groups-infeasible", "capacity", Fraction(15001, 10000)),
                         "No plan of this junction carries 15001/10000 (1.500) times the flows.")

    def test_no_shorter_cycle(self):
        self.assertEqual(words("rilsa-twelve-groups", "cycle", Fraction(10001, 10000)),
                         "No plan of this junction with a shorter cycle carries 10001/10000 (1.000) times the flows.")
        self.assertEqual(words("rilsa-twelve-groups", "cycle", Fraction(1)),
                         "No plan of this junction with a shorter cycle carries 1 times the flows.")


if __name__ == "__main__":
    unittest.main()
