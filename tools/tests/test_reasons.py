"""Why no more is possible: sentences by hand, and needs and walks against certificates that `check` proved."""
import unittest
from dataclasses import replace
from fractions import Fraction
from itertools import permutations

from dolthrew_view.certificates import read_certificate
from dolthrew_view.fault import Fault
from dolthrew_view.junctions import read_junction
from dolthrew_view.needs import Target, needs, plan_multiplier
from dolthrew_view.orders import GREEN_OF_PAIR, LINK_BACK, ORIGIN, Edge, Edges, own_order, starts_from_group_0
from dolthrew_view.reasons import Question, Reason, reason_for, sentence_of, time_needed, time_there

from .stored import CASES, StoredProgram, certificate_of, junction_of, shown, turned
from .walks import see_that_walks_close


def sentence(name, command):
    return shown(name, command).reason.sentence


def of_pair(u, v, green, turns=0):
    """The edge of a pair with an intergreen of 5 seconds."""
    return Edge(u, v, GREEN_OF_PAIR, green + 5, turns, green)


class SentencesTest(unittest.TestCase):
    def test_the_crossroads(self):
        self.assertEqual(sentence("crossroads", "capacity"),
                         "To pass 171/136 (1.257), N 40 + 5, E 51 + 5 and WR 14 + 5 need 120 s; the cycle has 119.")

    def test_the_certificate_that_is_checked_by_hand(self):
        self.assertEqual(sentence("two-groups-one-cycle", "capacity"),
                         "To pass 3/2 (1.500), A 26 + 5 and B 26 + 5 need 62 s; the cycle has 60.")

    def test_a_second_less_than_the_shortest_cycle(self):
        # Each group needs four tenths of 19 seconds, 7.6, and of 21 seconds, 8.4.
        self.assertEqual(sentence("two-groups-short", "cycle"),
                         "To carry 1 times the flows in 19 s, A 8 + 2 and B 8 + 2 need 20 s; the cycle has 19.")
        self.assertEqual(sentence("two-groups", "cycle"),
                         "To carry 1 times the flows in 21 s, A 9 + 2 and B 9 + 2 need 22 s; the cycle has 21.")

    def test_the_least_cycle(self):
        self.assertEqual(sentence("ring-of-three", "cycle"),
                         "The cycle is the least that the junction file allows, 39 s.")

    def test_no_plan(self):
        self.assertEqual(sentence("two-groups-infeasible", "cycle"),
                         "There is no plan whose order could be told: none carries 1 times the flows, as the "
                         "certificate proves.")

    def test_a_multiple_that_a_rounded_one_would_belie(self):
        # To three places it is 1, which is less.
        junction = read_junction(junction_of("two-groups-infeasible"), "")
        certificate = read_certificate(certificate_of("two-groups-infeasible", "cycle"), "")
        reason = reason_for(junction, replace(certificate, least=Fraction(10001, 10000)))
        self.assertIn("none carries 10001/10000 (1.000) times the flows", reason.sentence)

    def test_a_plan_that_does_not_begin_with_group_0(self):
        certificate = turned(certificate_of("crossroads", "capacity"), 70)
        reason = reason_for(read_junction(junction_of("crossroads"), ""), read_certificate(certificate, ""))
        self.assertEqual(reason, shown("crossroads", "capacity").reason)

    def test_a_longest_green_that_is_too_short(self):
        reason = shown("longest-green", "capacity").reason
        self.assertEqual((len(reason.walk), reason.edges), (1, ()))
        # To beat 1.62 in 40 seconds a lane of 300 in 1800 with the limit 0.9 needs more than 12 seconds.
        self.assertEqual(reason.sentence,
                         "To pass 81/50 (1.620), no green of crossing is enough: its longest, 12 s, is too short in a "
                         "cycle of 40 s.")

    def test_a_walk_through_a_group_that_no_green_serves(self):
        # In place of the crossing's own walk one from the first group to it and back, which check proves too.
        junction = read_junction(junction_of("longest-green"), "")
        proved = read_certificate(certificate_of("longest-green", "capacity"), "")
        [crossing] = shown("longest-green", "capacity").reason.walk
        branches = tuple(tuple((0, crossing) if node == (crossing,) else node for node in tree)
                         for tree in proved.branches)
        self.assertNotEqual(branches, proved.branches)
        reason = reason_for(junction, replace(proved, branches=branches))
        self.assertEqual(reason, shown("longest-green", "capacity").reason)

    def test_two_turns(self):
        reason = shown("ring-of-five", "capacity").reason
        self.assertEqual(reason.turns, 2)
        self.assertIn("; 2 turns of the cycle have %d." % (2 * reason.question.cycle), reason.sentence)

    def test_a_stop(self):
        certificate = certificate_of("crossroads", "capacity").replace(b'"capacity"', b'"stopped"')
        reason = reason_for(read_junction(junction_of("crossroads"), ""), read_certificate(certificate, ""))
        self.assertTrue(reason.sentence.startswith("Not known: the search stopped when its budget"), reason.sentence)
        self.assertEqual(reason.walk, ())

    def test_a_walk_that_closes_nothing_is_a_fault(self):
        # To pass 7 * 3 / 50 each group needs 8 seconds: 8 + 5 twice, of 60.
        text = certificate_of("two-groups-one-cycle", "capacity").replace(b"[25,25]", b"[7,7]")
        with self.assertRaisesRegex(Fault, "closes no order"):
            reason_for(read_junction(junction_of("two-groups-one-cycle"), ""), read_certificate(text, ""))


class StepsTest(unittest.TestCase):
    """Sentences of steps that are seldom on the way of a plan's own order."""

    def assert_sentence(self, edges, expected):
        # Groups A, B and C, at a cycle of 60 seconds.
        junction = read_junction(junction_of("ring-of-three"), "file")
        question = Question(Target(Fraction(3, 2), True), 60, [])
        reason = Reason("heading", "", question, tuple(edge.u for edge in edges), tuple(edges))
        self.assertEqual(sentence_of(junction, reason), "To pass 3/2 (1.500), " + expected)

    def test_group_0_starts_first(self):
        self.assert_sentence([Edge(0, 1, ORIGIN, 0, 0), of_pair(1, 2, 30), of_pair(2, 0, 25, 1)],
                             "B 30 + 5 and C 25 + 5 need 65 s; the cycle, counted from a start of A, has 60.")

    def test_a_group_starts_before_the_next_start_of_group_0(self):
        self.assert_sentence([of_pair(0, 1, 30), of_pair(1, 2, 20), Edge(2, 0, ORIGIN, 1, 1)],
                             "A 30 + 5, B 20 + 5 and the start of C 1 need 61 s; the cycle, counted from a start of A, "
                             "has 60.")

    def test_a_link_leaves_too_little(self):
        self.assert_sentence([of_pair(0, 1, 25), Edge(1, 0, LINK_BACK, -20, 0)],
                             "A 25 + 5 needs 30 s; the link from A to B has 20.")

    def test_a_link_beside_the_cycle(self):
        self.assert_sentence([of_pair(0, 1, 40), of_pair(1, 2, 30, 1), Edge(2, 0, LINK_BACK, -10, 0)],
                             "A 40 + 5 and B 30 + 5 need 80 s; the cycle and the link from A to C have 70.")

    def test_links_that_turn_back(self):
        self.assert_sentence([of_pair(0, 1, 25), Edge(1, 2, LINK_BACK, -50, -1), Edge(2, 0, LINK_BACK, -30, 0)],
                             "A 25 + 5 and 1 turn of the cycle 60 need 90 s; the link from C to B and the link from A "
                             "to C have 80.")


class AgainstCertificatesTest(unittest.TestCase):
    def test_every_walk_of_a_proved_certificate_closes_its_order(self):
        for name, command in CASES:
            if not StoredProgram(name, command).verdict(None, None).startswith("proved"):
                continue
            junction = read_junction(junction_of(name), name)
            certificate = read_certificate(certificate_of(name, command), name)
            see_that_walks_close(self, junction, certificate)

    def test_plans_meet_the_edges_of_their_own_orders(self):
        for case in CASES:
            if shown(*case).timetable:
                self.assert_meets_own_order(shown(*case))

    def assert_meets_own_order(self, drawn):
        """For what the plan reaches its greens are no shorter than the needs, and its starts meet all edges."""
        junction, plan = drawn.junction, drawn.certificate.plan
        needed = needs(junction, Target(drawn.report.multiplier, False), plan.cycle)
        self.assertTrue(all(need <= green for need, green in zip(needed, plan.greens)))
        edges = Edges(junction, own_order(junction, plan), needed, plan.cycle)
        starts = starts_from_group_0(plan)
        for u, v in permutations(range(len(starts)), 2):
            edge = edges.between(u, v)
            self.assertTrue(edge is None or edge.weight(plan.cycle) <= starts[v] - starts[u], edge)

    def test_the_multiplier_is_that_of_the_report(self):
        for case in CASES:
            drawn = shown(*case)
            if drawn.timetable:
                self.assertEqual(plan_multiplier(drawn.junction, drawn.certificate.plan), drawn.report.multiplier)

    def test_each_reason_needs_more_than_there_is(self):
        for case in CASES:
            reason = shown(*case).reason
            if reason.edges:
                self.assertGreater(time_needed(reason), time_there(reason))
                excess = sum(edge.weight(reason.question.cycle) for edge in reason.edges)
                self.assertEqual(time_needed(reason) - time_there(reason), excess)

    def test_the_plan_has_less_than_some_need_of_its_reason(self):
        for name, command in CASES:
            drawn = shown(name, command)
            if drawn.certificate.claim == "capacity":
                greens = drawn.certificate.plan.greens
                self.assertTrue(any(greens[group] < drawn.reason.question.needs[group] for group in drawn.reason.walk))


if __name__ == "__main__":
    unittest.main()
