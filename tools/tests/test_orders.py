"""Own orders, leaves and edges, from their definitions."""
import unittest

from dolthrew_view.certificates import Plan
from dolthrew_view.junctions import Conflict, Group, Junction, Lane, Link
from dolthrew_view.orders import (FIRST, GREEN_OF_PAIR, LINK_BACK, LINK_FORTH, ORIGIN, SECOND, Edge, Edges, leaf_of,
                                  own_order, pairs, root_order, subtree_end)

GROUPS = tuple(Group(name, 5, 3, 2, 0, 0, 300) for name in "ABCD")
LANES = (Lane("L", 0, 100, 1800, 900),)
CONFLICTS = (Conflict(2, 1, 7, 6), Conflict(0, 1, 3, 4), Conflict(2, 3, 5, 5))
JUNCTION = Junction(2, "title", 10, 300, GROUPS, LANES, CONFLICTS, (Link(0, 2, 65), Link(3, 1, 4)))
NEEDS = [10, 20, 30, 40]
CYCLE = 60


def edge(order, u, v):
    return Edges(JUNCTION, order, NEEDS, CYCLE).between(u, v)


class OrdersTest(unittest.TestCase):
    def test_pairs_by_number(self):
        self.assertEqual(pairs(JUNCTION), [(0, 1), (1, 2), (2, 3)])

    def test_the_root_order(self):
        self.assertEqual(root_order(JUNCTION), [FIRST, None, None, None, None])

    def test_the_own_order_of_a_plan(self):
        plan = Plan(60, (0, 30, 10, 40), (5, 5, 5, 5))
        self.assertEqual(own_order(JUNCTION, plan), [FIRST, SECOND, FIRST, FIRST, SECOND])

    def test_the_own_order_counts_from_the_start_of_group_0(self):
        # Turned by 50 seconds: group 0 starts at 50, and group 2 at 0.
        plan = Plan(60, (50, 20, 0, 30), (5, 5, 5, 5))
        self.assertEqual(own_order(JUNCTION, plan), [FIRST, SECOND, FIRST, FIRST, SECOND])

    def test_a_link_whose_ends_start_together_is_first(self):
        plan = Plan(60, (0, 40, 0, 40), (5, 5, 5, 5))
        self.assertEqual(own_order(JUNCTION, plan)[3:], [FIRST, FIRST])

    def test_subtrees(self):
        tree = (1, 2, (0, 1), (1, 2), 2, (0, 1), None)
        self.assertEqual([subtree_end(tree, node) for node in (0, 1, 2, 4)], [7, 4, 3, 7])

    def test_the_leaf_of_an_order(self):
        tree = (1, 2, (0, 1), (1, 2), 3, (2, 3), (0, 2))
        own = [FIRST, SECOND, FIRST, SECOND, FIRST]
        self.assertEqual(leaf_of(JUNCTION, tree, own), ([FIRST, SECOND, None, SECOND, None], (0, 2)))

    def test_edges_of_a_pair(self):
        order = [FIRST, SECOND, None, None, None]
        self.assertEqual(edge(order, 0, 1), Edge(0, 1, GREEN_OF_PAIR, 13, 0, 10))
        self.assertEqual(edge(order, 1, 0), Edge(1, 0, GREEN_OF_PAIR, 24, 1, 20))
        self.assertEqual(edge(order, 2, 1), Edge(2, 1, GREEN_OF_PAIR, 37, 0, 30))
        self.assertEqual(edge(order, 1, 2), Edge(1, 2, GREEN_OF_PAIR, 26, 1, 20))
        self.assertIsNone(edge(order, 2, 3))

    def test_edges_of_group_0_that_starts_first(self):
        order = root_order(JUNCTION)
        self.assertEqual(edge(order, 0, 3), Edge(0, 3, ORIGIN, 0, 0))
        self.assertEqual(edge(order, 3, 0), Edge(3, 0, ORIGIN, 1, 1))
        self.assertIsNone(edge(order, 1, 3))
        self.assertIsNone(edge(order, 0, 0))

    def test_edges_of_links(self):
        # 65 seconds are 5 modulo the cycle.
        order = [FIRST, None, None, FIRST, SECOND]
        self.assertEqual(edge(order, 0, 2), Edge(0, 2, LINK_FORTH, 5, 0))
        self.assertEqual(edge(order, 2, 0), Edge(2, 0, LINK_BACK, -5, 0))
        self.assertEqual(edge(order, 3, 1), Edge(3, 1, LINK_FORTH, 4, 1))
        self.assertEqual(edge(order, 1, 3), Edge(1, 3, LINK_BACK, -4, -1))
        self.assertEqual([edge(order, 1, 3).weight(CYCLE), edge(order, 3, 1).weight(CYCLE)], [56, -56])

    def test_the_greatest_weight_is_the_edge(self):
        # Of groups 0 and 2 the link asks 5 seconds, the start of group 0 none.
        self.assertEqual(edge([FIRST, None, None, FIRST, None], 0, 2).kind, LINK_FORTH)
        # Back a link that is second asks 60 - 5, more than 1 - 60.
        self.assertEqual(edge([FIRST, None, None, SECOND, None], 2, 0).weight(CYCLE), 55)

    def test_the_edges_of_a_walk(self):
        order = [FIRST, FIRST, None, None, None]
        along = Edges(JUNCTION, order, NEEDS, CYCLE).along((0, 1, 2))
        self.assertEqual([step.weight(CYCLE) for step in along], [13, 26, -59])


if __name__ == "__main__":
    unittest.main()
