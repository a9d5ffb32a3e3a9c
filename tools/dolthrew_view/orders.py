"""Orders of starts, their edges, and the leaf of a plan's own order, computed here from the definitions
(docs/DEFINITIONS.md). An item is a conflicting pair or a start link; an order marks each FIRST, SECOND or None, open.
"""
from dataclasses import dataclass
from functools import cached_property

from .junctions import Junction

FIRST = "first"
SECOND = "second"

# What asks for an edge.
GREEN_OF_PAIR = "pair"
LINK_FORTH = "link forth"
LINK_BACK = "link back"
ORIGIN = "origin"


@dataclass(frozen=True)
class Edge:
    """From group u to group v: v starts at least `seconds` less `turns` cycles after u. What asks for it is a pair
    (then the seconds are a green and an intergreen), a link in one of its senses, or that group 0 starts first."""
    u: int
    v: int
    kind: str
    seconds: int
    turns: int
    green: int = 0

    def weight(self, cycle):
        return self.seconds - self.turns * cycle


def pairs(junction):
    """The conflicting pairs by number: the lower group, then the higher one."""
    return sorted((min(conflict.a, conflict.b), max(conflict.a, conflict.b)) for conflict in junction.conflicts)


def starts_from_group_0(plan):
    """The starts of the same plan, turned so that group 0 starts at second 0."""
    return [(start - plan.starts[0]) % plan.cycle for start in plan.starts]


def own_order(junction, plan):
    """The mark of each item: of a pair the group that starts earlier is first, a link where its leader is no later."""
    starts = starts_from_group_0(plan)
    marks = [FIRST if starts[i] < starts[j] else SECOND for i, j in pairs(junction)]
    return marks + [FIRST if starts[link.leader] <= starts[link.follower] else SECOND for link in junction.links]


def root_order(junction):
    """Group 0 is first of its pairs; all else is open."""
    return [FIRST if i == 0 else None for i, _ in pairs(junction)] + [None] * len(junction.links)


def subtree_end(tree, node):
    """The number of the node after a subtree."""
    open_subtrees = 1
    while open_subtrees:
        open_subtrees += 1 if isinstance(tree[node], int) else -1
        node += 1
    return node


def leaf_of(junction, tree, own):
    """The order and the walk of the leaf to which an order leads."""
    order = root_order(junction)
    node = 0
    while isinstance(tree[node], int):
        item = tree[node]
        order[item] = own[item]
        node = node + 1 if own[item] == FIRST else subtree_end(tree, node + 1)
    return order, tree[node]


@dataclass(frozen=True)
class Edges:
    """What an order asks of starts, for the green that each group needs at a cycle."""
    junction: Junction
    order: list
    needs: list
    cycle: int

    @cached_property
    def marks(self):
        """The mark of each pair by its two groups, the lower one first."""
        return dict(zip(pairs(self.junction), self.order))

    @cached_property
    def intergreens(self):
        return self.junction.intergreens()

    def along(self, walk):
        """The edges of a closed walk, whose last step leads back to its first group."""
        return [self.between(u, v) for u, v in zip(walk, walk[1:] + walk[:1])]

    def between(self, u, v):
        """The edge of the greatest weight from one group to another, or None."""
        asked = self.of_pair(u, v) if (u, v) in self.intergreens else of_origin(u, v)
        return max(asked + self.of_links(u, v), key=lambda edge: edge.weight(self.cycle), default=None)

    def of_pair(self, u, v):
        """What two groups that conflict ask, if their order is decided."""
        mark = self.marks[min(u, v), max(u, v)]
        if mark is None:
            return []
        u_is_first = (mark == FIRST) == (u < v)
        seconds = self.needs[u] + self.intergreens[u, v]
        return [Edge(u, v, GREEN_OF_PAIR, seconds, 0 if u_is_first else 1, self.needs[u])]

    def of_links(self, u, v):
        """What the links ask that are decided."""
        edges = []
        for link, mark in zip(self.junction.links, self.order[len(self.junction.conflicts):]):
            after, turns = link.after % self.cycle, 1 if mark == SECOND else 0
            if mark is not None and (u, v) == (link.leader, link.follower):
                edges.append(Edge(u, v, LINK_FORTH, after, turns))
            if mark is not None and (u, v) == (link.follower, link.leader):
                edges.append(Edge(u, v, LINK_BACK, -after, -turns))
        return edges


def of_origin(u, v):
    """What is asked of two groups that don't conflict: each starts 0 to a cycle less 1 second after group 0."""
    if u == v:
        return []
    return [Edge(u, v, ORIGIN, 0, 0)] * (u == 0) + [Edge(u, v, ORIGIN, 1, 1)] * (v == 0)
