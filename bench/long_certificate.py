#!/usr/bin/env python3
"""Writes a junction and a certificate of at most BYTES bytes, nearly as long: bench/long_certificate.py JUNCTION CERTIFICATE BYTES

The junction is sample 1 with links, and the claim is that no plan of it meets the multiple 279/100. For each cycle
there is a tree that shows it without the links: a node whose order no starts meet is closed, every other one is split
on the due pair. Before it come Splits of links, so that the tree stands there once for each way of deciding these:
a longer certificate than is needed, but one that proves its claim.
"""
import sys

sys.dont_write_bytecode = True
import sample

NUMBER = 1
LEAST = (279, 100)
CYCLES = range(60, 121)
LINKS = 8
BUDGET = 100000000
LONGEST_GREEN = 300

# The trees of sample 1 for beating 5643/2023 have as many nodes together, as another program counted them.
KNOWN_TARGET = (5643, 2023)
KNOWN_NODES = 61821


class Junction:
    def __init__(self, number):
        self.greens, self.lanes, conflicts = sample.drawn(number)
        self.groups = len(self.greens)
        self.conflicts = sorted(conflicts)
        self.due = sorted((j, i, pair) for pair, (i, j, _, _) in enumerate(self.conflicts) if i > 0)

    def needs(self, cycle, num, den, to_beat):
        """The least green of each group with which its lanes reach num/den, or beat it."""
        needs = []
        for group, least in enumerate(self.greens):
            green = least
            for lane, arrival, saturation in self.lanes:
                while lane == group and self.falls_short(arrival, saturation, green, cycle, num, den, to_beat):
                    green += 1
            assert green <= LONGEST_GREEN
            needs.append(green)
        return needs

    @staticmethod
    def falls_short(arrival, saturation, green, cycle, num, den, to_beat):
        # A second of each green is lost: 2 at its start, 1 gained at its end. Limits are 900 per mille.
        has = 900 * saturation * (green - 1) * den
        asked = 1000 * arrival * cycle * num
        return has < asked or (to_beat and has == asked)


def inserted(paths, edges):
    """The longest paths with more edges, or the walk of a positive sum that they close; each path with its groups."""
    for u, v, weight in edges:
        back = paths[v][u]
        if back and back[0] + weight > 0:
            return None, back[1]
        before = [(x, row[u]) for x, row in enumerate(paths) if row[u]]
        after = [(y, path) for y, path in enumerate(paths[v]) if path]
        paths = [list(row) for row in paths]
        for x, (ahead, front) in before:
            for y, (behind, rest) in after:
                if x != y and (not paths[x][y] or paths[x][y][0] < ahead + weight + behind):
                    paths[x][y] = (ahead + weight + behind, front + rest)
    return paths, None


def edges_of(junction, pair, needs, cycle, first):
    """The edges of a pair whose lower group is first, or second."""
    i, j, a_to_b, b_to_a = junction.conflicts[pair]
    forth, back = needs[i] + a_to_b, needs[j] + b_to_a
    return [(i, j, forth), (j, i, back - cycle)] if first else [(j, i, back), (i, j, forth - cycle)]


def root_of(junction, needs, cycle):
    groups = range(junction.groups)
    paths = [[(0, (u,)) if u == v else None for v in groups] for u in groups]
    with_group_0 = {j: pair for pair, (i, j, _, _) in enumerate(junction.conflicts) if i == 0}
    edges = []
    for group in range(1, junction.groups):
        if group in with_group_0:
            edges += edges_of(junction, with_group_0[group], needs, cycle, True)
        else:
            edges += [(0, group, 0), (group, 0, 1 - cycle)]
    return inserted(paths, edges)


def tree_of(junction, needs, cycle):
    """The nodes of the cycle's tree as they are written, in preorder."""
    nodes = []

    def visit(paths, walk, depth):
        if walk:
            lowest = walk.index(min(walk))
            nodes.append("[%s]" % ",".join(map(str, walk[lowest:] + walk[:lowest])))
            return
        pair = junction.due[depth][2]
        nodes.append(str(pair))
        for first in (True, False):
            visit(*inserted(paths, edges_of(junction, pair, needs, cycle, first)), depth + 1)

    visit(*root_of(junction, needs, cycle), 0)
    return nodes


def trees_of(junction, num, den, to_beat):
    return [tree_of(junction, junction.needs(cycle, num, den, to_beat), cycle) for cycle in CYCLES]


def copies(tree, item, count):
    """A tree whose Splits of items from this one on have `count` leaves, with this tree at each."""
    if count == 1:
        return [tree]
    half = count // 2
    return [str(item)] + copies(tree, item + 1, count - half) + copies(tree, item + 1, half)


def counts_of(trees, copies_in_all):
    """How many copies of each tree there are: as many of each, and one more of the first ones."""
    return [copies_in_all // len(trees) + (number < copies_in_all % len(trees)) for number in range(len(trees))]


def text_of(trees, items, copies_in_all):
    """The text, and the number of its nodes."""
    branches = []
    nodes = 0
    for tree, count in zip(trees, counts_of(trees, copies_in_all)):
        branches.append("[%s]" % ",".join(copies(",".join(tree), items, count)))
        nodes += count * len(tree) + count - 1
    return '{"branches":[%s],"budget":%d,"claim":"infeasible","least":[%d,%d],"plan":null,"version":1}' % (
        ",".join(branches), BUDGET, *LEAST), nodes


def longest(trees, items, limit):
    """The longest such text within a limit, and the number of its nodes."""
    fits, too_many = len(trees), len(trees) * 2**LINKS + 1
    while too_many - fits > 1:
        middle = (fits + too_many) // 2
        if len(text_of(trees, items, middle)[0]) <= limit:
            fits = middle
        else:
            too_many = middle
    return text_of(trees, items, fits)


def links():
    return "".join(sample.table("link", [
        ("leader", sample.text("G%02d" % k)), ("follower", sample.text("G%02d" % (k + LINKS))), ("after", 3 + k)])
        for k in range(LINKS))


def main():
    if len(sys.argv) != 4:
        sys.exit("usage: bench/long_certificate.py JUNCTION CERTIFICATE BYTES")
    sample.see_that_the_generator_is_right()
    junction = Junction(NUMBER)
    assert sum(map(len, trees_of(junction, *KNOWN_TARGET, True))) == KNOWN_NODES
    text, nodes = longest(trees_of(junction, *LEAST, False), len(junction.conflicts), int(sys.argv[3]))
    with open(sys.argv[1], "w") as file:
        file.write(sample.file_of(NUMBER).replace("version = 1", "version = 2", 1) + links())
    with open(sys.argv[2], "w") as file:
        file.write(text)
    print("%d bytes, %d nodes" % (len(text), nodes))


if __name__ == "__main__":
    main()
