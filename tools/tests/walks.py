"""The tools' needs and sums held against certificates that `check` proved: each leaf's walk has to close its order."""
from dolthrew_view.needs import UNSERVED, Target, needs, plan_multiplier
from dolthrew_view.orders import FIRST, SECOND, Edges, root_order


def leaves(junction, tree):
    """(order, walk) of each leaf of a tree."""
    found, coming = [], [root_order(junction)]
    for node in tree:
        order = coming.pop()
        if isinstance(node, int):
            coming += [decided(order, node, mark) for mark in (SECOND, FIRST)]
        else:
            found.append((order, node))
    return found


def decided(order, item, mark):
    return order[:item] + [mark] + order[item + 1:]


def target_of(junction, certificate, cycle):
    """What docs/CERTIFICATE.md says that a tree is to close."""
    if certificate.claim != "capacity":
        return Target(certificate.least, False)
    return Target(plan_multiplier(junction, certificate.plan), cycle >= certificate.plan.cycle)


def see_that_walks_close(test, junction, certificate):
    """Every walk of a proved certificate, by the tools' own needs."""
    for number, tree in enumerate(certificate.branches):
        cycle = junction.least_cycle + number
        needed = needs(junction, target_of(junction, certificate, cycle), cycle)
        for order, walk in leaves(junction, tree):
            if len(walk) == 1:
                test.assertEqual(needed[walk[0]], UNSERVED)
            else:
                edges = Edges(junction, order, needed, cycle).along(walk)
                test.assertGreater(sum(edge.weight(cycle) for edge in edges), 0)
