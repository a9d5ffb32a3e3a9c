"""Why no more is possible: the walk at the leaf of the plan's own order, and the sentence that says it.

The needs and the sum of the walk are computed here, from the definitions; the walk is that of the certificate, which
`check` proved.
"""
from dataclasses import dataclass, replace

from .fault import Fault
from .figures import exact
from .needs import UNSERVED, Target, asking_lanes, needs, plan_multiplier
from .orders import GREEN_OF_PAIR, LINK_BACK, LINK_FORTH, ORIGIN, Edges, leaf_of, own_order

NO_MORE = "Why no more is possible"
NO_SHORTER = "Why no shorter cycle is possible"
HEADINGS = {"capacity": NO_MORE, "cycle": NO_SHORTER}

# What the reason speaks of, and what closes all else.
SCOPES = {
    "capacity": "This is so for the plan's own order of starts, at its cycle: the certificate closes the other orders "
                "and cycles.",
    "cycle": "This is so for the plan's own order of starts, a second shorter: the certificate closes the other orders "
             "and the shorter cycles.",
}


@dataclass(frozen=True)
class Question:
    """What is asked of a tree: a target at a cycle, and what each group needs for it."""
    target: Target
    cycle: int
    needs: list


@dataclass(frozen=True)
class Reason:
    """Without a walk the sentence says why there is none; a walk of one group has no edges."""
    heading: str
    sentence: str
    question: Question | None = None
    walk: tuple = ()
    edges: tuple = ()
    greens: str = ""

    @property
    def turns(self):
        """How often the walk goes round the cycle."""
        return sum(edge.turns for edge in self.edges)


def reason_for(junction, certificate):
    """The reason why the plan of a proved certificate is the best, or why no reason is told."""
    heading = HEADINGS.get(certificate.claim, NO_MORE)
    absence = absence_of(junction, certificate)
    if absence:
        return Reason(heading, absence)
    question = question_of(junction, certificate)
    tree = certificate.branches[question.cycle - junction.least_cycle]
    order, walk = leaf_of(junction, tree, own_order(junction, certificate.plan))
    unserved = next((group for group in walk if question.needs[group] == UNSERVED), None)
    if unserved is not None:
        sentence = sentence_of_one(junction, question, unserved)
        explanation = explained(junction, question, certificate, (unserved,))
        return Reason(heading, sentence, question, (unserved,), (), explanation)
    edges = Edges(junction, order, question.needs, question.cycle).along(walk)
    if None in edges or sum(edge.weight(question.cycle) for edge in edges) <= 0:
        raise Fault("by the tool's own sum the walk of groups %s closes no order" % (walk,))
    asking = [edge.u for edge in edges if edge.kind == GREEN_OF_PAIR]
    reason = Reason(heading, "", question, walk, tuple(edges), explained(junction, question, certificate, asking))
    return replace(reason, sentence=sentence_of(junction, reason))


def explained(junction, question, certificate, groups):
    """What asks for the greens of the walk, and what the reason speaks of."""
    return "%s %s" % (greens_needed(junction, question, certificate.plan, groups), SCOPES[certificate.claim])


def absence_of(junction, certificate):
    """Why there is no reason to tell, or an empty text."""
    if certificate.claim == "stopped":
        return ("Not known: the search stopped when its budget of %d nodes was spent, so it isn't shown that no more "
                "is possible." % certificate.budget)
    if certificate.plan is None:
        return ("There is no plan whose order could be told: none carries %s times the flows, as the certificate "
                "proves." % exact(certificate.least))
    if certificate.claim == "cycle" and certificate.plan.cycle == junction.least_cycle:
        return "The cycle is the least that the junction file allows, %d s." % junction.least_cycle
    return ""


def question_of(junction, certificate):
    """To beat the plan at its own cycle; of a shortest cycle, to reach the multiple in a second less."""
    if certificate.claim == "cycle":
        target, cycle = Target(certificate.least, False), certificate.plan.cycle - 1
    else:
        target, cycle = Target(plan_multiplier(junction, certificate.plan), True), certificate.plan.cycle
    return Question(target, cycle, needs(junction, target, cycle))


def aim(question):
    multiple = exact(question.target.multiple)
    return "To pass %s" % multiple if question.target.to_beat else (
        "To carry %s times the flows in %d s" % (multiple, question.cycle))


def sentence_of_one(junction, question, number):
    group = junction.groups[number]
    words = aim(question), group.name, group.max_green, question.cycle
    return "%s, no green of %s is enough: its longest, %d s, is too short in a cycle of %d s." % words


def sentence_of(junction, reason):
    """What the steps of a walk need, and what there is."""
    terms = [term for term in (needed_term(junction, edge) for edge in reason.edges) if term]
    if reason.turns < 0:
        terms.append("%s of the cycle %d" % (turns_text(-reason.turns), -reason.turns * reason.question.cycle))
    return "%s, %s %s %d s; %s." % (
        aim(reason.question), joined(terms), "needs" if len(terms) == 1 else "need", time_needed(reason),
        what_there_is(junction, reason))


def time_needed(reason):
    """In seconds."""
    seconds = sum(edge.seconds for edge in reason.edges if edge.kind != LINK_BACK)
    return seconds + max(0, -reason.turns) * reason.question.cycle


def time_there(reason):
    """In seconds: the turns of the cycle, and links that are passed backwards."""
    links = sum(edge.seconds for edge in reason.edges if edge.kind == LINK_BACK)
    return max(0, reason.turns) * reason.question.cycle - links


def needed_term(junction, edge):
    """What a step asks for; of a link backwards, and of group 0 that is first, nothing."""
    name = junction.groups[edge.u].name
    if edge.kind == GREEN_OF_PAIR:
        return "%s %d + %d" % (name, edge.green, edge.seconds - edge.green)
    if edge.kind == LINK_FORTH:
        return "the link from %s to %s %d" % (name, junction.groups[edge.v].name, edge.seconds)
    if edge.kind == ORIGIN and edge.seconds:
        return "the start of %s %d" % (name, edge.seconds)
    return None


def what_there_is(junction, reason):
    """The same in words."""
    parts = []
    if reason.turns > 0:
        parts.append("the cycle" if reason.turns == 1 else "%s of the cycle" % turns_text(reason.turns))
    if reason.turns > 0 and any(edge.kind == ORIGIN for edge in reason.edges):
        parts[0] += ", counted from a start of %s," % junction.groups[0].name
    parts += ["the link from %s to %s" % (junction.groups[edge.v].name, junction.groups[edge.u].name)
              for edge in reason.edges if edge.kind == LINK_BACK]
    if not parts:
        return "there are %d" % time_there(reason)
    is_one = len(parts) == 1 and reason.turns < 2
    return "%s %s %d" % (joined(parts), "has" if is_one else "have", time_there(reason))


def turns_text(turns):
    return "1 turn" if turns == 1 else "%d turns" % turns


def joined(parts):
    """`a`, `a and b`, `a, b and c`."""
    return " and ".join([", ".join(parts[:-1])] * (len(parts) > 1) + parts[-1:])


def greens_needed(junction, question, plan, groups):
    """For each of the groups its need, what asks for it, and the green that it has."""
    return "; ".join(green_needed(junction, question, plan, number) for number in dict.fromkeys(groups)) + "."


def green_needed(junction, question, plan, number):
    group = junction.groups[number]
    lanes = asking_lanes(junction, question.target, question.cycle, number)
    least = question.needs[number]
    needs_text = "more than %d s" % group.max_green if least == UNSERVED else "%d s" % least
    cause = "for %s" % joined([lane.name for lane in lanes]) if lanes else "its minimum"
    return "%s needs %s (%s) and has %d s" % (group.name, needs_text, cause, plan.greens[number])
