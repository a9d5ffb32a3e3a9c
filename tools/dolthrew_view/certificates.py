"""Certificates as the tools see them. The program judges a certificate first; nothing is decided here."""
import json
from dataclasses import dataclass
from fractions import Fraction

from .fault import Fault

CLAIMS = ("capacity", "cycle", "infeasible", "stopped")


@dataclass(frozen=True)
class Plan:
    """A cycle, and for each group the second at which its green starts and how long it is."""
    cycle: int
    starts: tuple[int, ...]
    greens: tuple[int, ...]


@dataclass(frozen=True)
class Certificate:
    """A tree is its nodes in preorder: a number splits on an item, a walk of groups closes, None is unvisited."""
    branches: tuple[tuple[int | tuple[int, ...] | None, ...], ...]
    budget: int
    claim: str
    least: Fraction
    plan: Plan | None


def read_certificate(content, name):
    """The certificate that the bytes of a file spell; the name is for the line of a fault."""
    try:
        return certificate_of(json.loads(content.decode("utf-8")))
    except (ValueError, RecursionError, ZeroDivisionError, KeyError, TypeError, AttributeError):
        raise Fault("%s: no certificate" % name) from None


def certificate_of(document):
    if document["claim"] not in CLAIMS:
        raise ValueError
    numerator, denominator = document["least"]
    return Certificate(
        branches=tuple(tuple(map(node_of, tree)) for tree in document["branches"]),
        budget=document["budget"],
        claim=document["claim"],
        least=Fraction(numerator, denominator),
        plan=plan_of(document["plan"]),
    )


def node_of(node):
    return tuple(node) if isinstance(node, list) else node


def plan_of(plan):
    return plan and Plan(plan["cycle"], tuple(plan["starts"]), tuple(plan["greens"]))
