"""Edits of a junction that are made in its tables. The text stays what is true: an edit changes the characters of its
own values and leaves all others, comments among them."""
import json
import re

from ..fault import Fault
from .steps import TOP, Add, Put, TakeElement, TakeKey, element

TEXT_KEYS = ("name", "group", "a", "b", "leader", "follower")
OPTIONAL_KEYS = ("max_green", "limit")
# The keys that name a group, by the part in which they stand.
NAMING_KEYS = {"lane": ("group",), "conflict": ("a", "b"), "link": ("leader", "follower")}

NEW_GROUP = {"min_green": 7, "amber": 3, "red_amber": 2, "start_lost": 2, "end_gain": 1}
NEW_FLOW = {"arrival": 0, "saturation": 1800}


def valued(key, word):
    """A word that stands in a cell, as a value of its key."""
    if key in TEXT_KEYS:
        return word
    if not re.fullmatch(r"[+-]?[0-9]{1,9}", word):
        raise Fault("%s is a whole number, not %s" % (key, json.dumps(word[:40])))
    return int(word)


def names_of(document):
    groups = document.get("group")
    return [table.get("name") for table in groups if isinstance(table, dict)] if isinstance(groups, list) else []


def naming(document, name):
    """Each place that names this group: part, number and key."""
    for part, keys in NAMING_KEYS.items():
        for number, table in enumerate(document.get(part, ())):
            for key in keys:
                if table.get(key) == name:
                    yield part, number, key


def put_steps(document, part, number, key, word):
    """A value of a cell; a group's new name goes to every place that named it, and a key of version 2 asks for that."""
    table = element(document, part, number)
    if word == "" and key in OPTIONAL_KEYS:
        return [TakeKey(part, number, key)] if key in table else []
    value = valued(key, word)
    steps = [Put(part, number, key, value)]
    if part == "group" and key == "name" and names_of(document).count(table.get("name")) == 1:
        steps += [Put(*place, value) for place in naming(document, table["name"])]
    return steps + (second_version(document) if key == "max_green" else [])


def second_version(document):
    return [Put(TOP, 0, "version", 2)] if document.get("version") == 1 else []


def fresh_name(start, taken):
    return next(name for name in (start + str(n) for n in range(1, len(taken) + 2)) if name not in taken)


def add_steps(document, part):
    """A new row with values that break no rule by themselves."""
    groups = names_of(document)
    if part == "group":
        return [Add(part, {"name": fresh_name("G", groups), **NEW_GROUP})]
    if part == "lane":
        lanes = [table.get("name") for table in document.get("lane", ())]
        return [Add(part, {"name": fresh_name("L", lanes), "group": groups[0] if groups else "", **NEW_FLOW})]
    leader, follower = unlinked(document, groups)
    return [*second_version(document), Add("link", {"leader": leader, "follower": follower, "after": 0})]


def unlinked(document, groups):
    """The first two groups that no link has together."""
    linked = [{table.get("leader"), table.get("follower")} for table in document.get("link", ())]
    for i, leader in enumerate(groups):
        for follower in groups[i + 1:]:
            if {leader, follower} not in linked:
                return leader, follower
    raise Fault("each two groups stand in a link already")


def take_steps(document, part, number):
    """A row is taken away, and with a group all that names it."""
    steps = [TakeElement(part, number)]
    table = element(document, part, number)
    if part == "group" and names_of(document).count(table.get("name")) == 1:
        places = {(part, number) for part, number, _ in naming(document, table["name"])}
        steps += [TakeElement(*place) for place in sorted(places, key=lambda place: -place[1])]
    return steps


def intergreen_steps(document, start, end, word):
    """The seconds from one group to another. A first one makes the conflict, with as many seconds back; an empty cell
    ends it."""
    one, other = element(document, "group", start)["name"], element(document, "group", end)["name"]
    for number, table in enumerate(document.get("conflict", ())):
        if {table.get("a"), table.get("b")} == {one, other}:
            if word == "":
                return [TakeElement("conflict", number)]
            key = "a_to_b" if table["a"] == one else "b_to_a"
            return [Put("conflict", number, key, valued(key, word))]
    if word == "":
        return []
    seconds = valued("a_to_b", word)
    return [Add("conflict", {"a": one, "b": other, "a_to_b": seconds, "b_to_a": seconds})]
