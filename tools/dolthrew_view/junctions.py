"""Junction files as the tools see them. The program judges a file first; nothing is decided here."""
from dataclasses import dataclass

from .fault import Fault
from .toml_documents import read_document

DEFAULT_LIMIT = 900
LONGEST_GREEN = 300


@dataclass(frozen=True)
class Group:
    """Its times are in seconds."""
    name: str
    min_green: int
    amber: int
    red_amber: int
    start_lost: int
    end_gain: int
    max_green: int


@dataclass(frozen=True)
class Lane:
    """Flows in vehicles per hour, the limit per mille; the group by its number."""
    name: str
    group: int
    arrival: int
    saturation: int
    limit: int


@dataclass(frozen=True)
class Conflict:
    """Two groups by number, and the intergreens both ways in seconds."""
    a: int
    b: int
    a_to_b: int
    b_to_a: int


@dataclass(frozen=True)
class Link:
    """Two groups by number, and the seconds from the leader's start to the follower's."""
    leader: int
    follower: int
    after: int


@dataclass(frozen=True)
class Junction:
    """All in the order of the file; groups count from 0."""
    version: int
    title: str
    least_cycle: int
    greatest_cycle: int
    groups: tuple[Group, ...]
    lanes: tuple[Lane, ...]
    conflicts: tuple[Conflict, ...]
    links: tuple[Link, ...]

    def intergreens(self):
        """The seconds from group to group, by both numbers."""
        seconds = {}
        for conflict in self.conflicts:
            seconds[conflict.a, conflict.b] = conflict.a_to_b
            seconds[conflict.b, conflict.a] = conflict.b_to_a
        return seconds


def read_junction(content, name):
    """The junction that the bytes of a file spell; the name is for the line of a fault."""
    document = read_document(content, name)
    try:
        return junction_of(document)
    except KeyError as error:
        raise Fault("%s: no junction: %s is missing or names no group" % (name, error)) from None
    except (TypeError, AttributeError):
        raise Fault("%s: no junction: a part has another kind than its key asks for" % name) from None


def junction_of(document):
    groups = tuple(group_of(table) for table in document["group"])
    numbers = {group.name: number for number, group in enumerate(groups)}
    return Junction(
        version=document["version"],
        title=document["name"],
        least_cycle=document["least_cycle"],
        greatest_cycle=document["greatest_cycle"],
        groups=groups,
        lanes=tuple(lane_of(table, numbers) for table in document["lane"]),
        conflicts=tuple(conflict_of(table, numbers) for table in document["conflict"]),
        links=tuple(link_of(table, numbers) for table in document.get("link", ())),
    )


def group_of(table):
    return Group(table["name"], table["min_green"], table["amber"], table["red_amber"], table["start_lost"],
                 table["end_gain"], table.get("max_green", LONGEST_GREEN))


def lane_of(table, numbers):
    return Lane(table["name"], numbers[table["group"]], table["arrival"], table["saturation"],
                table.get("limit", DEFAULT_LIMIT))


def conflict_of(table, numbers):
    return Conflict(numbers[table["a"]], numbers[table["b"]], table["a_to_b"], table["b_to_a"])


def link_of(table, numbers):
    return Link(numbers[table["leader"]], numbers[table["follower"]], table["after"])
