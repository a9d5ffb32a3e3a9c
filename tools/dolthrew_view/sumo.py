"""A plan as a static program of a SUMO traffic light, from the rows that `play` prints for one cycle. A file says which
group serves which link of SUMO's, by its signal index; these links have nothing to do with start links:

    version = 1
    light = "centre"          # the traffic light's id in the network
    program = "dolthrew"      # the id of the program; this where it is missing

    [[signal]]
    index = 0                 # each from 0 to the greatest stands once
    group = "N"
    gives_way = true          # its green is SUMO's g and not its G; false where it is missing

What a group shows becomes SUMO's G or g, y, u (red and amber) or r."""
from dataclasses import dataclass
from itertools import groupby
from xml.sax.saxutils import quoteattr

from .certificates import read_certificate
from .fault import Fault, Misuse
from .file_contents import LONGEST_CERTIFICATE, content_of
from .program import Program
from .toml_documents import read_document

FORM = "JUNCTION CERT LINKS.toml"

STATES = {"green": "G", "amber": "y", "red_amber": "u", "red": "r"}
GIVING_WAY = "g"

PROGRAM = "dolthrew"
MOST_INDEXES = 1000

TOP_KEYS = {"version": int, "light": str, "program": str, "signal": list}
SIGNAL_KEYS = {"index": int, "group": str, "gives_way": bool}


@dataclass(frozen=True)
class Signal:
    """What one signal index of the light shows: a group, by its name."""
    group: str
    gives_way: bool


@dataclass(frozen=True)
class Light:
    """A traffic light of SUMO: the ids of it and of its program, and its signals by their indexes."""
    name: str
    program: str
    signals: tuple[Signal, ...]


def run(words, out):
    """Prints an additional file with the plan as a program of the light."""
    if len(words) != 3:
        raise Misuse
    junction, certificate, links = content_of(words[0]), content_of(words[1], LONGEST_CERTIFICATE), content_of(words[2])
    program = Program()
    program.verdict(junction, certificate)
    plan = read_certificate(certificate, words[1]).plan
    if plan is None:
        raise Fault("%s: it has no plan" % words[1])
    light = read_light(links, words[2])
    rows = program.rows(junction, certificate, plan.cycle)
    out.write(program_text(light, states(rows, light, words[2])))


def states(rows, light, name):
    """The state of the light at each second of the rows."""
    head, *lines = [line.split(",") for line in rows.splitlines()]
    for signal in light.signals:
        if signal.group not in head[1:]:
            raise Fault("%s: the junction has no group %s" % (name, signal.group))
    columns = [head.index(signal.group) for signal in light.signals]
    return ["".join(state_of(signal, line[column]) for signal, column in zip(light.signals, columns)) for line in lines]


def state_of(signal, aspect):
    return GIVING_WAY if signal.gives_way and aspect == "green" else STATES[aspect]


def program_text(light, shown):
    """The additional file: a phase for each run of seconds with one state."""
    phases = ['        <phase duration="%d" state="%s"/>\n' % (len(list(run)), state) for state, run in groupby(shown)]
    return ('<additional>\n    <tlLogic id=%s type="static" programID=%s offset="0">\n%s    </tlLogic>\n</additional>\n'
            % (quoteattr(light.name), quoteattr(light.program), "".join(phases)))


def read_light(content, name):
    """The light that a file tells."""
    top = table_of(read_document(content, name), TOP_KEYS, {"program": PROGRAM}, name)
    if top["version"] != 1:
        raise Fault("%s: the version of such a file is 1" % name)
    for key in ("light", "program"):
        if not top[key] or not top[key].isprintable():
            raise Fault("%s: the key %s is empty or has a letter that can't be printed" % (name, key))
    return Light(top["light"], top["program"], signals_of(top["signal"], name))


def signals_of(tables, name):
    """The signals by their indexes, each of which stands once."""
    found = {}
    for number, signal in enumerate(tables, 1):
        place = "%s: signal %d" % (name, number)
        table = table_of(signal, SIGNAL_KEYS, {"gives_way": False}, place)
        if not 0 <= table["index"] < MOST_INDEXES or table["index"] in found:
            raise Fault("%s: the index stands twice or isn't from 0 to %d" % (place, MOST_INDEXES - 1))
        found[table["index"]] = Signal(table["group"], table["gives_way"])
    missing = [index for index in range(max(found, default=0) + 1) if index not in found]
    if missing:
        raise Fault("%s: no signal has the index %d" % (name, missing[0]))
    return tuple(found[index] for index in sorted(found))


def table_of(table, kinds, defaults, place):
    """The values at the keys, each of its kind."""
    if not isinstance(table, dict):
        raise Fault("%s: no table" % place)
    other = [key for key in table if key not in kinds]
    if other:
        raise Fault("%s: the key %s isn't known" % (place, other[0]))
    values = defaults | table
    for key, kind in kinds.items():
        if type(values.get(key)) is not kind:
            raise Fault("%s: the key %s is missing or has another kind" % (place, key))
    return values
