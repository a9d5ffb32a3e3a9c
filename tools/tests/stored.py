"""What the program printed once of the junctions that tests draw: data/README.md says how it was made."""
import json
from functools import cache
from pathlib import Path

from dolthrew_view.shown import shown_of

ROOT = Path(__file__).resolve().parents[2]
DATA = Path(__file__).resolve().parent / "data"

# How the program was called for each kind of case.
COMMANDS = {"capacity": ("capacity",), "cycle": ("cycle",), "half": ("capacity", "--least", "1/2")}

# Each junction file by its name without the ending: the examples, and those that are made for tests.
EXAMPLES = {path.stem: path
            for folder in ("examples", "examples/real") for path in sorted((ROOT / folder).glob("*.toml"))}
OWN = {path.stem: path for path in sorted(DATA.glob("*.toml"))}
JUNCTIONS = EXAMPLES | OWN

# The last one has lanes that are saturated.
CASES = tuple((name, command) for name in JUNCTIONS for command in ("capacity", "cycle"))
CASES += (("two-groups-infeasible", "half"),)

# Beside each example the picture of its greatest capacity, if it has a plan; and that of the crossroads' least cycle.
PICTURES = {path.with_suffix(".svg"): (name, "capacity") for name, path in EXAMPLES.items()}
PICTURES[ROOT / "examples" / "crossroads-cycle.svg"] = ("crossroads", "cycle")


def junction_of(name):
    """The bytes of a junction file."""
    return JUNCTIONS[name].read_bytes()


def stored(name, command, ending):
    return DATA / ("%s.%s.%s" % (name, command, ending))


class StoredProgram:
    """Answers as the program did for one case."""

    def __init__(self, name, command):
        self.case = name, command

    def text(self, ending):
        return stored(*self.case, ending).read_text("ascii")

    def verdict(self, junction, certificate):
        return self.text("verdict").strip()

    def report(self, junction, certificate):
        return self.text("report")

    def rows(self, junction, certificate, seconds):
        return self.text("rows.csv")


def certificate_of(name, command):
    """The bytes of a certificate."""
    return stored(name, command, "json").read_bytes()


def turned(certificate, seconds):
    """The bytes of a certificate whose plan starts some seconds later, round the cycle."""
    document = json.loads(certificate)
    plan = document["plan"]
    plan["starts"] = [(start + seconds) % plan["cycle"] for start in plan["starts"]]
    return json.dumps(document).encode("ascii")


@cache
def shown(name, command):
    return shown_of(StoredProgram(name, command), junction_of(name), certificate_of(name, command))
