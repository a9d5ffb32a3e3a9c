"""What the page asks for, by name. A body is a text and never a name of a file; its words are tested before use."""
import re
from dataclasses import dataclass
from fractions import Fraction
from pathlib import Path
from typing import Callable

from ..fault import Fault
from ..file_contents import LONGEST_CERTIFICATE, LONGEST_JUNCTION
from ..group_order import reordered, search_order
from ..junctions import read_junction
from ..program import BAD_CERTIFICATE, CERTIFICATE_FILE, DESIGNED, DONE, JUNCTION_FILE, STOPPED, files
from . import edits
from .answers import shown_answer
from .faults import BAD_JUNCTION, fault_answer, refusal_text
from .guards import Refused, is_count
from .runs import LONGEST_SECONDS, RunEnded
from .steps import document_of, made
from .tables import tables

COMMANDS = ("capacity", "cycle")

# More rows than any table of a junction has.
MOST_ROWS = 1000

# The statuses of a certificate that breaks no rule.
CHECKED = (DONE, STOPPED)


@dataclass(frozen=True)
class Ask:
    """The words of an address, each given once, and the body."""
    words: dict
    body: bytes

    def word(self, name, form, told=None):
        """A word that has a form as a whole; what is told where a user typed another one."""
        word = self.words.get(name, "")
        if re.fullmatch(form, word):
            return word
        raise Fault(told) if told else Refused(400, "the word %s is missing or has another form" % name)

    def number(self, name, most):
        word = self.words.get(name, "")
        if not is_count(word) or int(word) > most:
            raise Refused(400, "the word %s isn't a whole number of at most %d" % (name, most))
        return int(word)

    def text(self):
        try:
            return self.body.decode("utf-8")
        except UnicodeDecodeError:
            raise Refused(400, "the junction isn't UTF-8") from None


def tables_ask(ask):
    return tables(ask.text())


def edit_ask(ask):
    """The text after an edit of its tables."""
    text = ask.text()
    try:
        return {"text": made(text, EDITS[ask.word("edit", "|".join(EDITS))](ask, document_of(text)))}
    except (AttributeError, TypeError, KeyError):
        raise Fault("a part of the text has another kind than its key asks for: change it in the text") from None


def part_of(ask):
    return ask.word("part", "top|group|lane|conflict|link")


def number_of(ask):
    return ask.number("number", MOST_ROWS)


EDITS = {
    "put": lambda ask, document: edits.put_steps(
        document, part_of(ask), number_of(ask), ask.word("key", "[a-z_]{1,16}"), ask.words.get("value", "")),
    "add": lambda ask, document: edits.add_steps(document, ask.word("part", "group|lane|link")),
    "take": lambda ask, document: edits.take_steps(document, ask.word("part", "group|lane|link"), number_of(ask)),
    "intergreen": lambda ask, document: edits.intergreen_steps(
        document, ask.number("from", MOST_ROWS), ask.number("to", MOST_ROWS), ask.words.get("value", "")),
}


def order_ask(ask):
    """The text with its groups in the order that the search likes."""
    try:
        return {"text": reordered(ask.text(), search_order(read_junction(ask.body, "the junction")))}
    except ValueError:
        raise Fault("the groups can't be put in another order: there are none, or a number is too great") from None


def judge_ask(ask, program):
    """The first fault of the junction: it is read before a certificate is, and no bytes are no certificate."""
    with files(ask.body, b"") as folder:
        status, printed = program.answer(["check", JUNCTION_FILE, CERTIFICATE_FILE], folder)
    return {} if status == BAD_CERTIFICATE else refused(status, printed, ask)


def refused(status, printed, ask):
    """What the program says of a run that isn't done, with the place of a fault of the junction."""
    line = printed.decode("ascii", "replace").strip()
    if status == BAD_JUNCTION:
        return {"fault": fault_answer(line, ask.body)}
    return {"refusal": refusal_text(status, line)}


def design_ask(ask, program):
    """The plan of the junction, its certificate, and all that is shown of them."""
    words = [ask.word("command", "|".join(COMMANDS)), JUNCTION_FILE, CERTIFICATE_FILE,
             "--least", least_of(ask), "--budget", budget_of(ask)]
    with files(ask.body) as folder:
        status, printed = program.answer(words, folder)
        if status not in DESIGNED:
            return refused(status, printed, ask)
        certificate = Path(folder, CERTIFICATE_FILE).read_bytes()
    if len(certificate) > LONGEST_CERTIFICATE:
        raise Fault("the certificate has %d bytes, and check reads %d at most: ask for less, or run ./dolthrew itself"
                    % (len(certificate), LONGEST_CERTIFICATE))
    return shown_answer(program, ask.body, certificate, printed.decode("ascii"))


def least_of(ask):
    """The least multiple as the program takes it, from a fraction or a decimal."""
    told = "the least multiple is a fraction as 11/10, a decimal as 1.1, or a whole number"
    try:
        return "%d/%d" % Fraction(ask.word("least", r"[0-9]{1,7}(/[0-9]{1,7}|\.[0-9]{1,6})?", told)).as_integer_ratio()
    except ZeroDivisionError:
        raise Fault(told) from None


def budget_of(ask):
    return ask.word("budget", "[0-9]{1,18}", "the budget is a whole number of nodes")


def check_ask(ask, program):
    """What the checker says of a certificate, whoever wrote it, and what it shows."""
    length = ask.number("junction", LONGEST_JUNCTION)
    junction = Ask(ask.words, ask.body[:length])
    certificate = ask.body[length:]
    if len(certificate) > LONGEST_CERTIFICATE:
        raise Refused(413, "the certificate is longer than its limit of %d bytes" % LONGEST_CERTIFICATE)
    with files(junction.body, certificate) as folder:
        status, printed = program.answer(["check", JUNCTION_FILE, CERTIFICATE_FILE], folder)
    if status not in CHECKED:
        return refused(status, printed, junction)
    try:
        return shown_answer(program, junction.body, certificate, report_of(program, junction.body, certificate))
    except RunEnded:
        raise
    except Fault as fault:
        return {"verdict": printed.decode("ascii").strip(), "unshown": str(fault)}


def report_of(program, junction, certificate):
    """The report of a certificate as the program writes it; of another one none is known."""
    try:
        return program.report(junction, certificate)
    except RunEnded:
        raise
    except Fault:
        raise Fault("a design of the junction gives no certificate of the same bytes, so there is no report "
                    "to show it by") from None


@dataclass(frozen=True)
class Kind:
    """How one kind of request is answered: with a run of the program, or without; and its longest body."""
    answer: Callable
    is_run: bool = False
    limit: int = LONGEST_JUNCTION


KINDS = {
    "tables": Kind(tables_ask),
    "edit": Kind(edit_ask),
    "order": Kind(order_ask),
    "judge": Kind(judge_ask, is_run=True),
    "design": Kind(design_ask, is_run=True),
    "check": Kind(check_ask, is_run=True, limit=LONGEST_JUNCTION + LONGEST_CERTIFICATE),
}


def tab_of(ask):
    return ask.word("tab", "[0-9a-f]{32}")


def seconds_of(ask):
    told = "the time limit is 1 to %d seconds" % LONGEST_SECONDS
    seconds = int(ask.word("seconds", "[0-9]{1,4}", told))
    if not 1 <= seconds <= LONGEST_SECONDS:
        raise Fault(told)
    return seconds
