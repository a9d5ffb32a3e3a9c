"""What the page is told of a plan: the program's figures, and the pictures that are drawn of them."""
from ..claims import claim_words
from ..diagram import diagram
from ..figures import rounded
from ..sheet import sheet, sums_of
from ..shown import shown_of
from ..table import COLUMNS, lane_rows, table

# Those of the table's columns that the page shows.
SHOWN_COLUMNS = [number for number, name in enumerate(COLUMNS) if not name.startswith(("Cycle", "Green"))]

# A larger budget that is offered to who was stopped.
BUDGET_FACTOR = 10


def shown_answer(program, junction, certificate, report):
    """All that the page shows of a certificate that breaks no rule, and of its report."""
    shown = shown_of(program, junction, certificate, report)
    return {
        "verdict": shown.verdict,
        "certificate": certificate.decode("utf-8"),
        "report": report,
        "diagram": diagram(shown),
        "sheet": sheet(shown, sums_of(program, junction, certificate)),
        **head_answer(shown),
        **(plan_answer(shown) if shown.timetable else {}),
    }


def head_answer(shown):
    report = shown.report
    return {
        "title": report.title,
        "claim": report.claim,
        "words": claim_words(shown),
        "least": fraction_answer(report.least),
        "nodes": report.nodes,
        "budget": shown.certificate.budget,
        "larger_budget": shown.certificate.budget * BUDGET_FACTOR,
        "reason": {"heading": shown.reason.heading, "sentence": shown.reason.sentence, "greens": shown.reason.greens},
    }


def plan_answer(shown):
    report = shown.report
    return {
        "cycle": report.cycle,
        "multiplier": fraction_answer(report.multiplier),
        "reserve": {"exact": str(report.reserve), "decimal": rounded(report.reserve, 1)},
        "groups": [group_answer(*group) for group in zip(report.groups, shown.timetable.runs)],
        "stages": [[str(stage.number), str(stage.first), str(stage.seconds), " ".join(stage.groups)]
                   for stage in report.stages],
        "lanes": [[row[number] for number in SHOWN_COLUMNS] for row in (COLUMNS, *lane_rows(shown))],
        "holding": sorted(shown.holding_lanes()),
        "table": table(shown),
    }


def fraction_answer(value):
    return {"exact": "%d/%d" % value.as_integer_ratio(), "decimal": rounded(value, 3)}


def group_answer(times, runs):
    """A group's green, and the seconds of each of its aspects from their first on, round the cycle."""
    return {"name": times.name, "start": times.start, "green": times.green,
            "runs": [[run.aspect, run.first, run.seconds] for run in runs]}
