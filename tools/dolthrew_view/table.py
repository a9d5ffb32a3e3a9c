"""The lanes of a plan as a table for spreadsheets: CSV, a row a lane, in decimals."""
import csv
import io
from fractions import Fraction

from .figures import delay_text, rounded
from .shown import shown_by

COLUMNS = ("Lane", "Group", "Flow (veh/h)", "Saturation flow (veh/h)", "Limit of saturation (%)", "Cycle (s)",
           "Green start (s)", "Green end (s)", "Green (s)", "Degree of saturation (%)", "Mean delay (s/veh)",
           "Holds the multiplier down")
PLAN_COLUMNS = len(COLUMNS) - 5
PLACES = 2


def run(words, out):
    """`table JUNCTION CERT`: the table to a stream."""
    out.write(table(shown_by(words)))


def table(shown):
    text = io.StringIO()
    writer = csv.writer(text, lineterminator="\n")
    writer.writerow(COLUMNS)
    writer.writerows(lane_rows(shown))
    return text.getvalue()


def lane_rows(shown):
    """The rows of all lanes in the order of the file; without a plan the columns of the plan are empty."""
    return [lane_row(shown, number) for number in range(len(shown.junction.lanes))]


def lane_row(shown, number):
    lane = shown.junction.lanes[number]
    fixed = [lane.name, shown.junction.groups[lane.group].name, str(lane.arrival), str(lane.saturation),
             rounded(Fraction(lane.limit, 10), 1)]
    if shown.timetable is None:
        return fixed + [""] * PLAN_COLUMNS
    figures, cycle = shown.report.lanes[number], shown.timetable.cycle
    green = shown.timetable.green(lane.group)
    return fixed + [str(cycle), str(green.first), str(green.last_end(cycle)), str(green.seconds),
                    rounded(figures.saturation * 100, PLACES),
                    delay_text(figures.delay, PLACES),
                    "yes" if lane.name in shown.holding_lanes() else "no"]
