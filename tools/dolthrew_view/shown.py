"""All that pictures, sheets and tables draw from. `check` is asked first: it refuses what doesn't fit together."""
from dataclasses import dataclass

from .certificates import Certificate, read_certificate
from .defined_reports import see_that_it_is_of
from .fault import Misuse
from .file_contents import LONGEST_CERTIFICATE, content_of
from .junctions import Junction, read_junction
from .program import Program
from .reasons import Reason, reason_for
from .reports import Report, read_report
from .timetables import Timetable, read_timetable


@dataclass(frozen=True)
class Shown:
    """Without a plan there is no timetable. The contents are the bytes of junction and certificate that were judged."""
    junction: Junction
    certificate: Certificate
    verdict: str
    report: Report
    timetable: Timetable | None
    reason: Reason
    contents: tuple[bytes, bytes]

    def holding_lanes(self):
        """The names of the lanes that hold the multiplier down: at the plan's multiple they are at their limit."""
        return {lane.name for lane, figures in zip(self.junction.lanes, self.report.lanes)
                if figures.saturation * self.report.multiplier * 1000 == lane.limit}


FORM = "JUNCTION CERT [--report FILE]"


def shown_by(words):
    """What is shown of the files that the words of this form name."""
    if len(words) == 2:
        return show(Program(), *words)
    if len(words) == 4 and words[2] == "--report":
        return show(Program(), words[0], words[1], words[3])
    raise Misuse


def show(program, junction_path, certificate_path, report_path=None):
    """What is shown of the files of a junction, of a certificate, and of its report, if the user kept it."""
    junction, certificate = content_of(junction_path), content_of(certificate_path, LONGEST_CERTIFICATE)
    report = None if report_path is None else content_of(report_path).decode("ascii", "replace")
    return shown_of(program, junction, certificate, report, (junction_path, certificate_path, report_path))


def shown_of(program, junction, certificate, report=None, names=("the junction", "the certificate", "the report")):
    """The same of the bytes of two files and the text of a report."""
    verdict = program.verdict(junction, certificate)
    junction_name, certificate_name, report_name = names
    read = read_junction(junction, junction_name)
    claim = read_certificate(certificate, certificate_name)
    told = read_report(program.report(junction, certificate) if report is None else report, report_name or "the report")
    see_that_it_is_of(told, read, claim, report_name or "the report")
    timetable = None
    if claim.plan:
        rows = program.rows(junction, certificate, claim.plan.cycle)
        timetable = read_timetable(rows, [group.name for group in read.groups])
    contents = junction, certificate
    return Shown(read, claim, verdict, told, timetable, reason_for(read, claim), contents)
