"""What a claim says, in words."""
from .figures import exact, rounded


def headline(shown):
    """The figures of a plan and the verdict, in a line."""
    report = shown.report
    parts = []
    if report.cycle:
        parts = ["cycle %d s" % report.cycle, "multiplier %s" % rounded(report.multiplier, 3),
                 "reserve %s per cent" % rounded(report.reserve, 1)]
    return "; ".join(parts + ["check says: %s" % shown.verdict])


def claim_words(shown):
    """What was proved by a certificate with this claim."""
    least = exact(shown.certificate.least)
    if shown.certificate.claim == "capacity":
        return "No plan of this junction has a greater multiplier, and none of a shorter cycle has as great a one."
    if shown.certificate.claim == "cycle":
        return "No plan of this junction with a shorter cycle carries %s times the flows." % least
    if shown.certificate.claim == "infeasible":
        return "No plan of this junction carries %s times the flows." % least
    found = "It found no plan."
    if shown.certificate.plan:
        found = "This is the best plan that it found, and it isn't proved to be the best there is."
    return "The search stopped at its budget of %d nodes. %s" % (shown.certificate.budget, found)
