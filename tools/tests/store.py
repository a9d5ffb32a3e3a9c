"""Runs the program for each case of the tests, keeps what it prints, and draws the pictures of examples/ from that:

    PYTHONPATH=tools python3 -m tests.store
"""
from dolthrew_view.certificates import read_certificate
from dolthrew_view.diagram import diagram
from dolthrew_view.program import CERTIFICATE_FILE, JUNCTION_FILE, Program, files

from .stored import CASES, COMMANDS, PICTURES, junction_of, shown, stored

# So that no certificate is long.
BUDGET = "20000"


def store(program, name, kind):
    junction = junction_of(name)
    command, *options = COMMANDS[kind]
    with files(junction) as folder:
        _, report = program.answer([command, JUNCTION_FILE, CERTIFICATE_FILE, *options, "--budget", BUDGET], folder)
        _, verdict = program.answer(["check", JUNCTION_FILE, CERTIFICATE_FILE], folder)
        with open("%s/%s" % (folder, CERTIFICATE_FILE), "rb") as file:
            certificate = file.read()
    keep = {"json": certificate, "report": report, "verdict": verdict}
    plan = read_certificate(certificate, name).plan
    if plan:
        keep["rows.csv"] = program.rows(junction, certificate, plan.cycle).encode("ascii")
    for ending, content in keep.items():
        stored(name, kind, ending).write_bytes(content)


def main():
    program = Program()
    for case in CASES:
        store(program, *case)
        print(*case)
    for path, case in PICTURES.items():
        if shown(*case).timetable:
            path.write_text(diagram(shown(*case)), "utf-8")


if __name__ == "__main__":
    main()
