#!/usr/bin/env python3
"""Runs the program itself for each exit status, and compares it with `.ci/statuses.txt`: statuses.py [PROGRAM..].

A case is lines of these forms, up to the line with its status:

    ? TEST          the case is skipped, and told so, if this test fails
    $ COMMAND       what bash runs: the lines of a case together, in a folder with examples/ and the program as `sandbox`
    | LINE          what it writes to standard output
    ! LINE          what it writes to standard error
    exit N          its exit status

Each status of the table in docs/FORMATS.md has to have a case. The programs are those of `.ci/examples.py`.
"""
import os
import re
import subprocess
import sys
import tempfile

sys.dont_write_bytecode = True

from sessions import TOP, difference, furnish, programs, run, text_of

CASES = ".ci/statuses.txt"


class Case:
    """A case: the number of its first line, and what it has."""

    def __init__(self, number):
        self.number, self.test, self.command, self.output, self.errors, self.status = number, "true", [], [], [], None


def cases():
    """The cases of the file."""
    case = None
    for number, line in enumerate(text_of(CASES).splitlines(), 1):
        if not line.strip() or line.startswith("#"):
            continue
        case = case or Case(number)
        kind, _, rest = line.partition(" ")
        if kind == "exit":
            case.status = int(rest)
            yield case
            case = None
        elif kind == "?":
            case.test = rest
        elif kind in "$|!":
            {"$": case.command, "|": case.output, "!": case.errors}[kind].append(rest)
        else:
            sys.exit("statuses: %s:%d: no line of a case begins so: %s" % (CASES, number, line))
    if case:
        sys.exit("statuses: %s:%d: a case without `exit`" % (CASES, case.number))


def faults_of(case, program):
    """What is wrong in a run of a case. None if it is skipped."""
    with tempfile.TemporaryDirectory() as folder:
        furnish(folder, program)
        if run(folder, case.test, stderr=subprocess.DEVNULL).returncode != 0:
            return None
        try:
            ran = run(folder, "\n".join(case.command), stderr=subprocess.PIPE)
        except subprocess.TimeoutExpired:
            return ["it does not end"]
    found = [
        ("standard output, ", difference(case.output, ran.stdout)),
        ("standard error, ", difference(case.errors, ran.stderr)),
        ("exit status", None if ran.returncode == case.status else "\n  expected: %d\n  found:    %d" % (case.status, ran.returncode)),
    ]
    return ["%s%s" % pair for pair in found if pair[1]]


def documented():
    """The statuses of the table in docs/FORMATS.md."""
    rows = text_of("docs/FORMATS.md").split("| Exit status |")[1].split("\n\n")[0]
    return {int(number) for number in re.findall(r"(?m)^\| (\d+) \|", rows)}


def main():
    faults, skipped, all_cases = [], [], list(cases())
    for number in sorted(documented() - {case.status for case in all_cases}):
        faults.append("%s has no case for exit status %d" % (CASES, number))
    for program in programs(sys.argv[1:]):
        if not os.access(program, os.X_OK):
            sys.exit("statuses: there is no program %s: run `rt ci` or ./sandbox first" % program)
        for case in all_cases:
            found = faults_of(case, program)
            if found is None:
                skipped.append("%d (%s)" % (case.status, case.test))
            for fault in found or []:
                faults.append("%s:%d: $ %s (by %s): %s" % (CASES, case.number, "; ".join(case.command), os.path.relpath(program, TOP), fault))
    for fault in faults:
        print("statuses: " + fault, file=sys.stderr)
    if faults:
        sys.exit(1)
    if skipped:
        print("statuses: skipped, since this machine or user cannot: " + ", ".join(dict.fromkeys(skipped)))
    print("statuses: %d cases are as they should be" % len(all_cases))


if __name__ == "__main__":
    main()
