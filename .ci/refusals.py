#!/usr/bin/env python3
"""Looks at where each mutation of the gate was refused, in what `rt ci` printed: refusals.py FILE.

An answer of a proof may fit a mutated function no more, which shows nothing of the contract. So the first place that the prover names has to be
in the file that the mutation changes.
"""
import glob
import os
import re
import sys

TOP = os.path.dirname(os.path.dirname(os.path.realpath(__file__)))


def mutated_file(path):
    """The file that a mutation changes first."""
    with open(os.path.join(TOP, path), encoding="utf-8") as file:
        return next(line.removeprefix("file: ").strip() for line in file if line.startswith("file: "))


def fault(path, printed):
    """What is wrong with the refusal of a mutation, or None."""
    crate, name = path.split("/")[1], os.path.basename(path)
    due = mutated_file(path)
    said = re.search(r"^rt: must-fail %s/%s: (.*)$" % (crate, re.escape(name)), printed, re.M)
    if not said:
        return "it was not tried"
    place = re.match(r"refused, as it must be: (?:note: )?(?:\./)?(\S+?):\d+:\d+:", said[1])
    if not place:
        return said[1]
    if place[1] != due:
        return "it was refused in %s and not in %s: %s" % (place[1], due, said[1])
    return None


def main():
    with open(sys.argv[1], encoding="utf-8", errors="replace") as file:
        printed = file.read()
    found = [(path, fault(path, printed)) for path in sorted(glob.glob("crates/*/must-fail/*.edit", root_dir=TOP))]
    wrong = [(path, what) for path, what in found if what]
    for path, what in wrong:
        print("refusals: %s: %s" % (path, what), file=sys.stderr)
    sys.exit(1 if wrong else 0)


if __name__ == "__main__":
    main()
