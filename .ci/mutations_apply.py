#!/usr/bin/env python3
"""Looks for the text that each mutation changes: each `old:` text of `must-fail/` and `mutations/` is in its file exactly once."""
import glob
import os
import sys

TOP = os.path.dirname(os.path.dirname(os.path.realpath(__file__)))


def faults(path):
    """What keeps the mutation of a file from being applied."""
    crate = os.path.dirname(os.path.dirname(path))
    target = None
    with open(os.path.join(TOP, path), encoding="utf-8") as file:
        lines = file.read().splitlines()
    for line in lines:
        if line.startswith("file: "):
            target = os.path.join(crate, line.removeprefix("file: "))
        if line.startswith("old: "):
            text = line.removeprefix("old: ")
            try:
                with open(os.path.join(TOP, target), encoding="utf-8") as file:
                    count = file.read().count(text)
            except FileNotFoundError:
                yield "%s: there is no %s" % (path, target)
                continue
            if count != 1:
                yield "%s: this text is %d times in %s: %s" % (path, count, target, text)


def main():
    paths = sorted(glob.glob("crates/*/must-fail/*.edit", root_dir=TOP) + glob.glob("crates/*/mutations/*.edit", root_dir=TOP))
    found = [fault for path in paths for fault in faults(path)]
    for fault in found:
        print("mutations_apply: " + fault, file=sys.stderr)
    sys.exit(1 if found else 0)


if __name__ == "__main__":
    main()
