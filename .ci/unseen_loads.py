#!/usr/bin/env python3
"""Looks for loads of an atomic table that no contract sees, in the sources of each crate that uses `atomic_table`.

A load by a seat is a step of the table's rule, and contracts speak of it. `peek` needs no seat, `load_new_seat` makes one of its own, and
what is below `raw` reads memory without a table: none of them may be called.
"""
import glob
import os
import re
import sys

sys.dont_write_bytecode = True

from graph import TOP, libraries

UNSEEN = re.compile(r"\bpeek\b|\bload_new_seat\b|\braw\s*::")


def main():
    found = False
    for crate in (crate for crate, names in libraries().items() if "atomic_table" in names):
        for path in sorted(glob.glob("crates/%s/src/**/*.rt" % crate, root_dir=TOP, recursive=True)):
            with open(os.path.join(TOP, path), encoding="utf-8") as file:
                for number, line in enumerate(file, 1):
                    for name in UNSEEN.findall(line.partition("//")[0]):
                        print("unseen_loads: %s:%d: %s" % (path, number, name), file=sys.stderr)
                        found = True
    sys.exit(1 if found else 0)


if __name__ == "__main__":
    main()
