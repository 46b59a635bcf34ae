#!/usr/bin/env python3
"""The crates of crates.txt and what each of them uses. Each script that asks for either reads it here.

    .ci/graph.py CRATE [--kit]

prints the crates below one, and itself; with --kit the libraries of the kit that these use.
"""
import os
import sys

TOP = os.path.dirname(os.path.dirname(os.path.realpath(__file__)))


def crate_lines():
    """The line of each crate, lowest first."""
    with open(os.path.join(TOP, "crates.txt"), encoding="utf-8") as file:
        return [line for line in file if line.strip() and not line.startswith("#")]


def name_in(line):
    return line.split(":")[0].split()[0]


def libraries():
    """Each crate, lowest first, with all libraries that it uses: crates of the repository, and those of the kit."""
    return {name_in(line): line.partition(":")[2].split() for line in crate_lines()}


def read_crates():
    """Each crate, lowest first, with the crates of the repository that it uses."""
    uses = libraries()
    return {crate: [name for name in names if name in uses] for crate, names in uses.items()}


def below(uses, crate):
    """The crates below one, and itself."""
    found, left = set(), [crate]
    while left:
        name = left.pop()
        if name not in found:
            found.add(name)
            left += uses[name]
    return found


def kit_libraries(crate):
    """The libraries of the kit that one crate, or one below it, uses."""
    uses = libraries()
    return {name for each in below(read_crates(), crate) for name in uses[each] if name not in uses}


if __name__ == "__main__":
    print("\n".join(sorted(kit_libraries(sys.argv[1]) if "--kit" in sys.argv[2:] else below(read_crates(), sys.argv[1]))))
