#!/usr/bin/env python3
"""Compares the logic of the kit that `--version` names with that of the kit at hand: kits of one logic differ in their letter alone."""
import os
import re
import subprocess
import sys

TOP = os.path.dirname(os.path.dirname(os.path.realpath(__file__)))
LOGIC = re.compile(r"\blogic ([0-9a-f]+)")


def logic_of(text, place):
    found = LOGIC.search(text)
    if not found:
        sys.exit("kit_version: %s names no logic" % place)
    return found[1]


def main():
    place = "crates/sb_commands/src/help_texts.rt"
    with open(os.path.join(TOP, place), encoding="utf-8") as file:
        named = logic_of(file.read(), place)
    kit = logic_of(subprocess.run(["rt", "version"], check=True, capture_output=True, text=True).stdout, "`rt version`")
    if named != kit:
        sys.exit("kit_version: %s names logic %s, and the kit has %s" % (place, named, kit))


if __name__ == "__main__":
    main()
