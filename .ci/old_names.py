#!/usr/bin/env python3
"""Looks for declared names that the repository does not use: each has a plainer one, which is beside it here.

A name is declared by an item, a variant, a field or a module of the code, or by a definition of specs/. Participles and the names of
functions of Rust's library are looked for as functions and definitions alone: as a field or a variable they say what a value is.
"""
import os
import re
import sys

TOP = os.path.dirname(os.path.dirname(os.path.realpath(__file__)))
# any declaration
NAMES = {
    "wide_of": "Wide::from_units", "TextKind": "PolicyFaultKind", "Taken": "BlockCopy",
    "informations": "descriptors", "information": "descriptor", "Seen": "Observed", "Mark": "Answer", "BookSeat": "the worker's seat",
    "fives": "all_abandoned", "Field": "RunContext", "Hand": "Server", "man": "staff", "CleanMarks": "CleanTable", "clean_marks": "clean_table",
}
# functions and definitions
FUNCTIONS = {
    "same": "eq_ignore_ascii_case", "fold": "to_ascii_uppercase", "units": "Wide::from_str",
    "headed": "a noun or a verb", "passed": "a noun or a verb", "turned": "a noun or a verb", "begun": "a noun or a verb",
}


def declared(path, text):
    """The names that a file declares, with True for those of functions and definitions."""
    if path.endswith(".antt"):
        for match in re.finditer(r"(?m)^(?:abbrev |unfoldable |pub |record |data )*([\w'-]+) (?::|\()", text):
            yield match[1], True
        for match in re.finditer(r"(?m)^\s+(?:pub )?([\w'-]+) :", text):
            yield match[1], False
        return
    text = re.sub(r"//.*", "", text)
    for match in re.finditer(r"\bfn (\w+)", text):
        yield match[1], True
    for match in re.finditer(r"\b(?:struct|enum|trait|type|mod|const|static) (\w+)", text):
        yield match[1], False
    for match in re.finditer(r"\b(?:struct|enum) \w+[^;{]*\{(.*?)^\}", text, re.S | re.M):
        for name in re.findall(r"(?m)^    (?:pub(?:\([a-z]+\))? )?(\w+)\s*(?::|,|\(|\{)", match[1]):
            yield name, False


def main():
    found = []
    for folder, folders, files in os.walk(os.path.join(TOP, "crates")):
        folders[:] = [name for name in folders if name not in ("out", "proofs")]
        for name in sorted(files):
            path = os.path.join(folder, name)
            module, ending = os.path.splitext(name)
            if ending not in (".rt", ".antt"):
                continue
            with open(path, encoding="utf-8") as file:
                names = list(declared(path, file.read())) + [(module, False)]
            for declaration, is_function in names:
                if declaration in NAMES or (is_function and declaration in FUNCTIONS):
                    better = NAMES.get(declaration) or FUNCTIONS[declaration]
                    found.append(f"{os.path.relpath(path, TOP)}: {declaration}, which is {better}")
    print("\n".join(found) or "no old names")
    sys.exit(1 if found else 0)


main()
