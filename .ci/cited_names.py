#!/usr/bin/env python3
"""Looks for each name that the documents cite in the tree, and compares the faults that the help of commands lists with docs/FORMATS.md.

A cited name is a span between backticks that is one word: a file or a folder, a contract, or a function, a law, a definition, a crate or
a word of the files that users write, with `::` or `.` between its parts. A file has to be there, by its whole path or by the end of it. A
contract is `CRATE::ITEM`, or `CRATE::ITEM.CLAUSE`: the crate has to declare the item, and the item has to have a clause of that name. Each
part of any other name has to be a word of some source; names that follow the name of a crate, as in sb_core `World`, `run`, have to be words
or files of that crate. Blocks of code, spans of several words, what `rt` makes, files of Chromium, libraries of the kit and names in capitals,
which a reader fills in, are passed over.

An item is a function, a method after its type or trait and `::`, a type or a trait of src/, or a definition of specs/. The clauses of a
function are those of its `ensures`, those of a trait also its ghost members, and those of a definition the fields of its record. A type
that contracts see through a `Model` has the clause `invariant`.

What docs/PROMISES.md lists under `Definitions:` has to be declared in one of the files of specs/ that the line names: of the crate that is
named before the file, or else of the crates of the heading.
"""
import functools
import glob
import os
import re
import sys

TOP = os.path.dirname(os.path.dirname(os.path.realpath(__file__)))
# docs/LAWS.md is made of the sources
DOCUMENTS = sorted(set(glob.glob("*.md", root_dir=TOP) + glob.glob("docs/*.md", root_dir=TOP)) - {"docs/LAWS.md"})
SOURCES = [".rt", ".antt", ".py", ".txt", ".policy", ".script", ".schedule", ".rows", ".edit", ""]
# what a reader fills in, a name that begins with `-`, any name, and files of Chromium
OTHERS = re.compile(r"\b[A-Z]{2,}\b|/-|\*|\.(?:cc|h)$|^sandbox/win")
MADE = ("/", "out/")
# libraries of the kit that no crate of ours names, but a library that we name does
LIBRARIES = {"atomic_blocks", "strsim"}
CONTRACT = re.compile(r"(sb_\w+)::([A-Za-z_]\w*(?:::\w+)?)(?:\.(\w+))?")
NAME = re.compile(r"[A-Za-z_]\w*(?:(?:::|\.)[A-Za-z_]\w*)*(?:\(\))?")
# the names that follow the name of a crate
OF_CRATE = re.compile(r"\b(sb_\w+)((?:\s+`[^`]+`(?:,| and)?)+)")
# a definition within a module of a file of specs/
INNER = re.compile(r"  (?:(?:abbrev|unfoldable) pub|pub (?:record|data)) ([A-Za-z_][\w'-]*) *[:({]")
FILE = re.compile(r"[\w.*-]*/[\w./*-]*|[\w-]+\.(?:rt|antt|md|py|txt|rows|policy|script|schedule|edit)")


def text_of(path):
    with open(os.path.join(TOP, path), encoding="utf-8", errors="replace") as file:
        return file.read()


@functools.cache
def tree():
    """The paths of all files and folders, from the top, except what `rt`, `git` and Python make."""
    paths = set()
    for folder, folders, files in os.walk(TOP):
        folders[:] = [name for name in folders if name not in (".git", "out", "__pycache__")]
        here = os.path.relpath(folder, TOP)
        paths.update(os.path.normpath(os.path.join(here, name)) for name in folders + files)
    return paths


def words_of(paths):
    """Each word of each source, and the name of each mutation."""
    words = set()
    for path in paths:
        if path.endswith(".edit"):
            words.add(os.path.splitext(os.path.basename(path))[0])
        if os.path.splitext(path)[1] in SOURCES and os.path.isfile(os.path.join(TOP, path)):
            words.update(re.findall(r"\w+", text_of(path)))
    return words


def lines_of(document):
    """The lines of a document with their numbers, except blocks of code, which are indented by four blanks after a blank line."""
    was_blank, is_code = True, False
    for number, line in enumerate(text_of(document).splitlines(), 1):
        is_code = line.startswith("    ") and (is_code or was_blank)
        was_blank = not line.strip()
        if not is_code:
            yield number, line


def cited(document):
    """The spans between backticks, each with the number of its line."""
    for number, line in lines_of(document):
        for span in re.findall(r"`([^`]+)`", line):
            yield number, span


def cited_of_crates(document):
    """The spans that follow the name of a crate, each with the number of its line and the crate."""
    for number, line in lines_of(document):
        for crate, spans in OF_CRATE.findall(line):
            for span in re.findall(r"`([^`]+)`", spans):
                yield number, crate, span


def header(lines, start, indent):
    """The text of a function from its name to its body."""
    taken = [lines[start]]
    for line in lines[start + 1 :]:
        if line.strip() and len(line) - len(line.lstrip()) <= indent and not line.lstrip().startswith((")", "where")):
            break
        taken.append(line)
    return "\n".join(taken)


def items_of_code(text):
    """The items that a file of src/ declares, each with the names of its clauses."""
    lines = re.sub(r"//.*", "", text).splitlines()
    owner, is_trait, items = None, False, {}
    for at, line in enumerate(lines):
        block = re.match(r"(?:pub(?:\([a-z]+\))? )?(impl|trait)\b(?:<.*?>(?= [A-Z]))?(?: .* for)? (\w+)", line)
        declared = re.match(r"(?:pub(?:\([a-z]+\))? )?(?:struct|enum|trait|type|const|static) (\w+)", line)
        function = re.match(r"( *)(?:pub(?:\([a-z]+\))? )?(?:unsafe |const |extern \"C\" )*fn (\w+)", line)
        member = re.match(r" +ghost (\w+)(?::| =)", line)
        if declared:
            items.setdefault(declared[1], set())
        if block:
            owner, is_trait = block[2], block[1] == "trait"
        elif line.startswith("}"):
            owner = None
        elif function:
            name = f"{owner}::{function[2]}" if owner else function[2]
            clauses = re.findall(r"(?m)^ *ensures (\w+) \{", header(lines, at, len(function[1])))
            items.setdefault(name, set()).update(clauses)
        elif member and owner and (is_trait or member[1] == "invariant"):
            items.setdefault(owner, set()).add(member[1])
    return items


def items_of_specs(text):
    """The definitions that a file of specs/ has, each with the fields of its record."""
    items, name = {}, None
    for line in text.splitlines():
        declared = re.match(r"(?:(?:abbrev|unfoldable|pub|record|data) )*([A-Za-z_][\w'-]*) *[:({]", line) or INNER.match(line)
        field = re.match(r" +(?:pub )?([\w'-]+) :", line)
        if declared:
            name = declared[1]
            items.setdefault(name, set())
        elif field and name:
            items[name].add(field[1])
    return items


@functools.cache
def items_of(crate):
    """All that a crate declares in src/ and specs/, each with the names of its clauses. None without such a crate."""
    if not os.path.isdir(os.path.join(TOP, "crates", crate)):
        return None
    items = {}
    for path in glob.glob(f"crates/{crate}/src/**/*.rt", root_dir=TOP, recursive=True):
        for name, clauses in items_of_code(text_of(path)).items():
            items.setdefault(name, set()).update(clauses)
    for path in glob.glob(f"crates/{crate}/specs/**/*.antt", root_dir=TOP, recursive=True):
        for name, clauses in items_of_specs(text_of(path)).items():
            items.setdefault(name, set()).update(clauses)
    return items


def has_contract(crate, item, clause):
    items = items_of(crate)
    return items is not None and item in items and (clause is None or clause in items[item])


@functools.cache
def tree_of(crate):
    """The ends of the paths of a crate's files, and the words of its sources."""
    paths = {path for path in tree() if path.startswith(f"crates/{crate}/")}
    modules = {os.path.splitext(os.path.basename(path))[0] for path in paths}
    return ends_of(paths), words_of(paths) | modules


def ends_of(paths):
    return {"/".join(path.split("/")[start:]) for path in paths for start in range(path.count("/") + 1)}


def is_there(span, ends, words):
    contract = CONTRACT.fullmatch(span.removesuffix("()"))
    if contract:
        return has_contract(*contract.groups())
    if OTHERS.search(span) or span.startswith(MADE) or span in LIBRARIES:
        return True
    if FILE.fullmatch(span):
        return os.path.normpath(span) in ends
    if NAME.fullmatch(span):
        parts = re.split(r"::|\.", span.removesuffix("()"))
        return all(part in words for part in (parts[-1:] if span.endswith("()") else parts))
    return True


def missing_names():
    paths = tree()
    ends, words = ends_of(paths), words_of(paths)
    for document in DOCUMENTS:
        for number, span in cited(document):
            if not is_there(span, ends, words):
                yield "%s:%d: `%s` is not there" % (document, number, span)
        for number, crate, span in cited_of_crates(document):
            if not is_there(span, *tree_of(crate)):
                yield "%s:%d: `%s` is not in %s" % (document, number, span, crate)


def definition_lines():
    """The lines of docs/PROMISES.md that list definitions, each with its number, the crates of its heading, and its whole text."""
    crates, is_listing, lines = [], False, []
    for number, line in lines_of("docs/PROMISES.md"):
        if line.startswith("#"):
            crates, is_listing = re.findall(r"\bsb_\w+", line.split(":")[0]), False
        elif re.fullmatch(r"\w+:", line):
            is_listing = line == "Definitions:"
        elif is_listing and line.startswith("- "):
            lines.append([number, crates, line])
        elif is_listing and line.startswith("  "):
            lines[-1][2] += " " + line.strip()
    return lines


def declared_in(path):
    """The names that a file of specs/ declares, also within a module."""
    return set(re.findall(r"(?m)^ *(?:(?:abbrev|unfoldable|pub|record|data) )*([A-Za-z_][\w'-]*) *[:({]", text_of(path)))


def misplaced_definitions():
    for number, crates, line in definition_lines():
        names, _, rest = line.partition(": ")
        declared = set()
        for crate, file in re.findall(r"(?:\b(sb_\w+) )?`(specs/[\w/]+\.antt)`", rest):
            paths = ["crates/%s/%s" % (owner, file) for owner in ([crate] if crate else crates)]
            for path in paths:
                if path in tree():
                    declared |= declared_in(path)
        for name in re.findall(r"`([A-Za-z_][\w'-]*)`", names):
            if name not in declared:
                yield "docs/PROMISES.md:%d: `%s` is not declared in the files of its line" % (number, name)


def rows_below(text, heading):
    """The numbers and names of the first table below a heading."""
    rows = []
    for line in text[text.index(heading) :].splitlines():
        row = re.match(r"\| (\d+) \| `?([^|`]+)`? \|", line)
        if row:
            rows.append((row[1], row[2].strip()))
        elif rows:
            break
    return rows


def listed_below(text, heading):
    """The numbers and names that the help of commands lists below a heading, each name up to a colon."""
    rows = []
    for line in text[text.index('"' + heading + " (") :].splitlines()[1:]:
        row = re.match(r" +(\d+)  ([^:(]+)", line)
        if not row:
            break
        rows.append((row[1], row[2].strip()))
    return rows


def different_lists():
    formats, help_text = text_of("docs/FORMATS.md"), text_of("crates/sb_commands/src/help_texts.rt")
    for heading, listed in [
        ("### Faults of a policy", "faults of POLICY"),
        ("### Faults of a script", "faults of SCRIPT"),
        ("### Faults of a schedule", "faults of SCHEDULE"),
        ("### Faults of links", "faults of LINKS"),
        ("### Faults of moves", "faults of MOVES"),
    ]:
        if rows_below(formats, heading) != listed_below(help_text, listed):
            yield "docs/FORMATS.md and the help of commands differ: %s" % listed


def main():
    faults = list(missing_names()) + list(misplaced_definitions()) + list(different_lists())
    for fault in faults:
        print("cited_names: " + fault, file=sys.stderr)
    sys.exit(1 if faults else 0)


if __name__ == "__main__":
    main()
