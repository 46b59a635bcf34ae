#!/usr/bin/env python3
"""Counts lines: the table of crates of bench/RESULTS.md, and that of sizes of docs/THEOREM.md.

    .ci/line_counts.py            prints both
    .ci/line_counts.py --write    puts them into the documents
    .ci/line_counts.py --check    fails if a document has another table

A line of code is a line of src/ that is none of these: a blank line; a comment; an import (`use`, `mod name;`); a contract (`ensures`, `requires`,
`ghost` and their text up to the closing brace, and imports of what contracts name); an attribute; a function whose body is `{}`, which only states
a law. Bare lines of specs/ and proofs/ are those that are neither blank nor a comment nor an import. All other columns are as `wc -l` counts them.

The sizes are those of the libraries and the program, without the programs that only test. What a definition rests on is its file of specs/ and each file of
specs/ of this repository that it or one of these imports. Types that definitions share with the code are declared in src/, and are not counted there.
"""
import glob
import os
import re
import sys

sys.dont_write_bytecode = True

from graph import TOP, libraries

CRATES = ["Crate", "src/", "Code", "specs/", "Bare", "proofs/", "Bare", "Mutations in the gate", "Others", "Lines of table tests"]
SIZES = ["What", "Files", "Lines", "Counted"]
# what only tests, and on which no crate rests
TESTS = {"sb_rows", "sb_cases", "sb_tables", "sb_library_tables"}
IMPORT = re.compile(r"(?:pub(?:\([a-z]+\))? )?(?:use |mod \w+;)")
CONTRACT = re.compile(r"(?:ensures|requires|ghost)\b")
FUNCTION = re.compile(r" *(?:pub(?:\([a-z]+\))? )?(?:const )?(?:extern \"C\" )?fn ")
QUOTED = re.compile(r"'[{}\[\]]'|\"(?:[^\"\\]|\\.)*\"")


def texts(crate, pattern):
    """The lines of each file of a crate."""
    for path in sorted(glob.glob(os.path.join(TOP, "crates", crate, pattern), recursive=True)):
        if os.path.isfile(path):
            with open(path, encoding="utf-8", errors="replace") as file:
                yield file.read().removesuffix("\n").split("\n")


def lines(crate, pattern):
    return sum(len(text) for text in texts(crate, pattern))


def opened(line, pair):
    """How many more brackets a line opens than it closes."""
    line = QUOTED.sub("", line)
    return line.count(pair[0]) - line.count(pair[1])


def kinds(text):
    """For each line of a file of src/ what it is: blank, comment, import, contract, attribute, or code."""
    found, kind, brackets, depth = [], None, "{}", 0
    for line in text:
        bare = line.strip()
        if depth <= 0:
            brackets = "[]" if bare.startswith(("#[", "#![")) else "{}"
            kind = kind_of(bare)
        found.append(kind if bare else "blank")
        depth = max(0, depth) + opened(line, brackets) if kind in ("import", "contract", "attribute") else 0
    return found


def kind_of(bare):
    """What an item is that begins with a line."""
    if not bare or bare.startswith("//"):
        return "comment" if bare else "blank"
    if IMPORT.match(bare):
        return "import"
    if CONTRACT.match(bare):
        return "contract"
    return "attribute" if bare.startswith(("#[", "#![")) else "code"


def code_lines(text):
    """The lines of code of a file of src/."""
    found = kinds(text)
    for at, line in enumerate(text):
        if line.strip() == "{}" and found[at] == "code":
            start = next(place for place in range(at, -1, -1) if FUNCTION.match(text[place]))
            found[start : at + 1] = ["law"] * (at + 1 - start)
    return found.count("code")


def bare_lines(text):
    """The lines of a file of specs/ or proofs/ that are neither blank nor a comment nor an import."""
    count, is_comment = 0, False
    for line in text:
        bare = line.strip()
        if bare.startswith("{-"):
            is_comment = True
        elif bare and not is_comment and not bare.startswith(("--", "use ", "pub use ", "mod ", "pub mod ")):
            count += 1
        if bare.endswith("-}"):
            is_comment = False
    return count


def imports(path):
    """The files of specs/ that one imports."""
    with open(os.path.join(TOP, path), encoding="utf-8") as file:
        for crate, names in re.findall(r"(?m)^(?:pub )?use Rattle\.(\w+)\.specs\.([\w.]+?)(?:\.\{|\.TheVariants\b| as |$)", file.read()):
            parts = names.split(".")
            for end in (len(parts), len(parts) - 1):
                found = "crates/%s/specs/%s.antt" % (crate, "/".join(parts[:end]))
                if os.path.isfile(os.path.join(TOP, found)):
                    yield found
                    break


def rests_on(path):
    """A file of specs/, and each that it or one of these imports."""
    found, left = set(), [path]
    while left:
        name = left.pop()
        if name not in found:
            found.add(name)
            left += imports(name)
    return found


def size_of(files, count):
    """How many files, how many lines they have, and how many of these count."""
    read = []
    for path in files:
        with open(os.path.join(TOP, path), encoding="utf-8", errors="replace") as file:
            read.append(file.read().removesuffix("\n").split("\n"))
    return [len(read), sum(map(len, read)), sum(map(count, read))]


def sizes():
    """The rows of the table of sizes."""
    product = [crate for crate in libraries() if crate not in TESTS]

    def files(pattern):
        return [path for crate in product for path in glob.glob("crates/%s/%s" % (crate, pattern), root_dir=TOP, recursive=True)]

    yield "code, in `src/`", size_of(files("src/**/*.rt"), code_lines)
    yield "contracts, in the same files", size_of(files("src/**/*.rt"), lambda text: kinds(text).count("contract"))
    yield "definitions, in `specs/`", size_of(files("specs/**/*.antt"), bare_lines)
    yield "of these, what `promise_is_kept` rests on", size_of(rests_on("crates/sb_top/specs/Promise.antt"), bare_lines)
    yield "of these, what `IsPromisedRun` and `IsTranscript` rest on", size_of(rests_on("crates/sb_top/specs/PromisedRuns.antt"), bare_lines)
    yield "proofs, in `proofs/`", size_of(files("proofs/**/*.antt"), bare_lines)


def row(crate):
    sources = [(lines(crate, pattern), sum(map(count, texts(crate, pattern)))) for pattern, count in [
        ("src/**/*.rt", code_lines), ("specs/**/*.antt", bare_lines), ("proofs/**/*.antt", bare_lines)]]
    mutations = [len(glob.glob(os.path.join(TOP, "crates", crate, folder, "*.edit"))) for folder in ("must-fail", "mutations")]
    return [number for pair in sources for number in pair] + mutations + [lines(crate, "data/**/*")]


def table(heads, rows):
    """The lines of a table of names and numbers."""
    yield "| %s |" % " | ".join(heads)
    yield "|---" * len(heads) + "|"
    for name, numbers in rows:
        yield "| %s | %s |" % (name, " | ".join(f"{number:,}" for number in numbers))


def tables():
    """Each document with its table."""
    rows = [(crate, row(crate)) for crate in libraries()]
    rows.append(("all", [sum(column) for column in zip(*(numbers for _, numbers in rows))]))
    yield "bench/RESULTS.md", list(table(CRATES, rows))
    yield "docs/THEOREM.md", list(table(SIZES, sizes()))


def changed(document, wanted):
    """A document with this table in the place of the one that has the same heads."""
    with open(os.path.join(TOP, document), encoding="utf-8") as file:
        text = file.read().split("\n")
    start = text.index(wanted[0])
    end = next((at for at in range(start, len(text)) if not text[at].startswith("|")), len(text))
    return "\n".join(text), "\n".join(text[:start] + wanted + text[end:])


def main():
    how, status = sys.argv[1] if sys.argv[1:] else "", 0
    for document, wanted in tables():
        if not how:
            print("\n".join([*wanted, ""]))
            continue
        old, new = changed(document, wanted)
        if how == "--write":
            with open(os.path.join(TOP, document), "w", encoding="utf-8") as file:
                file.write(new)
        elif old != new:
            print("line_counts: %s has other numbers than the sources: run .ci/line_counts.py --write" % document, file=sys.stderr)
            status = 1
    sys.exit(status)


if __name__ == "__main__":
    main()
