#!/usr/bin/env python3
"""Writes docs/LAWS.md from the sources, or compares it: laws.py, or laws.py --check.

A law is a public function that returns nothing, changes nothing, and has no body, or one that only calls such functions: its contract is the
statement. Of each law docs/LAWS.md has the comment, the clauses, and the text of the definitions that a clause names alone; of each public
definition of specs/ the comment, the type, the fields of a record or the constructors of a type, and the text if that is one short line. The order
is that of crates.txt, then by file, then as in the file.
"""
import functools
import glob
import os
import re
import sys
import textwrap

sys.dont_write_bytecode = True

from graph import TOP, libraries

PLACE = "docs/LAWS.md"
WIDTH = 160
SHORT = 100
HEAD = """# Laws and definitions

Written by `.ci/laws.py` from the sources: change them, and run it. The gate fails if the two differ.

A *law* is a public function that does nothing, or only calls others that do nothing, and whose contract is the statement: the prover accepts it only with a
proof. A *definition* is what contracts and laws are written in. It stands in a file of `specs/`, and its whole text is there. Here it has its comment, its type,
the fields of a record or the constructors of a type, and its text if that is one short line.

Below a law are its clauses. If a clause is the name of a definition alone, the text of that definition is below it. ℕ is the natural numbers; a string is a
list of UTF-16 units, a file a list of bytes; `≡` is equality, `×` and, `⊎` or, `↔` exactly if; `(x : A) → B` is B for each x of A, `(x : A) × B` some x of A
for which B holds; `⊤` always holds and `⊥` never. Types that no file of `specs/` defines are those of the code.
"""
FUNCTION = re.compile(r"( *)pub (?:const )?fn (\w+)")
DEFINITION = re.compile(r"( *)(?:(?:abbrev|unfoldable) pub|pub (record|data)) ([^\s:({]+) *(?=[:({])")
MODULE = re.compile(r"module _ (.*) where$")
CALL = r"(?:::<[^;]*>)?\([\w., &()]*\);"
# a body that only calls functions; and one that also calls methods, which a function that by its name establishes something may have
FUNCTIONS = re.compile(r"\s*(?:(?:\w+::)*\w+%s|\s)*" % CALL)
METHODS = re.compile(r"\s*(?:(?:let _\w* = )?(?:\w+(?:\.|::))*\w+%s|\s)*" % CALL)


def text_of(path):
    with open(os.path.join(TOP, path), encoding="utf-8") as file:
        return file.read()


def files(pattern):
    return sorted(glob.glob(pattern, root_dir=TOP, recursive=True))


def comment_above(lines, at, mark):
    """The comment that ends above a line, attributes between them passed over."""
    while at and lines[at - 1].lstrip().startswith("#["):
        at -= 1
    found = []
    while at and lines[at - 1].lstrip().startswith(mark):
        at -= 1
        found.insert(0, lines[at].lstrip()[len(mark) :].strip())
    return found


def below(lines, at, indent):
    """The lines of an item from its first line up to a blank line, a comment, or the next item of the same indent."""
    taken = [lines[at]]
    for line in lines[at + 1 :]:
        here = len(line) - len(line.lstrip())
        if not line.strip() or here < indent or line.lstrip().startswith("-- ") or (here == indent and (DEFINITION.match(line) or re.match(r" *infix", line))):
            break
        taken.append(line)
    return [line[indent:].rstrip() for line in taken]


class Definition:
    """A public definition: its name, its comment, its type, its fields or constructors, and its equations."""

    def __init__(self, name, kind, comment, text, module):
        self.name, self.comment, self.module = name, comment, module
        end = 1
        while end < len(text) and text[end].startswith("    ") and not (kind and text[end - 1].endswith(" where")):
            end += 1
        head = " ".join(line.strip() for line in text[:end]).removesuffix(" where")
        self.head = re.sub(r"^(?:(?:abbrev|unfoldable) pub|pub (?:record|data)) ", "", head)
        self.parts = re.findall(r"(?m)^  (?:pub )?([^\s:]+) :", "\n".join(text[end:])) if kind else []
        self.equations = text if kind else text[end:]


@functools.cache
def definitions_in(path):
    """The public definitions of a file of specs/, in order."""
    lines, found, module = text_of(path).splitlines(), [], None
    for at, line in enumerate(lines):
        opened, declared = MODULE.match(line), DEFINITION.match(line)
        if line[:1].strip():
            module = opened[1] if opened else None
        if declared:
            text = below(lines, at, len(declared[1]))
            found.append(Definition(declared[3], declared[2], comment_above(lines, at, "--"), text, module))
    return found


def exported(crate):
    """The words of a crate's lib.rt that it makes public."""
    return set(re.findall(r"\w+", " ".join(re.findall(r"(?s)pub use [^;]*;|pub mod \w+;", text_of("crates/%s/src/lib.rt" % crate)))))


class Law:
    """A law: its name, its comment, and its clauses, each with its name or None."""

    def __init__(self, name, path, comment, clauses):
        self.name, self.path, self.comment, self.clauses = name, path, comment, clauses


def function_at(lines, at, indent):
    """The text of a function before its body, and its body. None for one whose body is written otherwise."""
    end = at
    while end < len(lines) and lines[end].rstrip() not in (" " * indent + "{}", " " * indent + "{"):
        if end > at and lines[end].strip() == "":
            return None
        end += 1
    if end == len(lines):
        return None
    if lines[end].strip() == "{}":
        return "\n".join(lines[at:end]), ""
    close = next(index for index in range(end, len(lines)) if lines[index].rstrip() == " " * indent + "}")
    return "\n".join(lines[at:end]), re.sub(r"//.*", "", "\n".join(lines[end + 1 : close]))


def laws_in(path, names):
    """The laws of a file of src/: of the items that its crate exports."""
    lines, owner = text_of(path).splitlines(), None
    for at, line in enumerate(lines):
        block = re.match(r"impl\b(?:<.*?>(?= [A-Z]))?(?: .* for)? (\w+)", line)
        owner = block[1] if block else None if line.startswith("}") else owner
        declared = FUNCTION.match(line)
        if not declared or (owner or declared[2]) not in names:
            continue
        function = function_at(lines, at, len(declared[1]))
        if function is None or "ensures" not in function[0]:
            continue
        head = function[0].split("ensures")[0]
        calls = METHODS if declared[2].startswith("establish_") else FUNCTIONS
        if "->" in re.sub(r"Fn\w*\(.*?\) -> \w+", "", head) or "&mut" in head or "requires" in head or not calls.fullmatch(function[1]):
            continue
        clauses = [(name or None, " ".join(text.split())) for name, text in re.findall(r"(?s)ensures (?:(\w+) )?\{ (.*?) \}(?=\s*(?:ensures|$))", function[0])]
        yield Law(owner + "::" + declared[2] if owner else declared[2], path, comment_above(lines, at, "///"), clauses)


def imported(path):
    """Where the definitions that a file of src/ names are: each name with its file."""
    found = {}
    for crate, module, names in re.findall(r"ghost use Rattle\.(sb_\w+)\.specs\.(\w+)\.\{([^}]*)\}", text_of(path)):
        for name in names.split(","):
            found[name.strip()] = "crates/%s/specs/%s.antt" % (crate, module)
    return found


def stated(clause, path):
    """The definition that a clause names alone, with its file, or None."""
    name = re.match(r"[A-Z]\w*", clause)
    place = imported(path).get(name[0]) if name else None
    if place is None or re.search(r"[→×≡⊎↔(]", clause):
        return None
    return next(((definition, place) for definition in definitions_in(place) if definition.name == name[0]), None)


def wrapped(text, first, rest):
    return textwrap.wrap(text, WIDTH, initial_indent=first, subsequent_indent=rest, break_long_words=False, break_on_hyphens=False)


def paragraphs(comment):
    """The paragraphs of a comment, each as one line."""
    return [" ".join(part.split()) for part in "\n".join(comment).split("\n\n") if part.strip()]


def of_law(crate, law):
    """The lines that describe a law."""
    yield "**`%s::%s`** in `%s`" % (crate, law.name, law.path.split("/", 2)[2])
    yield ""
    for paragraph in paragraphs(law.comment):
        yield from wrapped(paragraph, "", "")
        yield ""
    for name, clause in law.clauses:
        found = stated(clause, law.path)
        if name or not found or not found[0].equations[0].startswith(clause + " ="):
            yield from wrapped((name + ": " if name else "") + clause, "    ", "        ")
        if found:
            definition, place = found
            if definition.module:
                yield "    -- for all %s" % definition.module
            yield from ("    " + line for line in definition.equations)
    yield ""


def of_definition(definition):
    """The lines that describe a definition."""
    text = "- `%s`" % re.sub(r"\s+", " ", definition.head)
    if definition.module:
        text += " for all `%s`" % definition.module
    if definition.comment:
        text += ": " + " ".join(" ".join(definition.comment).split())
    if definition.parts:
        text += " (" + ", ".join("`%s`" % part for part in definition.parts) + ")"
    elif len(definition.equations) == 1 and len(definition.equations[0]) <= SHORT:
        text += " (`%s`)" % definition.equations[0].strip()
    yield from wrapped(text, "", "  ")


def head_of(path):
    """The comment at the head of a file of specs/."""
    lines = text_of(path).splitlines()
    end = next((at for at, line in enumerate(lines) if not line.startswith("--")), len(lines))
    return " ".join(line[2:].strip() for line in lines[:end])


def of_crate(crate):
    """The lines that describe a crate, or none if it has neither laws nor definitions."""
    names = exported(crate) if os.path.isfile(os.path.join(TOP, "crates", crate, "src", "lib.rt")) else set()
    laws = [line for path in files("crates/%s/src/**/*.rt" % crate) for law in laws_in(path, names) for line in of_law(crate, law)]
    definitions = []
    for path in files("crates/%s/specs/**/*.antt" % crate):
        found = [line for definition in definitions_in(path) for line in of_definition(definition)]
        if found:
            definitions += [*wrapped("**`%s`** %s" % (path.split("/", 2)[2], head_of(path)), "", ""), "", *found, ""]
    lines = (["### Laws", "", *laws] if laws else []) + (["### Definitions", "", *definitions] if definitions else [])
    return ["## " + crate, "", *lines] if lines else []


def document():
    described = [(crate, lines) for crate in libraries() if (lines := of_crate(crate))]
    links = ", ".join("[%s](#%s)" % (crate, crate) for crate, _ in described)
    lines = [*HEAD.splitlines(), "", *wrapped(links, "", ""), "", *(line for _, found in described for line in found)]
    return "\n".join(line.rstrip() for line in lines).rstrip("\n") + "\n"


def main():
    wanted = document()
    if sys.argv[1:] != ["--check"]:
        with open(os.path.join(TOP, PLACE), "w", encoding="utf-8") as file:
            file.write(wanted)
        return
    found = text_of(PLACE) if os.path.isfile(os.path.join(TOP, PLACE)) else ""
    if found != wanted:
        pairs = list(zip(found.splitlines(), wanted.splitlines()))
        at = next((number for number, (now, due) in enumerate(pairs) if now != due), len(pairs))
        line = wanted.splitlines()[at] if at < len(wanted.splitlines()) else "the end"
        sys.exit("laws: %s:%d differs from the sources, which have: %s\nlaws: run .ci/laws.py" % (PLACE, at + 1, line))
    print("laws: %s is that of the sources" % PLACE)


if __name__ == "__main__":
    main()
