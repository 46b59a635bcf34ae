#!/usr/bin/env python3
"""Runs the commands that the documents and the examples show, and compares what they print: examples.py [PROGRAM..].

The sessions (`.ci/sessions.py`) of README.md, docs/ and bench/GENERATED.md are run, and those of the files examples/NAME.expected. It is a fault if

- a command prints another text than the one beside it;
- a block of a document shows a command of `sandbox`, or lines that it prints, and does not begin with `$ `;
- a document shows a file by `$ cat` that no command after it names;
- no session of examples/ has the command that the help of a command or a comment of an example shows, or names a file of examples/.

The programs are those that `rt ci` built by two compilers, or else that of ./sandbox.
"""
import glob
import os
import re
import subprocess
import sys
import tempfile

sys.dont_write_bytecode = True

from sessions import TOP, commands_in, difference, fenced_or_indented, furnish, programs, run, text_of

DOCUMENTS = ["README.md", "bench/GENERATED.md"] + sorted(glob.glob("docs/*.md", root_dir=TOP))
EXPECTED = sorted(glob.glob("examples/*.expected", root_dir=TOP))
# a line of a block that is a command of the program, or one that the program prints
COMMAND = re.compile(r"(?:\$ )?(?:\./)?sandbox [a-z-]")
PRINTED = re.compile(
    r"sandbox: |entry \d+ \S+ \d+ mark |result \S+ \d+ \d+ |total entries \d|audit yes |move \d+ \S+ \d+ \S+ [a-z-]+ |moves \d+ given |stopped \S+ \d+ mark "
    r"|linked calls \d|local \S+ \d+ \d+ |made targets \d|code [a-z0-9_]+ [a-z]+\.?[a-z]*$"
)
CAT = re.compile(r"cat ([\w./-]+)$")


def sessions_of(document):
    """The commands of a document, and the faults of its blocks."""
    commands, faults = [], []
    for start, block in fenced_or_indented(text_of(document).splitlines()):
        if block[0].startswith("$ "):
            commands += commands_in(document, start, block)
            continue
        for number, line in enumerate(block, start):
            if line.startswith("$ ") or COMMAND.match(line) or PRINTED.match(line):
                faults.append("%s:%d: a block that shows a command or what it prints begins with `$ `: %s" % (document, number, line))
                break
    return commands, faults


def named_later(commands, at, name):
    """Whether a later command of the program names a file."""
    return any(re.search(r"(?<!\S)%s(?!\S)" % re.escape(name), command.text) and "sandbox" in command.text for command in commands[at + 1 :])


def faults_of_run(commands, program):
    """Runs the commands of a document in a folder of their own."""
    by = "" if program.endswith("/sb_main") else " (by %s)" % os.path.relpath(program, TOP)
    status = 0
    with tempfile.TemporaryDirectory() as folder:
        furnish(folder, program)
        for at, command in enumerate(commands):
            shown = CAT.match(command.text)
            if shown and not os.path.exists(os.path.join(folder, shown[1])):
                with open(os.path.join(folder, shown[1]), "w", encoding="utf-8") as file:
                    file.writelines(line + "\n" for line in command.lines)
                if not named_later(commands, at, shown[1]):
                    yield "%s: no command after it names this file" % command
                continue
            try:
                ran = run(folder, "(exit %d)\n%s" % (status, command.text), stderr=subprocess.STDOUT)
            except subprocess.TimeoutExpired:
                yield "%s%s: it does not end" % (command, by)
                return
            status, different = ran.returncode, difference(command.lines, ran.stdout)
            if different:
                yield "%s%s: %s" % (command, by, different)


def shown_by_help(program):
    """The commands that the helps of the program show, each with its place."""
    with tempfile.TemporaryDirectory() as folder:
        furnish(folder, program)
        names = re.findall(r"(?m)^  sandbox ([a-z]+) [A-Z]", run(folder, "sandbox help").stdout)
        for name in dict.fromkeys(name for name in names if name != "help"):
            printed = run(folder, "sandbox help " + name).stdout
            example = re.search(r"(?m)^examples?:\n((?:  .*\n)*)", printed)
            for line in re.findall(r"(?m)^  (sandbox .*)$", example[1] if example else ""):
                yield "sandbox help %s" % name, line
            if not example:
                yield "sandbox help %s" % name, "an example"


def shown_by_examples():
    """The commands that comments of the examples show, each with its place."""
    for path in sorted(glob.glob("examples/*", root_dir=TOP)):
        for number, line in enumerate(text_of(path).splitlines(), 1):
            found = re.match(r"#\s{2,}(?:\$ )?(?:\./)?(sandbox [a-z].*)$", line)
            if found and path not in EXPECTED:
                yield "%s:%d" % (path, number), found[1]


def faults_of_examples(commands, program):
    """The commands that no session of examples/ has, and the files that none names."""
    words = {command.words() for command in commands}
    for place, line in [*shown_by_help(program), *shown_by_examples()]:
        if line not in words:
            yield "%s: no session of examples/ has this command: %s" % (place, line)
    named = {name for text in words if text.startswith("sandbox ") for name in text.split()}
    for path in sorted(glob.glob("examples/*", root_dir=TOP)):
        if path not in EXPECTED and path not in named:
            yield "%s: no session of examples/ runs this file" % path


def main():
    faults, found, of_examples = [], [], []
    for document in DOCUMENTS:
        commands, wrong = sessions_of(document)
        found.append(commands)
        faults += wrong
    for path in EXPECTED:
        lines = text_of(path).splitlines()
        if not lines or not lines[0].startswith("$ "):
            sys.exit("examples: %s does not begin with `$ `" % path)
        found.append(commands_in(path, 1, lines))
        of_examples += found[-1]
    chosen = programs(sys.argv[1:])
    for program in chosen:
        if not os.access(program, os.X_OK):
            sys.exit("examples: there is no program %s: run `rt ci` or ./sandbox first" % program)
        for commands in found:
            faults += faults_of_run(commands, program)
    faults += faults_of_examples(of_examples, chosen[0])
    for fault in faults:
        print("examples: " + fault, file=sys.stderr)
    if faults:
        sys.exit(1)
    print("examples: %d commands by %d programs print what is shown" % (sum(map(len, found)), len(chosen)))


if __name__ == "__main__":
    main()
