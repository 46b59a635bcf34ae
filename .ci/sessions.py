"""Sessions: commands and what they print, as documents and examples show them, and the programs that they are run with.

A session is lines of the form

    $ COMMAND
    what it writes to standard output and to standard error

A line `..` stands for one or more lines. `$ cat FILE` shows a file: one that is there is compared, any other is written, for the commands after it.
In a document a session is an indented or fenced block that begins with `$ `. The sessions of one document are run in order, by bash, in one
folder, which has examples/ and the program as `sandbox`.
"""
import os
import re
import shutil
import subprocess

TOP = os.path.dirname(os.path.dirname(os.path.realpath(__file__)))
BUILT = ("crates/sb_main/out/sb_main", "crates/sb_main/out/sb_main.by-rattle")
SECONDS = 60


class Command:
    """A command of a session: where it is, its text, and the lines that it is to print."""

    def __init__(self, place, number, text):
        self.place, self.number, self.text, self.lines = place, number, text, []

    def __str__(self):
        return "%s:%d: $ %s" % (self.place, self.number, self.text)

    def words(self):
        """The command as it is compared with others: `./sandbox` is `sandbox`."""
        return re.sub(r"(?<!\S)\./sandbox\b", "sandbox", self.text)


def text_of(path):
    with open(os.path.join(TOP, path), encoding="utf-8") as file:
        return file.read()


def programs(named):
    """The programs that are named, or else those that `rt ci` left, or else that of ./sandbox: the path of each."""
    found = [os.path.realpath(name) for name in named] or [os.path.join(TOP, name) for name in BUILT if os.path.isfile(os.path.join(TOP, name))]
    return found or [os.path.join(TOP, "out", "sandbox")]


def fenced_or_indented(lines):
    """The blocks of code of a document: each the number of its first line, and its lines without their indent."""
    at, was_blank = 0, True
    while at < len(lines):
        start, block = at, []
        if lines[at].startswith("```"):
            end = next((end for end in range(at + 1, len(lines)) if lines[end].startswith("```")), len(lines))
            start, block, at = at + 1, lines[at + 1 : end], end + 1
        elif lines[at].startswith("    ") and was_blank:
            while at < len(lines) and (lines[at].startswith("    ") or not lines[at].strip()):
                block.append(lines[at][4:])
                at += 1
            while not block[-1].strip():
                block.pop()
        else:
            at += 1
        if block:
            yield start + 1, block
        was_blank = not lines[at - 1].strip()


def commands_in(place, start, lines):
    """The commands of a session that begins at this line of a file."""
    found = []
    for number, line in enumerate(lines, start):
        if line.startswith("$ "):
            found.append(Command(place, number, line[2:]))
        else:
            found[-1].lines.append(line)
    return found


def furnish(folder, program):
    """Puts into an empty folder what sessions name: the examples, and the program."""
    shutil.copytree(os.path.join(TOP, "examples"), os.path.join(folder, "examples"))
    os.symlink(program, os.path.join(folder, "sandbox"))


def environment(folder):
    return {**os.environ, "PATH": folder + ":" + os.environ.get("PATH", ""), "LC_ALL": "C.UTF-8"}


def run(folder, text, **how):
    """Runs a text by bash in a folder."""
    how = {"stdin": subprocess.DEVNULL, "stdout": subprocess.PIPE, "encoding": "utf-8", "errors": "backslashreplace", **how}
    return subprocess.run(["bash", "-c", text], cwd=folder, env=environment(folder), timeout=SECONDS, **how)


def difference(expected, printed):
    """Where a text that was printed differs from the lines that are expected, or None."""
    pattern = "".join("(?:.*\n)+" if line == ".." else re.escape(line + "\n") for line in expected)
    if re.fullmatch(pattern, printed):
        return None
    found = printed.removesuffix("\n").split("\n") * bool(printed) + ["(the end)"]
    for number, (line, now) in enumerate(zip(expected + ["(the end)"], found), 1):
        if line == "..":
            return "line %d and on, of which the last is\n  expected: %s\n  found:    %s" % (number, expected[-1], found[-2])
        if line != now:
            return "line %d\n  expected: %s\n  found:    %s" % (number, line, now)
    return "the last line has no LF"
