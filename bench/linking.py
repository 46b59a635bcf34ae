"""Links: names that are resolved, and files of links as long as they may be.

What a call with links may cost is told by the same calls under a file of no links, done in turns. A file of links is read with a policy and a
script of a few lines.
"""
import programs
import texts

CALLS = 8 * 4 * 4096


# The most seconds for a file of links of 4 MiB.
MAX_SECONDS = 0.05
MAX_TEXT = 4 * 1024 * 1024

# Units that differ also if letters are folded.
ENDS = [chr(0x100 + number) for number in range(64)]


def link_lines(links):
    return ["sandbox-links 1"] + ['link "%s" "%s"' % link for link in links]


def short_links():
    """64 links that each apply to names of their own."""
    return [("\\l%d" % number, "\\d%d" % number) for number in range(64)]


def long_links():
    """64 links whose FROMs have 256 units and differ in the last one alone. Calls have no room for such names."""
    return [("\\l" + "l" * 253 + end, "\\d") for end in ENDS]


def deep_links():
    """A link to a name of 150 units, and 63 whose FROMs have these units except the last one, so that no second link applies."""
    name = "\\" + "n" * 149
    return [("\\l", name)] + [(name[:-1] + end, "\\d") for end in ENDS[:63]]


def script_of(names):
    """Each target and thread makes a call of `file.query` on each of 4,096 names, in turn out of these."""
    calls = ['call file.query "%s"' % names[number % len(names)] for number in range(4096)]
    lines = ["sandbox-script 1"]
    for target in range(8):
        lines += texts.target_lines("t%d" % target, 1, [calls] * 4)
    return lines


# What is measured: in words, the links, the names of the calls, and the most that they may take, by the same calls under no links. Links apply to
# every second name of the first and the last, and to none of the others. In the last, names of 150 units are judged, performed and written where
# there are five without links.
WORKS = [
    ("64 links, of which each applies to some of the names", short_links(), ["\\%s%d\\f" % (front, n) for n in range(64) for front in "ln"], 1.5),
    ("64 links, of which none applies", short_links(), ["\\n%d\\f" % n for n in range(64)], 1.5),
    ("64 FROMs of 256 units that differ in the last one", long_links(), ["\\" + "l" * (1 + n % 12) for n in range(128)], 1.5),
    ("a link to 150 units, and 63 FROMs that differ in the last one", deep_links(), ["\\%s\\f%d" % (front, n) for n in range(64) for front in "ln"], 1.5),
]


def seconds_of(folder, links, wanted):
    """The seconds of the command with this file of links, whose last line is the one wanted."""
    spent, (status, out, _) = programs.outcome_of_sandbox(folder, ["linked", "policy", "script", links])
    last = out.splitlines()[-1] if out else None
    if status != 0 or last != wanted:
        programs.fail("calls under `%s` ended with status %d and %r, not %r" % (links, status, last, wanted))
    return spent


def measure_calls(runs, what, links, names, most):
    """Calls per second under links, and how often the time under no links goes into theirs. It fails where that is more than `most`."""
    wanted = "linked calls %d entries %d stopped 0" % (CALLS, CALLS)
    measured = {"none": [], "links": []}
    with texts.folder_with(texts.single_policy(["allow file.query"]), script_of(names)) as folder:
        texts.write_lines(folder, "none", link_lines([]))
        texts.write_lines(folder, "links", link_lines(links))
        for _ in range(runs):
            for file, seconds in measured.items():
                seconds.append(seconds_of(folder, file, wanted))
    none, some = min(measured["none"]), min(measured["links"])
    print("%d calls under %s: %d calls per second, %.2f times as long as under no links" % (CALLS, what, CALLS / some, some / none))
    if some > most * none:
        programs.miss("calls under %s take more than %.1f times as long as under no links" % (what, most))


def padded(lines, last):
    """These lines, then comments up to nearly MAX_TEXT, and the last lines."""
    comment = "# " + "where this name leads " * 40
    size = sum(len((line + "\n").encode()) for line in lines + last)
    return lines + [comment] * ((MAX_TEXT - size) // (len(comment) + 1)) + last


def texts_of_links():
    """Files of links of 4 MiB, each with the status of the command and how its message begins: read whole, and refused in the last line."""
    lines = link_lines(short_links())
    wrong = padded(lines[:-1], ['link "\\l0" "\\d"'])
    told = "sandbox: links line %d fault 4" % len(wrong)
    return [("that are read", padded(lines, []), 0, ""), ("with a fault in the last line", wrong, 12, told)]


def measure_texts(runs):
    """The seconds for files of links of 4 MiB."""
    with texts.folder_with(texts.single_policy([]), texts.single_target([])) as folder:
        for what, lines, status, message in texts_of_links():
            texts.write_lines(folder, "links", lines)
            spent = []
            for _ in range(runs):
                seconds, told = programs.outcome_of_sandbox(folder, ["linked", "policy", "script", "links"])
                spent.append(seconds)
                if told[0] != status or not told[2].startswith(message):
                    programs.fail("links %s ended with status %d and %r" % (what, told[0], told[2]))
            print("4 MiB of links %s: %.3f seconds" % (what, min(spent)))
            if min(spent) > MAX_SECONDS:
                programs.miss("4 MiB of links %s take more than %.2f seconds" % (what, MAX_SECONDS))


def measure(runs):
    """Calls under links, and files of links."""
    for work in WORKS:
        measure_calls(runs, *work)
    measure_texts(runs)
