"""Moves of handles: the time of `dup` beyond that of `replay` of the same policies and script. Each work may take MAX_SECONDS of it."""
import os

import programs
import texts

MOVES = 4096
RULES = 256
FILES = 4000
READ = 0x80000000
MAX_SECONDS = 0.02

REPLAY = ["replay", "policy", "script"]
DUP = ["dup", "policy", "script", "moves"]

# Each work is done at least so often, since it is short.
LEAST_RUNS = 9

OPENING = ['dir "\\docs"', 'dir "\\docs\\w"'] + ['file "\\docs\\w\\f%d" 0x20' % n for n in range(FILES)]


def policies():
    """Eight policies of 256 rules, of which the last for `file.open` allows it."""
    lines = ["sandbox-policy 1"]
    for policy in range(8):
        lines.append("policy p%d" % policy)
        lines += ['allow file.open when name like "\\docs\\d%d\\*" and access has 0x%x' % (n, READ) for n in range(RULES - 2)]
        lines += ['allow file.open when name like "\\docs\\w\\*"', "allow file.rename"]
    return lines


def script(calls):
    """A script of eight targets, of which the first makes these calls."""
    lines = ["sandbox-script 1", *OPENING]
    for target in range(8):
        made = calls if target == 0 else []
        lines += ["target t%d p%d 1" % (target, target), "thread", *("call " + call for call in made)]
    return lines


def opens(count):
    return ['file.open "\\docs\\w\\f%d" 0x%x 7 0' % (n % FILES, READ) for n in range(count)]


def renames(count):
    """A file is opened, and then renamed again and again."""
    names = ["f0"] + ["g%d" % n for n in range(count)]
    return opens(1) + ['file.rename "\\docs\\w\\%s" "\\docs\\w\\%s"' % pair for pair in zip(names, names[1:])]


def round_all(count):
    """Each target gives what it was given to the next one."""
    return [(n % 8, n + 1, (n + 1) % 8) for n in range(count)]


def from_first(count):
    """The first target gives each of its handles."""
    return [(0, n + 1, 1 + n % 7) for n in range(count)]


def check_dup(folder, moves):
    """`dup` writes what `replay` does, then a line for each of the moves, all of which are given, and their totals."""
    lines = []
    for words in (REPLAY, DUP):
        programs.transcribe(folder, words)
        with open(os.path.join(folder, "transcript")) as file:
            lines.append(file.read().splitlines())
    replayed, moved = lines
    if moved[: len(replayed)] != replayed or len(moved) != len(replayed) + moves + 1 or moved[-1] != "moves %d given %d" % (moves, moves):
        programs.fail("dup of %d moves put %d lines and ends with %r" % (moves, len(moved), moved[-1:]))


def measure_moves(runs, name, calls, moves):
    """The seconds that moves take beyond those of the run."""
    with texts.folder_with(policies(), script(calls)) as folder:
        texts.write_lines(folder, "moves", ["sandbox-moves 1"] + ["move %d %d %d 0x%x" % (*move, READ) for move in moves])
        check_dup(folder, len(moves))
        replayed, moved = programs.best_in_turns(max(runs, LEAST_RUNS), folder, [REPLAY, DUP])
    print("dup: %d moves %s, %.4f seconds beyond the run" % (len(moves), name, moved - replayed))
    if moved - replayed > MAX_SECONDS:
        programs.miss("%d moves %s take more than %.2f seconds" % (len(moves), name, MAX_SECONDS))


def measure(runs):
    measure_moves(runs, "of one handle round eight targets", opens(1), round_all(MOVES))
    measure_moves(runs, "of as many handles", opens(MOVES), from_first(MOVES))
    measure_moves(runs, "of a handle on a file that was renamed", renames(MOVES - 1), round_all(MOVES))
