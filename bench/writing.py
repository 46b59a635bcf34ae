"""The transcript of a report of 4,096 calls, made and put into memory: a line for each entry and each result, and the totals."""
import os

import programs
import texts

LINES = 8_193
ROUNDS = 200
LEAST_A_SECOND = 2_000_000


def lines_of(name):
    with open(os.path.join(os.path.dirname(os.path.realpath(__file__)), name)) as file:
        return file.read().splitlines()


def measure(runs):
    """Lines per second. The calls are those of book.script, in turn, under book.policy; the time of answering them is not counted."""
    with texts.folder_with(lines_of("book.policy"), lines_of("book.script")) as folder:
        seconds = programs.seconds_spent(runs, "transcript", ROUNDS, "lines %d" % LINES, "lines 0", folder)
    each = LINES * ROUNDS / seconds
    print("transcript: %d lines made and put per second" % each)
    if each < LEAST_A_SECOND:
        programs.miss("fewer than %d lines of a transcript per second" % LEAST_A_SECOND)
