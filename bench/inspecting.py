"""`audit` of transcripts that `replay` wrote: one of 4 MiB with mixed calls, the longest of pings, and one of the longest that there are.

Each has a bound of seconds, and the first and the last one of memory, on one processor of the machine whose figures bench/RESULTS.md gives.
"""
import os

import programs
import replaying
import stepping
import texts

MIB = 1024 * 1024
GIB = 1024 * MIB

# Mixed calls of each of 32 threads, whose transcript has 4 MiB.
MIXED_CALLS = 1000


def mixed_script(calls):
    """The lines of a script of 8 targets with 4 threads each, which make the mixed calls of replaying.py."""
    numbers = texts.mixed_numbers(32 * calls)
    lines = ["sandbox-script 1"] + replaying.mixed_directories()
    for target in range(8):
        threads = []
        for _ in range(4):
            made = [next(numbers) for _ in range(calls)]
            rows = [(replaying.MIXED[(number >> 20) % len(replaying.MIXED)][0], (number >> 10) % replaying.GROUPS) for number in made]
            threads.append(["call " + call.format(g=group) for call, group in rows])
        lines += texts.target_lines("t%d" % target, 1, threads)
    return lines


# Channels of the script of long names, which are all that a script can have, and how often each thread makes all of them ready: the first also lays
# the blocks.
CHANNELS = [(target, channel) for target in range(8) for channel in range(8)]
FIRST_TURNS, TURNS = 12, 62

# A block of `file.rename` both of whose names are the words from 18 on: `\\` and 183 times a unit that takes six bytes in a transcript.
NAME_WORDS = range(18, 64)
NAME_SIZE = 8 * len(NAME_WORDS)
FOUR_UNITS = sum(0xE9 << 16 * place for place in range(4))
BLOCK = {0: 5, 2: 2, 15: 1 << 32 | 18 << 16 | NAME_SIZE, 16: 1 << 32 | 18 << 16 | NAME_SIZE, 17: 64 << 16}
BLOCK.update((word, FOUR_UNITS) for word in NAME_WORDS)
BLOCK[18] += ord("\\") - 0xE9


def long_script():
    """The lines of a script whose transcript is one of the longest: a block whose two names overlap is laid once into each of 64 channels, and then 32
    threads, one after the other, make all channels ready again and again. They take turns by the mark of the first block, which is no part of the name."""
    laid = ["store %d %d %d %d" % (*place, word, value) for place in CHANNELS for word, value in BLOCK.items()]
    turn = ["store %d %d state 3" % place for place in CHANNELS] + ["wait 7 7 state 4 1000000"]
    lines = ["sandbox-script 1"]
    for target in range(8):
        threads = []
        for number in range(4 * target, 4 * target + 4):
            rows = laid + FIRST_TURNS * turn if number == 0 else 2 * ["wait 0 0 1 %d 1000000" % number] + TURNS * turn
            threads.append(rows + ["store 0 0 1 %d" % (number + 1)])
        lines += texts.target_lines("t%d" % target, 8, threads)
    return lines


def long_counts():
    """How many entries and results the run of that script has."""
    turns = FIRST_TURNS + 31 * TURNS
    results = len(CHANNELS) * len(BLOCK) + turns * (len(CHANNELS) + 1) + 31 * 2 + 32
    return turns * len(CHANNELS), results


def audited(folder, entries, results):
    """The seconds and the peak of memory of the audit of the transcript of a folder, which has this many entries and results."""
    written = os.path.join(folder, "written")
    os.replace(os.path.join(folder, "transcript"), written)
    measured = programs.transcribe(folder, ["audit", "policy", "script", "written"])
    os.replace(os.path.join(folder, "transcript"), os.path.join(folder, "answer"))
    os.replace(written, os.path.join(folder, "transcript"))
    with open(os.path.join(folder, "answer")) as file:
        answer = file.read()
    if answer != "audit yes entries %d results %d\n" % (entries, results):
        programs.fail("a transcript of %d entries and %d results was audited %r" % (entries, results, answer))
    return measured


def measure_audit(runs, name, policy, script, counts, most_seconds, most_bytes=None):
    """The seconds and the peak of memory of an audit, in the best of its runs. The counts are of entries and results. It fails where the answer is not yes, or where the bounds are not
    kept."""
    with texts.folder_with(policy, script) as folder:
        programs.replay(folder)
        size = os.path.getsize(os.path.join(folder, "transcript"))
        measured = [audited(folder, *counts) for _ in range(runs)]
    best = min(seconds for seconds, _ in measured)
    most = max(peak for _, peak in measured)
    print("audit: the transcript of %s, %.2f MiB: %.3f seconds, %.1f MiB of memory" % (name, size / MIB, best, most / MIB))
    if best > most_seconds:
        programs.miss("the audit of the transcript of %s takes more than %.2f seconds" % (name, most_seconds))
    if most_bytes and most > most_bytes:
        programs.miss("the audit of the transcript of %s takes more than %d MiB" % (name, most_bytes // MIB))
    return size


def measure(runs):
    """A transcript of 4 MiB, that of as many pings as a script can have, and one of the longest."""
    policy = texts.single_policy(replaying.mixed_rules(), 2)
    size = measure_audit(runs, "%d mixed calls" % (32 * MIXED_CALLS), policy, mixed_script(MIXED_CALLS), 2 * (32 * MIXED_CALLS,), 0.15, 60 * MIB)
    if not 4 * MIB <= size <= 4.1 * MIB:
        programs.fail("the transcript of mixed calls has %d bytes, which is not 4 MiB" % size)
    pings, many = texts.single_policy(["allow ping"]), stepping.MAX_STATEMENTS
    measure_audit(runs, "%d pings" % many, pings, stepping.pings(8, 8, 4096), (many, many), 0.7)
    counts = long_counts()
    size = measure_audit(runs, "%d renames of long names" % counts[0], texts.single_policy(["allow file.rename"]), long_script(), counts, 5, 3 * GIB // 2)
    if not 280_000_000 <= size <= 536_870_912:
        programs.fail("the transcript of renames of long names has %d bytes" % size)
