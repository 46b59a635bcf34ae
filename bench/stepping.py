"""Steps of many actors: targets, channels, threads and stores by hand.

Each work has a bound of seconds, and one of memory where it says so. A bound holds of one processor of the machine whose figures
bench/RESULTS.md gives.
"""
import os

import programs
import texts

# Calls and stores of 8 targets with 4 threads of 4,096 statements each.
MAX_STATEMENTS = 8 * 4 * 4096

LEAST_STEPS_PER_SECOND = 100_000_000
LOADS_OF_A_WAIT = 1_000_000


def check_lines(folder, wanted, last):
    """The transcript has `wanted` lines, and this one is its last."""
    with open(os.path.join(folder, "transcript")) as file:
        lines = file.read().splitlines()
    if len(lines) != wanted or lines[-1] != last:
        programs.fail("the transcript has %d lines and ends with %r, not %d and %r" % (len(lines), lines[-1:], wanted, last))


def measure_replay(runs, name, script, schedule, lines, last, most_seconds, most_bytes=None):
    """The seconds and the peak of memory of a replay under a policy that allows pings, in the best of its runs. It fails where
    the transcript does not have this number of lines and this last one, or where the bounds are not kept."""
    with texts.folder_with(texts.single_policy(["allow ping"]), script) as folder:
        if schedule:
            texts.write_lines(folder, "schedule", schedule)
        measured = [programs.replay(folder, ["schedule"] if schedule else []) for _ in range(runs)]
        check_lines(folder, lines, last)
    best = min(seconds for seconds, _ in measured)
    most = max(size for _, size in measured)
    print("%s: %.3f seconds, %.1f MiB" % (name, best, most / 1024 / 1024))
    if best > most_seconds:
        programs.miss("%s takes more than %.2f seconds" % (name, most_seconds))
    if most_bytes and most > most_bytes:
        programs.miss("%s takes more than %d MiB" % (name, most_bytes // 1024 // 1024))


def totals(entries, results):
    """The totals of a run in which each entry is a call that was performed."""
    return "total entries %d performed %d faked 0 denied 0 refused 0 results %d" % (entries, entries, results)


def pings(targets, channels, calls):
    """A script of `targets` targets, each with `channels` channels and 4 threads of `calls` pings."""
    lines = ["sandbox-script 1"]
    for target in range(targets):
        lines += texts.target_lines("t%d" % target, channels, [['call ping %d ""' % n for n in range(calls)]] * 4)
    return lines


def measure_pings(runs):
    few, many = 8 * 4 * 1000, MAX_STATEMENTS
    measure_replay(runs, "%d pings of 8 targets with 1 channel" % few, pings(8, 1, 1000), None, 2 * few + 1, totals(few, few), 0.3)
    measure_replay(
        runs, "%d pings over 64 channels" % many, pings(8, 8, 4096), None, 2 * many + 1, totals(many, many), 2, 200 * 1024 * 1024)


def measure_stores(runs):
    """Each thread stores into all block words of its target's 8 channels in turn, none of which is then clean."""
    lines = ["sandbox-script 1"]
    for target in range(8):
        stores = ["store %d %d %d %d" % (target, n // 64 % 8, n % 64, n) for n in range(4096)]
        lines += texts.target_lines("t%d" % target, 8, [stores] * 4)
    measure_replay(
        runs, "%d stores" % MAX_STATEMENTS, lines, None, MAX_STATEMENTS + 1, totals(0, MAX_STATEMENTS), 0.3)


def waits(targets, threads, count):
    """A script of `targets` targets with `threads` threads each, which wait `count` times for a value that never comes."""
    lines = ["sandbox-script 1"]
    for target in range(targets):
        wait = "wait %d 0 63 1 %d" % (target, LOADS_OF_A_WAIT)
        lines += texts.target_lines("t%d" % target, 1, [[wait] * count] * threads)
    return lines


def measure_loads(runs):
    """12.8 million loads: of a thread that waits 12 times, and of one wait more that is shorter."""
    lines = waits(1, 1, 12) + ["wait 0 0 63 1 800000"]
    measure_replay(runs, "12800000 loads of a thread that waits", lines, None, 14, totals(0, 13), 0.6)


def measure_schedule(runs):
    """A schedule of 100,000 lines of one step each. Two threads of two targets, their workers and a thread that stores into the
    state of a channel that nobody else uses take turns, until the calls are done; all further steps look, or do nothing."""
    script = ["sandbox-script 1"]
    for target in range(2):
        calls = ['call ping %d "scheduled"' % n for n in range(100)]
        script += texts.target_lines("t%d" % target, 2, [calls, calls])
    script += texts.target_lines("stray", 1, [["store 2 0 state 2"]])
    actors = ["b0", "t0.0", "t0.1", "b1", "t1.0", "t1.1", "t2.0", "b2", "b0", "b1"]
    schedule = ["sandbox-schedule 1"] + ["step " + actors[n % len(actors)] for n in range(100_000 - 2)] + ["rounds 20000000"]
    measure_replay(runs, "a schedule of 100000 lines", script, schedule, 802, totals(400, 401), 0.1)


def measure_rounds(runs):
    """Steps per second of rounds in which every worker looks and every thread loads. It fails where there are fewer than
    LEAST_STEPS_PER_SECOND; the time of reading and printing, which is little, is counted too."""
    for targets, threads, count in ((1, 1, 20), (8, 4, 2)):
        with texts.folder_with(texts.single_policy([]), waits(targets, threads, count)) as folder:
            best = min(programs.replay(folder)[0] for _ in range(runs))
            check_lines(folder, targets * threads * count + 1, totals(0, targets * threads * count))
        speed = targets * (1 + threads) * count * LOADS_OF_A_WAIT / best
        print("rounds of %d targets with %d threads each: %d steps per second" % (targets, threads, speed))
        if speed < LEAST_STEPS_PER_SECOND:
            programs.miss("fewer than %d steps per second" % LEAST_STEPS_PER_SECOND)


def measure(runs):
    """Pings, stores, loads, a schedule, and rounds."""
    measure_pings(runs)
    measure_stores(runs)
    measure_loads(runs)
    measure_schedule(runs)
    measure_rounds(runs)
