"""What the threads of a run share: steps of seats on one shared memory. These are rows of crates/sb_tables with greater numbers."""
import programs
import rowing

CRATE = "sb_tables"

# One seat alone makes at least this number of steps per second.
LEAST = 100_000_000

# Eight seats on eight targets make at least this many times the steps of one seat, on four processors.
LEAST_RATIO = 3.5

# As many loads as one statement can make.
LOADS = 1_000_000


def waits(targets, threads, count):
    """A script as rows write it: each thread of each target loads a word of its own target `count` times a million times, in vain."""
    lines = []
    for target in range(targets):
        lines.append("target t%d web 1" % target)
        for thread in range(threads):
            lines.append("thread")
            lines += ["wait %d 0 %d 1 %d" % (target, thread, LOADS)] * count
    return "; ".join(lines)


def others_waits(threads, others, count):
    """A script of two targets with `threads` and `others` threads, all of which load a word of the first target."""
    wait = ["thread"] + ["wait 0 0 63 1 %d" % LOADS] * count
    return "; ".join(["target tab web 1"] + wait * threads + ["target odd web 1"] + wait * others)


def steps_per_second(runs, script, steps):
    """The steps per second of the threads of a script in the best run, which make `steps` steps, each by a thread of its own. No worker serves."""
    return steps / rowing.seconds_of(runs, CRATE, "threads %s | paces" % script, "steps %d" % steps)


def measure_worker(runs):
    steps = 100_000_000
    made = steps / rowing.seconds_of(runs, CRATE, "looks target tab web 1 | %d" % steps, "looking true")
    print("seats: %d steps per second of a worker's seat alone" % made)
    if made < LEAST:
        programs.miss("a worker's seat alone made fewer than %d steps per second" % LEAST)


def measure_threads(runs):
    alone = steps_per_second(runs, waits(1, 1, 100), 100 * LOADS)
    print("seats: %d steps per second of a thread's seat alone" % alone)
    if alone < LEAST:
        programs.miss("a thread's seat alone made fewer than %d steps per second" % LEAST)
    eight = steps_per_second(runs, waits(8, 1, 50), 400 * LOADS)
    print("seats: %d steps per second of eight seats on eight targets, %.2f times those of one" % (eight, eight / alone))
    if eight < LEAST_RATIO * alone:
        programs.miss("eight seats on eight targets made fewer than %.1f times the steps of one" % LEAST_RATIO)
    seven = steps_per_second(runs, others_waits(4, 3, 50), 350 * LOADS)
    print("seats: %d steps per second of seven seats that load a word of one target" % seven)


def measure(runs):
    """Steps per second of a worker's seat and of a thread's alone, of eight seats on eight targets, and of seven on one."""
    rowing.build(CRATE, "data/steps.rows")
    measure_worker(runs)
    measure_threads(runs)
