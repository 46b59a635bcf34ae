"""A directory with 100,000 names, scripts of many or long names, and pipes that come and go."""
import os

import programs
import texts

ROUNDS = 10
MANY = ROUNDS * 100_000
LEAST_A_SECOND = 500_000

CALLS = 4096
LONG = "n" * 1_300_000
FILES = 2000
PIPES = 4096
MAX_SECONDS_OF_PIPES = 0.015

# What is measured, with its opening, its calls, and the most seconds that the best run may take. The names are as long, and the
# lines as many, as the limits of scripts let them be, or nearly.
SCRIPTS = [
    ("two nested names of 1.3 MB", ['dir "\\%s"' % LONG, 'dir "\\%s\\n"' % LONG], ['ping 0 ""'], 0.2),
    ("4,096 events with names of 800 units", ['event "\\%s%04d" 0 0' % ("n" * 795, n) for n in range(CALLS)], ['ping 0 ""'], 0.1),
    ("the same names falling", ['event "\\%s%04d" 0 0' % ("n" * 795, n) for n in reversed(range(CALLS))], ['ping 0 ""'], 0.1),
    ("the same names shuffled", ['event "\\%s%04d" 0 0' % ("n" * 795, n * 1597 % CALLS) for n in range(CALLS)], ['ping 0 ""'], 0.1),
    ("900 directories, each below the one before", ['dir "%s"' % ("\\d" * n) for n in range(1, 901)], ['ping 0 ""'], 0.035),
    ("4,096 opens of one file", ['file "\\f" 0'], ['file.open "\\f" 0x80000000 7 0'] * CALLS, 0.025),
    (
        "4,096 renames of a directory of 2,000 files, with 2,000 names after it",
        ['dir "\\a"'] + ['file "\\a\\%d" 0' % n for n in range(FILES)] + ['file "\\z%d" 0' % n for n in range(FILES)],
        ['file.rename "\\a" "\\c"', 'file.rename "\\c" "\\a"'] * (CALLS // 2),
        0.1,
    ),
    (
        "4,096 directories, each renamed into the one before it until all are nested",
        ['dir "\\d%d"' % n for n in range(CALLS)],
        ['file.rename "\\d%d" "\\d%d\\d%d"' % (n, n - 1, n) for n in range(CALLS - 1, 0, -1)],
        0.1,
    ),
]

# A name of 4 MB whose parent is missing, with which no run begins.
DEEP = 'dir "%s"' % ("\\a" * 2_000_000)


def measure_directory(runs):
    """Adds, finds and renames per second in a directory with 100,000 names. Each name is renamed and back again in a round."""
    adds = programs.seconds_spent(runs, "crowd-add", ROUNDS, "added %d" % MANY, "added 0")
    finds = programs.seconds_spent(runs, "crowd-find", ROUNDS, "found %d" % MANY, "found 0")
    moves = programs.seconds_spent(runs, "crowd-rename", ROUNDS, "renamed %d" % (2 * MANY), "renamed 0")
    each = MANY / adds, MANY / finds, 2 * MANY / moves
    print("100,000 names in a directory: %d adds, %d finds, %d renames per second" % each)
    if min(each) < LEAST_A_SECOND:
        programs.miss("fewer than %d per second" % LEAST_A_SECOND)


def measure_scripts(runs):
    """The seconds of each script. It fails where its best run takes more than the most."""
    rules = ["allow ping", "allow file.open", "allow file.rename"]
    for told, opening, calls, most in SCRIPTS:
        with texts.folder_with(texts.single_policy(rules), texts.single_target([calls], opening)) as folder:
            best = min(programs.replay(folder)[0] for _ in range(runs))
        print("replay: %s, %.3f s" % (told, best))
        if best > most:
            programs.miss("%s take more than %.3f seconds" % (told, most))


def pipes(target):
    """The statements of one of two targets, each of which makes 2,048 pipes and closes each again. Handles are numbered over both targets,
    which take turns."""
    for n in range(PIPES // 2):
        yield 'call pipe.create "\\p%d" 3 0 255' % target
        yield "call handle.close %d" % (2 * n + target + 1)


def measure_pipes(runs):
    """The seconds in which two targets make 4,096 pipes and close each again. Each call is a success."""
    script = ["sandbox-script 1"]
    for target in range(2):
        script += texts.target_lines("t%d" % target, 1, [list(pipes(target))])
    with texts.folder_with(texts.single_policy(["allow pipe.create", "allow handle.close"]), script) as folder:
        best = min(programs.replay(folder)[0] for _ in range(runs))
        with open(os.path.join(folder, "transcript")) as file:
            results = [line for line in file if line.startswith("result")]
    if len(results) != 2 * PIPES or not all(" reply 0 0 00000000 " in line for line in results):
        programs.fail("a call on a pipe was no success")
    print("replay: 4,096 pipes made and closed, %.3f s" % best)
    if best > MAX_SECONDS_OF_PIPES:
        programs.miss("4,096 pipes take more than %.3f seconds" % MAX_SECONDS_OF_PIPES)


def measure_missing_parent(runs):
    """The seconds after which a script is refused whose first name has 4 MB and a parent that is missing."""
    with texts.folder_with(texts.single_policy([]), texts.single_target([['ping 0 ""']], [DEEP])) as folder:
        told = [programs.outcome_of_sandbox(folder, ["replay", "policy", "script"]) for _ in range(runs)]
    if any(outcome[:2] != (4, "") or not outcome[2].startswith("sandbox: script line 2 fault 14") for _, outcome in told):
        programs.fail("a name of 4 MB whose parent is missing gave %r" % (told[0][1],))
    best = min(seconds for seconds, _ in told)
    print("replay: a name of 4 MB whose parent is missing, %.3f s" % best)
    if best > 0.2:
        programs.miss("a name of 4 MB takes more than 0.20 seconds")


def measure(runs):
    measure_directory(runs)
    measure_scripts(runs)
    measure_pipes(runs)
    measure_missing_parent(runs)
