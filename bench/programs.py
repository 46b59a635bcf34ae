"""The two programs that are measured, `sandbox` and the table tests of crates/sb_tables: building and running them."""
import os
import resource
import subprocess
import sys
import tempfile

TOP = os.path.dirname(os.path.dirname(os.path.realpath(__file__)))
SANDBOX = os.path.join(TOP, "out", "sandbox")
TABLES = os.path.join(TOP, "crates", "sb_tables")


# Whether a bound was missed.
missed = False


def fail(message):
    """Ends with a fault: nothing more is measured."""
    sys.exit("bench: " + message)


def miss(message):
    """Says that a bound was missed. All else is measured still."""
    global missed
    missed = True
    print("MISSED: " + message)


def processor_seconds():
    """The seconds that processors spent on all programs that were started here and have ended. Each of these has one thread, so on a
    quiet machine it is the time that they took, and on a busy one it does not count the others."""
    usage = resource.getrusage(resource.RUSAGE_CHILDREN)
    return usage.ru_utime + usage.ru_stime


def build():
    """Proves and builds both programs where that is not done."""
    subprocess.run([os.path.join(TOP, "sandbox"), "--version"], check=True, stdout=subprocess.DEVNULL)
    built = subprocess.run(["rt", "run"], cwd=TABLES, stdin=subprocess.DEVNULL, capture_output=True, text=True)
    if built.returncode != 0:
        fail("crates/sb_tables was not built\n" + built.stdout + built.stderr)


def transcribe(folder, words):
    """Runs `sandbox` with these arguments in a folder, with its output in `transcript` there: the seconds that it took and the bytes of its
    peak. It is to end with status 0."""
    with open(os.path.join(folder, "transcript"), "wb") as out:
        start = processor_seconds()
        child = subprocess.Popen([SANDBOX, *words], cwd=folder, stdout=out)
        _, status, usage = os.wait4(child.pid, 0)
        seconds = processor_seconds() - start
    child.returncode = os.waitstatus_to_exitcode(status)
    if child.returncode != 0:
        fail("sandbox %s ended with status %d" % (" ".join(words), child.returncode))
    return seconds, usage.ru_maxrss * 1024


def replay(folder, schedule=()):
    """Replays `policy` and `script` of a folder into its `transcript`, by the schedule of this name where there is one: the
    seconds that it took and the bytes of its peak."""
    return transcribe(folder, ["replay", "policy", "script", *schedule])


def best_in_turns(runs, folder, works):
    """The seconds of the best run of each of these works, given as the arguments of `sandbox`. They take turns, so that what else the machine does
    falls on each alike."""
    measured = [[] for _ in works]
    for _ in range(runs):
        for words, seconds in zip(works, measured):
            seconds.append(transcribe(folder, words)[0])
    return [min(seconds) for seconds in measured]


def outcome_of_sandbox(folder, words):
    """Runs `sandbox` in a folder: the seconds that it took, its exit status, and what it wrote to both outputs."""
    start = processor_seconds()
    ended = subprocess.run([SANDBOX] + words, cwd=folder, capture_output=True, text=True)
    return processor_seconds() - start, (ended.returncode, ended.stdout, ended.stderr)


def row_of(work, rounds, folder):
    """The row of crates/sb_tables that does a work, on `policy` and `script` of a folder where there is one."""
    files = [os.path.join(folder, name) for name in ("policy", "script")] if folder else []
    return " | ".join(["%s %d" % (work, rounds)] + files)


def seconds_of(runs, work, rounds, told, folder):
    """The seconds in which a row does a work in the given number of rounds, in the best run. What it tells of it is `told`."""
    row = row_of(work, rounds, folder)
    seconds = []
    with tempfile.TemporaryDirectory() as place:
        rows = os.path.join(place, "rows")
        with open(rows, "w") as file:
            file.write(row + "\n")
        for _ in range(runs):
            start = processor_seconds()
            program = os.path.join(TABLES, "out", "sb_tables")
            line = subprocess.run([program, rows], check=True, stdout=subprocess.PIPE, text=True).stdout
            seconds.append(processor_seconds() - start)
            if line != "%s => %s\n" % (row, told):
                fail("%s put %r, not %r" % (row, line, told))
    return min(seconds)


def seconds_spent(runs, work, rounds, told, told_of_none, folder=None):
    """The same, without the time of a run of no rounds, which makes what the work needs and tells `told_of_none`."""
    return seconds_of(runs, work, rounds, told, folder) - seconds_of(runs, work, 0, told_of_none, folder)
