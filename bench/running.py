"""Runs by threads: `sandbox run` and `sandbox make`, in seconds of a clock, since they start threads; so these times say little on a
busy machine.

Each work has a bound of seconds, and one of memory where it says so. A bound holds of the machine whose figures bench/RESULTS.md gives,
with nothing else running. Which thread makes which step differs from run to run; what is checked of a transcript is the same in each.
"""
import glob
import os
import resource
import shutil
import statistics
import subprocess
import sys
import time

import programs
import small_scripts
import stepping
import texts

WORKERS = (1, 2, 4, 8)

# For each number of workers, this many times as many runs are made.
TURNS = 3

# The most that a run by eight workers may take, by a run by two.
MAX_DIFFERENCE = 1.05

# The most processor seconds per second of a run in which one thread has something to do and nobody else has.
MAX_PROCESSORS = 1.25

# The user as whom a run with few processes is made where this is run by root, for whom the system has no such limit.
NOBODY = 65534
MIB = 1024 * 1024


def run_measured(folder, words, program=programs.SANDBOX, begin=None):
    """Runs `sandbox` with these arguments in a folder, with its output in `transcript`: the seconds by a clock, what the system says of what it
    used, and its exit status. It does `begin` first, if that is given."""
    with open(os.path.join(folder, "transcript"), "wb") as out:
        start = time.monotonic()
        child = subprocess.Popen([program, *words], cwd=folder, stdout=out, stderr=subprocess.DEVNULL, preexec_fn=begin)
        _, status, usage = os.wait4(child.pid, 0)
        seconds = time.monotonic() - start
    child.returncode = os.waitstatus_to_exitcode(status)
    return seconds, usage, child.returncode


def run(folder, words, program=programs.SANDBOX, begin=None):
    """The same without what the system says."""
    seconds, _, status = run_measured(folder, words, program, begin)
    return seconds, status


# Starts the program that its arguments name, with its output thrown away, and puts the peak of its memory in KiB.
STARTER = """
import os, sys
nowhere = [(os.POSIX_SPAWN_OPEN, 1, os.devnull, os.O_WRONLY, 0)]
child = os.posix_spawn(sys.argv[1], sys.argv[1:], os.environ, file_actions=nowhere)
_, _, usage = os.wait4(child, 0)
print(usage.ru_maxrss)
"""


def peak(folder, words):
    """The bytes of the peak of memory of one more run with these arguments. A small program starts it, since what the system tells of a program
    that has ended is at least the peak of the one from which it was started, and this one holds scripts and transcripts."""
    told = subprocess.run([sys.executable, "-c", STARTER, programs.SANDBOX, *words], cwd=folder, check=True, capture_output=True, text=True)
    return int(told.stdout) * 1024


def run_words(workers):
    return ["run", "policy", "script", "--workers", str(workers)]


def measured_runs(runs, folder, words, lines, last):
    """The seconds of each run with these arguments. Each transcript has `lines` lines, of which `last` is the last."""
    measured = []
    for _ in range(runs):
        seconds, status = run(folder, words)
        if status != 0:
            programs.fail("sandbox %s ended with status %d" % (" ".join(words), status))
        stepping.check_lines(folder, lines, last)
        measured.append(seconds)
    return measured


def check_bounds(name, best, size, most_seconds, most_bytes=None):
    print("%s: %.3f seconds by a clock, %.1f MiB" % (name, best, size / MIB))
    if best > most_seconds:
        programs.miss("%s take more than %.2f seconds" % (name, most_seconds))
    if most_bytes and size > most_bytes:
        programs.miss("%s take more than %d MiB" % (name, most_bytes // MIB))


def measure_workers(runs):
    """Calls per second of 8 targets with 4 threads each of 1,000 pings, by the number of workers, in the best run and by the median. The numbers of
    workers take turns, so that what else the machine does falls on each of them alike."""
    calls = 8 * 4 * 1000
    measured = {workers: [] for workers in WORKERS}
    with texts.folder_with(texts.single_policy(["allow ping"]), stepping.pings(8, 1, 1000)) as folder:
        for _ in range(TURNS * runs):
            for workers in WORKERS:
                measured[workers] += measured_runs(1, folder, run_words(workers), 2 * calls + 1, stepping.totals(calls, calls))
    best = {workers: min(seconds) for workers, seconds in measured.items()}
    for workers, seconds in measured.items():
        print("%d pings by %d workers: %d calls per second, %d by the median"
              % (calls, workers, calls / best[workers], calls / statistics.median(seconds)))
    for workers, seconds in best.items():
        if seconds > 0.15:
            programs.miss("%d pings by %d workers take more than 0.15 seconds" % (calls, workers))
    if best[8] > MAX_DIFFERENCE * best[2]:
        programs.miss("%d pings by 8 workers take more than %.2f times as long as by 2" % (calls, MAX_DIFFERENCE))


def measure_channels(runs):
    """As many calls as a script can have, over as many channels, by two workers."""
    calls = stepping.MAX_STATEMENTS
    with texts.folder_with(texts.single_policy(["allow ping"]), stepping.pings(8, 8, 4096)) as folder:
        seconds = measured_runs(runs, folder, run_words(2), 2 * calls + 1, stepping.totals(calls, calls))
        size = peak(folder, run_words(2))
    check_bounds("%d pings over 64 channels by 2 workers" % calls, min(seconds), size, 0.52)


def measure_made(runs):
    """Generated work of 8 targets, of which two lines are put. The totals are the same in each run."""
    calls = 8 * 2 * 4096
    wanted = None
    with texts.folder_with([], []) as folder:
        measured = []
        for _ in range(runs):
            seconds, status = run(folder, ["make", "1", "8", "4096"])
            with open(os.path.join(folder, "transcript")) as file:
                lines = file.read().splitlines()
            if status != 0 or len(lines) != 2 or lines[0] != "made targets 8 threads 16 calls %d" % calls:
                programs.fail("make 1 8 4096 ended with status %d and put %r" % (status, lines))
            if wanted not in (None, lines):
                programs.fail("make 1 8 4096 put %r and %r" % (wanted, lines))
            wanted = lines
            measured.append(seconds)
        size = peak(folder, ["make", "1", "8", "4096"])
    check_bounds("%d generated calls" % calls, min(measured), size, 0.26, 70 * MIB)


def measure_waiting(runs):
    """Processor seconds per second of a run in which one thread waits for more than a second, while there are eight targets and nobody else
    has anything to do. The least of the runs counts, of those by one, two and eight workers each."""
    waits = 80
    script = ["sandbox-script 1"] + texts.target_lines("t0", 1, [["wait 0 0 63 1 %d" % stepping.LOADS_OF_A_WAIT] * waits])
    for target in range(1, 8):
        script += texts.target_lines("t%d" % target, 1, [])
    with texts.folder_with(texts.single_policy(["allow ping"]), script) as folder:
        for workers in (1, 2, 8):
            measured = []
            for _ in range(runs):
                seconds, usage, status = run_measured(folder, run_words(workers))
                if status != 0:
                    programs.fail("a run in which one thread waits ended with status %d" % status)
                stepping.check_lines(folder, waits + 1, stepping.totals(0, waits))
                measured.append(((usage.ru_utime + usage.ru_stime) / seconds, seconds))
            processors, seconds = min(measured)
            print("one thread that waits, %d workers: %.2f processor seconds per second, in %.2f seconds" % (workers, processors, seconds))
            if seconds < 1:
                print("one thread that waits, %d workers: the run took less than a second" % workers)
            if processors > MAX_PROCESSORS:
                programs.miss("a run in which one thread waits uses more than %.2f processor seconds per second" % MAX_PROCESSORS)


def processes_of(user):
    """How many processes and threads a user has."""
    count = 0
    for task in glob.glob("/proc/[0-9]*/task/[0-9]*"):
        try:
            count += os.stat(task).st_uid == user
        except FileNotFoundError:
            pass
    return count


def try_refused_starts():
    """Runs of 32 threads and 2 workers by a user who may have no more processes than one, two and so on up to all that the run wants: so
    the system refuses to start all of its threads, then all but one, and none at last. The caller does what they were to do, and the
    transcript is right each time."""
    user = os.geteuid() or NOBODY
    calls = 8 * 4 * 100
    threads = 8 * 4 + 2
    with texts.folder_with(texts.single_policy(["allow ping"]), stepping.pings(8, 1, 100)) as folder:
        program = shutil.copy(programs.SANDBOX, folder)
        os.chmod(folder, 0o755)
        for started in range(threads + 1):
            most = processes_of(user) + 1 + started

            def begin():
                resource.setrlimit(resource.RLIMIT_NPROC, (most, most))
                os.setuid(user)

            _, status = run(folder, run_words(2), program, begin)
            if status != 0:
                programs.fail("a run of which %d threads could be started ended with status %d" % (started, status))
            stepping.check_lines(folder, 2 * calls + 1, stepping.totals(calls, calls))
    print("runs of %d threads, of which the system started 0 to %d: all right" % (threads, threads))


def check_generated():
    """Runs of 1,000 small hostile scripts on 1, 2 and 8 workers. `audit` has to accept the transcript of each."""
    for number in range(1, 1001):
        with texts.folder_with(small_scripts.POLICY, small_scripts.script(number)) as folder:
            _, status = run(folder, run_words(small_scripts.workers(number)))
            if status != 0:
                programs.fail("the run of the script %d ended with status %d" % (number, status))
            audited = subprocess.run([programs.SANDBOX, "audit", "policy", "script", "transcript"], cwd=folder, stdout=subprocess.DEVNULL)
            if audited.returncode != 0:
                programs.fail("the transcript of the script %d is not accepted" % number)
    print("1000 runs of generated hostile scripts: all right")


def measure(runs):
    """Runs by threads, of pings by 1 to 8 workers, of as many calls as there can be, of generated work, and of one thread that waits; runs in
    which threads are not started; and runs of hostile scripts."""
    measure_workers(runs)
    measure_channels(runs)
    measure_made(runs)
    measure_waiting(runs)
    try_refused_starts()
    check_generated()
