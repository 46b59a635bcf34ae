#!/usr/bin/env python3
"""Refuses threads to `sandbox run`, and audits what it prints: refused_threads.py [PROGRAM..].

The program runs as a user of its own, who may have 1, 2, 3, .. threads, until it has all that it asks for. With N allowed the system refuses the Nth that
it starts and each one after it, since the threads of the script end only after all were started or refused. Each run has to have as many threads as are
allowed, to end with exit status 0, since the caller does the work of those that are refused, and to be audited with a yes and the numbers of the script.
"""
import os
import resource
import shutil
import subprocess
import sys
import tempfile
import time

sys.dont_write_bytecode = True

from sessions import SECONDS, TOP, programs

POLICY = 'sandbox-policy 1\npolicy web\ndeny event.create when name is "\\bad"\nallow event.create\nallow ping\n'
THREADS, SERVING = 4, 2
MOST = 1 + THREADS + SERVING
USER = 61184 + os.getpid() % 4096  # nobody logs in by these numbers
HOLDS = (16, 64, 256, 1024)  # calls during which all threads are there: more if they could not be counted in that time


def make_script(held):
    """The script, and what the audit prints of it. Words of target 2, which has no thread, say which threads have begun, and that the calls are made."""
    lines = ["sandbox-script 1"]
    for thread in range(THREADS):
        lines += ["target t%d web 1" % (thread // 2)] * (thread % 2 == 0) + ["thread", "store 2 0 %d 1" % thread]
        lines += ["wait 2 0 %d 1 1000000" % other for other in range(THREADS)]
        lines += ["call ping 7 \"\""] * held + ["store 2 0 63 1"] if thread == 0 else ["wait 2 0 63 1 1000000"]
        lines += ['call event.create "\\%s" 0 0' % name for name in ("all", "bad", thread)]
    calls, others = (sum(line.startswith(kinds) for line in lines) for kinds in ("call", ("store", "wait")))
    return "\n".join(lines + ["target words web 1", ""]), "audit yes entries %d results %d\n" % (calls, calls + others)


def count_run(command, **how):
    """Runs the program: its exit status, and the most threads that it was seen to have."""
    most, end = 0, time.monotonic() + SECONDS
    with subprocess.Popen(command, **how) as ran:
        while ran.poll() is None:
            most = max(most, len(os.listdir("/proc/%d/task" % ran.pid)))
            if time.monotonic() > end:
                ran.kill()
            time.sleep(0.0002)
    return ran.returncode, most


def write(folder, name, text):
    with open(os.path.join(folder, name), "w", encoding="utf-8") as file:
        file.write(text)


def limited(allowed):
    """How a program is started as a user who may have this number of threads and processes."""
    return {"preexec_fn": lambda: resource.setrlimit(resource.RLIMIT_NPROC, (allowed, allowed)), "user": USER, "group": USER, "extra_groups": []}


def is_limited(folder):
    """Whether such a user can work in the folder and this machine refuses a second process, as it does a thread."""
    try:
        return subprocess.run(["sh", "-c", ": & wait"], cwd=folder, stderr=subprocess.DEVNULL, **limited(1)).returncode != 0
    except OSError:
        return False


def fault_of(folder, allowed):
    """What is wrong with the runs in which the program may have this number of threads, or None."""
    for script, due in map(make_script, HOLDS):
        write(folder, "script", script)
        with open(folder + "/transcript", "w") as output:
            command = ["./sandbox", "run", "policy", "script", "--workers", str(SERVING)]
            status, most = count_run(command, cwd=folder, stdout=output, **limited(allowed))
        if status != 0:
            return "exit status %d" % status
        audited = subprocess.run(["./sandbox", "audit", "policy", "script", "transcript"], cwd=folder, capture_output=True, encoding="utf-8")
        if audited.stdout != due:
            return "%r is due, and the audit prints %r" % (due, audited.stdout + audited.stderr)
        if most == min(allowed, MOST):
            return None
    return "it had %d threads at most" % most


def main():
    faults = []
    for program in programs(sys.argv[1:]):
        with tempfile.TemporaryDirectory() as folder:
            os.chmod(folder, 0o755)
            if not is_limited(folder):
                print("refused threads: skipped, since this machine or user cannot limit the threads of another user")
                return
            shutil.copy(program, folder + "/sandbox")
            write(folder, "policy", POLICY)
            found = ((allowed, fault_of(folder, allowed)) for allowed in range(1, MOST + 2))
            faults += ["%s with %d threads allowed: %s" % (os.path.relpath(program, TOP), *pair) for pair in found if pair[1]]
    for fault in faults:
        print("refused threads: " + fault, file=sys.stderr)
    if faults:
        sys.exit(1)
    print("refused threads: the program answers all calls with 0 to %d of the %d threads that it starts" % (MOST - 1, MOST - 1))


if __name__ == "__main__":
    main()
