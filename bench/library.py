"""The library for C: verdicts beside those of the program's own judge, whole calls, and the broker of two processes.

    bench/library.py [RUNS]

It needs a C compiler, and a system with memfd_create, openat2 and seccomp for the broker.
"""
import os
import re
import signal
import subprocess
import sys
import tempfile
import time

sys.dont_write_bytecode = True

import judging
import programs
import texts

TOP = programs.TOP


def built(folder):
    """The library, its bench and the broker of two processes, in a folder."""
    subprocess.run([os.path.join(TOP, "sandbox-lib"), folder], check=True, stdout=subprocess.DEVNULL)
    for name, source in (("bench", "bench/library.c"), ("broker", "bindings/broker/broker.c"), ("target", "bindings/broker/target.c")):
        libraries = [os.path.join(folder, library) for library in ("libsb_c.a", "liblibc_c.a")]
        subprocess.run(["cc", "-std=c11", "-O2", "-pthread", "-I", folder, "-o", os.path.join(folder, name), os.path.join(TOP, source), *libraries], check=True)
    os.makedirs(os.path.join(folder, "root/docs"))
    with open(os.path.join(folder, "root/docs/plan.txt"), "w", encoding="utf-8") as file:
        file.write("plan")


def told(folder, *words):
    """The numbers that the bench prints, by their names."""
    printed = subprocess.run([os.path.join(folder, "bench"), *words], check=True, stdout=subprocess.PIPE, text=True).stdout
    return {line.split()[0]: float(line.split()[1]) for line in printed.splitlines()}


def verdict_times(folder, count, rounds):
    """The nanoseconds of a verdict under this many rules, by the program's judge and through C, measured in turns."""
    policy, script, allowed = judging.kind_workload("prefix", count, 1)
    with texts.folder_with(policy, script) as made:
        with open(os.path.join(made, "calls"), "w", encoding="utf-8") as file:
            for line in script:
                if call := re.fullmatch(r'call file\.open "(.*)" (\d+) 0 0', line):
                    file.write("%s %s\n" % (call[1], call[2]))
        seconds = programs.seconds_spent(1, "judge", rounds, "calls 300 allowed %d" % (allowed * rounds), "calls 300 allowed 0", made)
        through = told(folder, "verdicts", os.path.join(made, "policy"), os.path.join(made, "calls"), str(rounds))
    if through["allowed"] != allowed * rounds:
        programs.fail("through C %d calls are allowed, not %d" % (through["allowed"], allowed * rounds))
    return seconds * 1e9 / (300 * rounds), through["verdict"]


def measure_verdicts(runs, folder):
    for count, rounds, bound in ((1, 20000, 1.8), (judging.RULES, 2000, 1.3)):
        times = [verdict_times(folder, count, rounds) for _ in range(runs)]
        direct, through = (min(column) for column in zip(*times))
        print("library: a verdict under %d rules takes %.1f ns, through C %.1f ns" % (count, direct, through))
        if through > bound * direct:
            programs.miss("a verdict under %d rules through C takes %.2f times the direct one, above %.1f" % (count, through / direct, bound))


def measure_calls(runs, folder):
    times = [told(folder, "calls", "300000") for _ in range(runs)]
    best = {name: min(each[name] for each in times) for name in times[0]}
    print("library: a call of %d words in one thread takes %.0f ns, encode %.0f, check %.0f, a look %.1f" % tuple(best[name] for name in ("words", "call", "encode", "check", "look")))
    if best["call"] >= 700:
        programs.miss("a call of %d words takes %.0f ns, not below 700" % (best["words"], best["call"]))


def served(folder, *how):
    """How many calls a second the broker of two processes answers."""
    command = [os.path.join(folder, "broker"), os.path.join(TOP, "bindings/broker/tab.policy"), os.path.join(folder, "root"), os.path.join(folder, "target"), "2"]
    ended = subprocess.run([*command, *how], stdout=subprocess.PIPE, text=True, check=False)
    if ended.returncode:
        programs.fail("the broker ended with %d\n%s" % (ended.returncode, ended.stdout))
    return int(ended.stdout.split()[0])


def idle_share(folder):
    """The share of a processor that a broker takes whose target makes no calls, here since it was killed."""
    command = [os.path.join(folder, "broker"), os.path.join(TOP, "bindings/broker/tab.policy"), os.path.join(folder, "root"), os.path.join(folder, "target"), "4", "calm"]
    with subprocess.Popen(command, stdout=subprocess.DEVNULL) as broker:
        time.sleep(0.5)
        with open("/proc/%d/task/%d/children" % (broker.pid, broker.pid), encoding="ascii") as children:
            for child in children.read().split():
                os.kill(int(child), signal.SIGKILL)
        time.sleep(0.5)
        ticks = []
        for _ in range(2):
            with open("/proc/%d/stat" % broker.pid, encoding="ascii") as stat:
                fields = stat.read().rpartition(")")[2].split()
            ticks.append((time.monotonic(), int(fields[11]) + int(fields[12])))
            time.sleep(2)
        broker.kill()
    (start, before), (end, after) = ticks
    return (after - before) / os.sysconf("SC_CLK_TCK") / (end - start)


def measure_broker(runs, folder):
    calm = max(served(folder, "calm") for _ in range(runs))
    spinning = max(served(folder, "calm", "spin") for _ in range(runs))
    attacked = max(served(folder) for _ in range(runs))
    idle = min(idle_share(folder) for _ in range(2))
    print("library: two processes answer %d calls a second, %d while the broker spins, %d under attack; an idle broker takes %.2f%% of a processor" % (calm, spinning, attacked, 100 * idle))
    for holds, bound in (
        (calm >= 350000, "two processes answer %d calls a second, below 350,000" % calm),
        (1e6 / spinning < 3, "a call takes %.2f microseconds while the broker spins, not below 3" % (1e6 / spinning)),
        (2 * attacked >= calm, "under attack %d calls a second are answered, fewer than half of %d" % (attacked, calm)),
        (idle < 0.01, "an idle broker takes %.2f%% of a processor, not below 1%%" % (100 * idle)),
    ):
        if not holds:
            programs.miss(bound)


def measure(runs):
    with tempfile.TemporaryDirectory() as folder:
        built(folder)
        measure_verdicts(runs, folder)
        measure_calls(runs, folder)
        measure_broker(runs, folder)


if __name__ == "__main__":
    programs.build()
    measure(int(sys.argv[1]) if len(sys.argv) > 1 else 3)
    sys.exit(1 if programs.missed else 0)
