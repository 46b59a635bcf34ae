"""Measuring rows: a program of rows is given one row with greater numbers, and its time is taken by a clock.

By a clock, since a row may start threads; so these times say little on a busy machine.
"""
import os
import subprocess
import tempfile
import time

import programs


def build(crate, rows):
    """Proves and builds a program of rows where that is not done, and runs it once on one of its files of rows."""
    built = subprocess.run(
        ["rt", "run", "--", rows], cwd=os.path.join(programs.TOP, "crates", crate), stdin=subprocess.DEVNULL,
        capture_output=True, text=True)
    if built.returncode != 0:
        programs.fail("crates/%s was not built\n%s" % (crate, built.stdout + built.stderr))


def seconds_of(runs, crate, row, told):
    """The seconds of a row by a clock, in the best run. What it gives is `told`."""
    program = os.path.join(programs.TOP, "crates", crate, "out", crate)
    seconds = []
    with tempfile.TemporaryDirectory() as folder:
        with open(os.path.join(folder, "rows"), "w") as file:
            file.write(row + "\n")
        for _ in range(runs):
            start = time.monotonic()
            line = subprocess.run([program, "rows"], cwd=folder, check=True, stdout=subprocess.PIPE, text=True).stdout
            seconds.append(time.monotonic() - start)
            if line != "%s => %s\n" % (row, told):
                programs.fail("%s put %r, not %r" % (row, line, told))
    return min(seconds)
