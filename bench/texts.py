"""Making policies and scripts."""
import contextlib
import os
import tempfile


@contextlib.contextmanager
def folder_with(policy, script):
    """A folder with a policy and a script of these lines, for as long as it is needed."""
    with tempfile.TemporaryDirectory(prefix="bench-") as folder:
        write_lines(folder, "policy", policy)
        write_lines(folder, "script", script)
        yield folder


def write_lines(folder, name, lines):
    with open(os.path.join(folder, name), "w") as out:
        out.writelines(line + "\n" for line in lines)


def single_policy(rules, version=1):
    """The lines of a text of one policy."""
    return ["sandbox-policy %d" % version, "policy web"] + rules


def single_target(threads, opening=()):
    """The lines of a script of one target, whose threads make these calls."""
    lines = ["sandbox-script 1", *opening, "target tab web 1"]
    for calls in threads:
        lines += ["thread"] + ["call " + call for call in calls]
    return lines


def target_lines(name, channels, threads):
    """The lines of a target under the policy `web`, whose threads have these statements."""
    lines = ["target %s web %d" % (name, channels)]
    for statements in threads:
        lines += ["thread", *statements]
    return lines


def mixed_numbers(count):
    """Numbers that are as good as random, below 2^31, and the same each time."""
    number = 1
    for _ in range(count):
        number = number * 1103515245 + 12345 & 0x7FFFFFFF
        yield number
