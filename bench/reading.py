"""Texts as long as they may be: a policy that is checked, and a script that is read. Each may take MAX_SECONDS."""
import os

import programs
import texts

MAX_SECONDS = 1
MAX_TEXT = 4 * 1024 * 1024


def policy_lines():
    """The lines of a policy text of 8 policies of 256 rules, each below a long comment, and those of its check: of the policies
    printed, and of the code of their rules."""
    written, printed, listed = ["sandbox-policy 1"], ["sandbox-policy 1"], []
    for policy in range(8):
        written.append("policy p%d" % policy)
        printed.append("policy p%d" % policy)
        listed.append("code p%d file.open" % policy)
        for number in range(256):
            written.append("# " + "why this rule stands here " * 75)
            rule = 'allow file.open when name like "\\docs\\p%d\\%d\\*" and not access has 0x%x' % (policy, number, number + 1)
            written.append(rule)
            printed.append(rule)
            place = 3 * number
            listed.append('%d text p0 skip 0 "\\\\docs\\\\p%d\\\\%d\\\\" fold clear' % (place, policy, number))
            listed.append("%d mask p1 0x%x negate clear" % (place + 1, number + 1))
            listed.append("%d action allow line %d" % (place + 2, len(written)))
    return written, printed + listed


def script_lines():
    """The lines of a script text of nearly 4 MiB, as long as scripts may be: 4,096 opening lines, and 8 targets of 4 threads of
    4,096 calls. The last call lacks its arguments."""
    opening = ['dir "\\n{n}"', 'file "\\n{n}.txt" 0x20', 'key "\\n{n}"', 'event "\\n{n}" 0 1']
    kinds = ['ping {n} "{pad}"', 'event.create "\\n{n}" 0 1', 'key.open "\\n{n}" 0x20019', 'file.query "\\n{n}.txt"', 'handle.close {n}']
    lines = ["sandbox-script 1"] + [opening[n % 4].format(n=n) for n in range(4096)]
    for target in range(8):
        lines.append("target t%d web 8" % target)
        for _ in range(4):
            lines.append("thread")
            lines += ["call " + kinds[n % 5].format(n=n, pad="p" * 26) for n in range(4096)]
    return lines[:-1] + ["call ping"]


def best_of(runs, folder, words, wanted):
    """The seconds of the best run of `sandbox` with these arguments: it ends with this status, writes this output, and what it writes on
    standard error begins so."""
    seconds = []
    for _ in range(runs):
        spent, told = programs.outcome_of_sandbox(folder, words)
        seconds.append(spent)
        if told[:2] != wanted[:2] or not told[2].startswith(wanted[2]):
            programs.fail("`sandbox %s` ended with status %d and %r, not as it ought to" % (" ".join(words), told[0], told[2]))
    return min(seconds)


def put_reading(what, size, best):
    print("%s: %d bytes, %.3f seconds, %d bytes per second" % (what, size, best, size / best))
    if best > MAX_SECONDS:
        programs.miss("a %s of 4 MiB takes more than %d seconds" % (what, MAX_SECONDS))


def measure_policy(runs):
    """Bytes of policy text that a check reads, compiles and lists per second."""
    written, checked = policy_lines()
    with texts.folder_with(written, []) as folder:
        best = best_of(runs, folder, ["check", "policy"], (0, "".join(line + "\n" for line in checked), ""))
        size = os.path.getsize(os.path.join(folder, "policy"))
    put_reading("policy", size, best)


def measure_script(runs):
    """Bytes of script text that are read per second. The last line has a fault, so nothing is run."""
    lines = script_lines()
    told = "sandbox: script line %d fault 4" % len(lines)
    with texts.folder_with(texts.single_policy(["allow ping"]), lines) as folder:
        size = os.path.getsize(os.path.join(folder, "script"))
        if not MAX_TEXT * 63 // 64 < size <= MAX_TEXT:
            programs.fail("the script has %d bytes, which is not nearly 4 MiB" % size)
        best = best_of(runs, folder, ["replay", "policy", "script"], (4, "", told))
    put_reading("script", size, best)
