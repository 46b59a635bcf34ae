"""`local` of scripts of which the targets send all, half or nothing, beside `replay` of the same scripts."""
import os

import programs
import reaching
import replaying
import stepping
import texts

REPLAY = ["replay", "policy", "script"]
LOCAL = ["local", "policy", "script"]

# Each work is done at least so often, since it is short.
LEAST_RUNS = 9

# How much longer `local` may take than `replay`.
MAX_OF_NONE = 1.1
MAX_OF_HALF = 1.0

# As many statements as a script can have may take this many times as long as a quarter of them.
MAX_GROWTH = 5


def written(folder, name):
    with open(os.path.join(folder, name), "rb") as file:
        return file.read()


def check_local(folder):
    """`local` writes the lines of the calls that the second reader denies, and then what `replay` writes of the script without them."""
    programs.transcribe(folder, LOCAL)
    found = written(folder, "transcript")
    lines, kept = reaching.local(written(folder, "policy"), written(folder, "script"))
    with open(os.path.join(folder, "kept"), "wb") as out:
        out.write(kept)
    programs.transcribe(folder, ["replay", "policy", "kept"])
    if found != lines + written(folder, "transcript"):
        programs.fail("local wrote something else than the second reader")


def compare(runs, name, policy, script, most):
    """How long `local` takes by the time of `replay`. It fails where it takes more than `most` times as long."""
    with texts.folder_with(policy, script) as folder:
        check_local(folder)
        replayed, local = programs.best_in_turns(max(runs, LEAST_RUNS), folder, [REPLAY, LOCAL])
    print("local: %s, %.4f seconds, %.2f times replay" % (name, local, local / replayed))
    if local > most * replayed:
        programs.miss("local takes more than %.1f times as long as replay: %s" % (most, name))


def mixed(picked):
    """Mixed calls of these rows of replaying.MIXED."""
    for number in texts.mixed_numbers(replaying.CALLS):
        call, _, _ = picked[(number >> 20) % len(picked)]
        yield call.format(g=(number >> 10) % replaying.GROUPS)


def measure_mixed(runs):
    """4,096 calls of one thread under 200 rules, of which none or half are denied by their target."""
    denies = [row for row in replaying.MIXED if row[1] is None or row[1].startswith("deny")]
    sends = [row for row in replaying.MIXED if row not in denies]
    sent, denied = list(mixed(sends)), list(mixed(denies))
    policy = texts.single_policy(replaying.mixed_rules(), 2)
    directories = replaying.mixed_directories()
    half = [call for pair in zip(sent[::2], denied[::2]) for call in pair]
    compare(runs, "%d calls, none of them denied" % len(sent), policy, texts.single_target([sent], directories), MAX_OF_NONE)
    compare(runs, "%d calls, half of them denied" % len(half), policy, texts.single_target([half], directories), MAX_OF_HALF)


def statements(calls, call):
    """A script of 8 targets with 4 threads each, which make this call again and again."""
    lines = ["sandbox-script 1"]
    for target in range(8):
        lines += texts.target_lines("t%d" % target, 1, [["call " + call] * calls] * 4)
    return lines


def measure_growth(runs, name, call):
    """As many statements as a script can have, and a quarter of them."""
    seconds = []
    for calls in (stepping.MAX_STATEMENTS // 128, stepping.MAX_STATEMENTS // 32):
        with texts.folder_with(texts.single_policy(["allow ping"]), statements(calls, call)) as folder:
            seconds += programs.best_in_turns(max(runs, LEAST_RUNS), folder, [LOCAL])
    print("local: %d statements, %s, %.3f seconds; a quarter of them %.3f seconds" % (stepping.MAX_STATEMENTS, name, seconds[1], seconds[0]))
    if seconds[1] > MAX_GROWTH * seconds[0]:
        programs.miss("local of four times as many statements takes more than %d times as long: %s" % (MAX_GROWTH, name))


def measure(runs):
    measure_mixed(runs)
    measure_growth(runs, "all denied", "handle.close 1")
    measure_growth(runs, "none denied", 'ping 1 "p"')
