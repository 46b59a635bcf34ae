"""Scripts of one thread of 4,096 calls that are replayed."""
import os

import programs
import steps
import texts

CALLS = 4096
MAX_SECONDS = 0.02
MAX_BYTES = 64 * 1024 * 1024

ALLOWED = ["\\ready", "\\done", "\\Sessions\\1\\started", "\\Sessions\\1\\Windows\\ended", "\\a", "\\" + "n" * 120]
OTHERS = ["\\Ready?", "\\gone", "\\Sessions\\2\\started", "\\b", "\\" + "m" * 140]


def check_transcript(folder, performed, faked, denied):
    """The transcript of a run of one thread's calls, none of which is refused, has a line for each entry, for each result and
    for these totals."""
    with open(os.path.join(folder, "transcript")) as file:
        lines = file.read().splitlines()
    wanted = "total entries %d performed %d faked %d denied %d refused 0 results %d" % (
        CALLS, performed, faked, denied, CALLS)
    if len(lines) != 2 * CALLS + 1 or lines[-1] != wanted:
        programs.fail("the transcript has %d lines and ends with %r, not %r" % (len(lines), lines[-1:], wanted))


def event_calls():
    """Calls of event.create as (name, kind, initial): about half of them allowed, most of those on an event that is there
    already."""
    for number in texts.mixed_numbers(CALLS):
        names = ALLOWED if number >> 16 & 1 else OTHERS
        kind = 1 if (number >> 8) % 16 == 0 else 0
        yield names[(number >> 20) % len(names)], kind, number >> 12 & 1


def event_words(name):
    """The words of the block of event.create: 15 of the head, 3 parameters, the end, the name's units four to a word, two numbers."""
    return 15 + 3 + 1 + (len(name) + 3) // 4 + 2


def measure_events(runs):
    """Calls and steps per second, and the peak of memory, of a thread that creates events. It fails where the best run takes
    more than MAX_SECONDS in all, or where a run takes more than MAX_BYTES."""
    made = list(event_calls())
    performed = sum(name in ALLOWED for name, _, _ in made)
    count = steps.steps([event_words(name) for name, _, _ in made])
    rules = ['allow event.create when name is "%s"' % name for name in ALLOWED]
    calls = ['event.create "%s" %d %d' % call for call in made]
    with texts.folder_with(texts.single_policy(rules), texts.single_target([calls])) as folder:
        measured = [programs.replay(folder) for _ in range(runs)]
        check_transcript(folder, performed, 0, CALLS - performed)
    best = min(seconds for seconds, _ in measured)
    most = max(size for _, size in measured)
    print("calls %d, of them performed %d and denied %d; steps %d" % (CALLS, performed, CALLS - performed, count))
    print("seconds of each run: " + " ".join("%.3f" % seconds for seconds, _ in measured))
    print("best run: %d calls per second, %d steps per second" % (CALLS / best, count / best))
    print("peak of memory: %.1f MiB" % (most / 1024 / 1024))
    if best > MAX_SECONDS:
        programs.miss("%d calls of event.create take more than %.2f seconds" % (CALLS, MAX_SECONDS))
    if most > MAX_BYTES:
        programs.miss("more than %d MiB" % (MAX_BYTES // 1024 // 1024))


# What the mixed calls are made of: a call, the rule that decides it, where there is one, and what becomes of it. In both {g} is
# the number of a group, and there is a rule of each row for each group. A call is made of one row and one group. The rule of
# another row holds of it only if that row is below its own.
GROUPS = 20
MIXED = [
    ('file.create "\\d{g}\\f" 0x20 1 7 3 0x40', 'allow file.create when name like "\\d{g}\\*" and disposition in 1..3', "performed"),
    ('file.query "\\d{g}\\f"', 'allow file.query when name like "\\d{g}\\*"', "performed"),
    ('file.open "\\d{g}\\hidden" 1 7 0x40', 'deny file.open when name like "\\d{g}\\h*"', "denied"),
    ('file.open "\\d{g}\\f" 0xc0000000 7 0x40', 'readonly file.open when name like "\\d{g}\\*"', "performed"),
    ('pipe.create "\\p{g}" 3 0 255', 'allow pipe.create when name is "\\p{g}" and mode is 1 or 3', "performed"),
    ('key.create "\\k{g}" 0x20019', 'allow key.create when name is "\\k{g}"', "performed"),
    ('key.open "\\k{g}" 1', 'alarm key.open when name is "\\k{g}" and access has 1', "denied"),
    ('event.create "\\e{g}" 0 0', 'fake event.create when name is "\\e{g}" and kind is 0', "faked"),
    ('event.create "\\e{g}" 1 1', 'allow event.create when name is "\\e{g}"', "performed"),
    ('handle.close {g}', 'allow handle.close when handle is {g}', "performed"),
    ('file.rename "\\d{g}\\f" "\\d{g}\\g"', None, "denied"),
    ('event.open "\\e{g}" 0', None, "denied"),
    ('ping {g} "mixed"', None, "denied"),
]


def mixed_calls():
    """The mixed calls, each with what becomes of it."""
    for number in texts.mixed_numbers(CALLS):
        call, _, outcome = MIXED[(number >> 20) % len(MIXED)]
        yield call.format(g=(number >> 10) % GROUPS), outcome


def mixed_rules():
    """The rules that decide the mixed calls."""
    return [rule.format(g=group) for group in range(GROUPS) for _, rule, _ in MIXED if rule]


def mixed_directories():
    """The opening lines that the mixed calls need."""
    return ['dir "\\d%d"' % group for group in range(GROUPS)]


def measure_mixed(runs):
    """Mixed calls of every service per second."""
    made = list(mixed_calls())
    rules = mixed_rules()
    script = texts.single_target([[call for call, _ in made]], mixed_directories())
    came = [outcome for _, outcome in made]
    with texts.folder_with(texts.single_policy(rules, 2), script) as folder:
        best = min(programs.replay(folder)[0] for _ in range(runs))
        check_transcript(folder, *(came.count(outcome) for outcome in ("performed", "faked", "denied")))
    print("replay: %d mixed calls under %d rules, %d calls per second" % (CALLS, len(rules), CALLS / best))
