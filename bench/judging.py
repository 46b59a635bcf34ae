"""Calls judged by the code of a policy, and by its rules."""
import random

import programs
import texts

RULES = 256
CALLS = 1000

# The calls, four in turn: the name of the parameter after the name, and the values of those after that.
TAGS = [("file.open", "access", " 0 0"), ("file.create", "attributes", " 0 0 0 0"), ("key.open", "access", ""), ("event.create", "kind", " 0")]

# The forms of rules and calls, eight in turn, each for four numbers: the conditions on the name and on the number after it,
# and the name and the number of the call that they decide. {p} is the parameter's name, {a} to {e} are numbers of its own.
FORMS = [
    ('name is "\\Device\\Pool{n}" and {p} in 0..4095', "\\DEVICE\\POOL{n}", "1"),
    ('name like "\\/?/?\\C:\\docs\\{n}\\*" and {p} has 1', "\\??\\C:\\docs\\{n}\\notes\\a.txt", "1"),
    ('name like "*\\{n}.txt" and not {p} has 0x10', "\\??\\C:\\users\\me\\{n}.txt", "1"),
    ('name like "\\Sessions\\*\\event{n}\\*" and {p} is 1 or 2 or 4', "\\Sessions\\7\\Windows\\event{n}\\x", "1"),
    ('name like "\\pipe\\chrome.{n}.?" and not {p} is 0x40000000 or 0x80000000', "\\pipe\\chrome.{n}.x", "1"),
    ('name like "\\Registry\\*\\value" and {p} is {n} or {b} or {c}', "\\Registry\\Machine\\Software\\value", "{b}"),
    ('not name like "*.tmp" and {p} in {a}..{d}', "\\ranges\\a.txt", "{e}"),
    ('name like "\\*a*b*\\{n}\\*\\c" and not {p} in 0x100..0x200', "\\xa\\yb\\{n}\\mid\\c", "1"),
]


def numbers_of(n):
    return {"n": n, "a": 4096 * n, "b": 4096 + n, "c": 65536 + n, "d": 4096 * n + 4095, "e": 4096 * n + 5}


def rule(n):
    """32 rules allow, then 32 deny, and so on."""
    tag, param, _ = TAGS[n % 4]
    action = "deny" if n // 32 % 2 else "allow"
    return "%s %s when %s" % (action, tag, FORMS[n // 4 % 8][0].format(p=param, **numbers_of(n)))


def call(n):
    tag, _, rest = TAGS[n % 4]
    _, name, number = FORMS[n // 4 % 8]
    return '%s "%s" %s%s' % (tag, name.format(n=n), number.format(**numbers_of(n)), rest)


# The kinds of rules of one kind each, and all of them in turn.
KINDS = ["prefix", "star", "stars", "equal", "number", "readonly"]
COMMON = "\\Device\\Sandbox\\"
LETTERS = "abcdefghijklmnopqrstuvwxyz0123456789"


def kind_rule(kind, word, number):
    """A rule of a kind, and the name and the access of a call that it decides."""
    if kind == "prefix":
        return 'allow file.open when name like "%s%s*"' % (COMMON, word), "%s%s\\data.txt" % (COMMON, word.upper()), 1
    if kind == "star":
        return 'allow file.open when name like "%s*%s"' % (COMMON, word), "%sdata\\%s" % (COMMON, word.upper()), 1
    if kind == "stars":
        front, back = word[:4], word[4:]
        return 'allow file.open when name like "%s*%s*%s*"' % (COMMON, front, back), "%sa\\%s\\b\\%s\\c" % (COMMON, front, back), 1
    if kind == "equal":
        return 'allow file.open when name is "%s%s"' % (COMMON, word), COMMON + word.upper(), 1
    if kind == "number":
        return "allow file.open when access is 0x%x" % number, COMMON + "data.txt", number
    return 'readonly file.open when name like "%s%s*"' % (COMMON, word), "%s%s\\data.txt" % (COMMON, word), 1


def kind_workload(kind, count, seed):
    """A policy of rules of a kind, or of all kinds in turn, and calls of which a third each hit no rule, the one in the middle and the
    last. The names share 16 leading units. All is made from the seed."""
    draw = random.Random("%s %d %d" % (kind, count, seed))
    words, numbers = set(), set()
    while len(words) < count + 100:
        words.add("".join(draw.choice(LETTERS) for _ in range(8)))
    while len(numbers) < count + 100:
        numbers.add(draw.randrange(2, 2 ** 31))
    words, numbers = sorted(words), sorted(numbers)
    draw.shuffle(words)
    draw.shuffle(numbers)
    kinds = [kind if kind != "mixed" else KINDS[n % len(KINDS)] for n in range(count + 100)]
    made = [kind_rule(*each) for each in zip(kinds, words, numbers)]
    rules = [rule for rule, _, _ in made[:count]]
    calls = []
    for n in range(100):
        for _, name, access in (made[count + n], made[count // 2], made[count - 1]):
            calls.append('file.open "%s" %d 0 0' % (name, access))
    allowed = 100 * sum(rules[n].startswith("allow") for n in (count // 2, count - 1))
    return texts.single_policy(rules, 2), texts.single_target([calls]), allowed


def measure_kinds(runs, seed=1):
    """Million verdicts per second by rules of one kind each, 1 and 256 of them."""
    for kind in KINDS + ["mixed"]:
        speeds = []
        for count, rounds in ((1, 20000), (RULES, 2000)):
            policy, script, allowed = kind_workload(kind, count, seed)
            with texts.folder_with(policy, script) as folder:
                told = "calls 300 allowed %d" % (allowed * rounds)
                seconds = programs.seconds_spent(runs, "judge", rounds, told, "calls 300 allowed 0", folder)
            speeds.append(300 * rounds / seconds / 1e6)
        print("judge %s: %.2f million verdicts per second under 1 rule, %.3f under %d" % (kind, speeds[0], speeds[1], RULES))


def measure(runs):
    """Verdicts per second.

    The calls 0 to 255 and 512 to 767 of the 1,000 are each decided by one rule, that of their number or of 512 less, each
    rule decides two of them, and half of the rules allow. So 256 of 1,000 verdicts allow.
    """
    rules = [rule(n) for n in range(RULES)]
    calls = [call(n % 512) for n in range(CALLS)]
    none = "calls 1000 allowed 0"
    with texts.folder_with(texts.single_policy(rules), texts.single_target([calls])) as folder:
        code = programs.seconds_spent(runs, "judge", 100, "calls 1000 allowed 25600", none, folder)
        plain = programs.seconds_spent(runs, "judge-plain", 20, "calls 1000 allowed 5120", none, folder)
    print("judge: %d verdicts per second by code, %d by the rules" % (100 * CALLS / code, 20 * CALLS / plain))
    measure_kinds(runs)
