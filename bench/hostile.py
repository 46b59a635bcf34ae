"""Random policies, scripts and schedules, made from a seed, and small damages to texts."""
import random

NAMES = [r"\docs\a.txt", r"\docs\b\c", r"\docs", r"\evil", r"\pipe\x", r"\key\k", r"\event\e", r"\DOCS\A.TXT", r"\??\C:\docs\a.txt"]
PATTERNS = [r"\docs\*", r"\*", "*", r"\docs\?.txt", r"*\a.txt", r"\/?/?\C:\docs\*", r"\ev*l", r"\key\k"]
TEXTS = ["hello", "", "x" * 40, "é", "\U0001F600"]
# each call with its parameters, each a name, a text, a number or a handle
CALLS = {
    "ping": [("cookie", "n"), ("text", "t")],
    "file.create": [("name", "f"), ("attributes", "n"), ("access", "n"), ("sharing", "n"), ("disposition", "n"), ("options", "n")],
    "file.open": [("name", "f"), ("access", "n"), ("sharing", "n"), ("options", "n")],
    "file.query": [("name", "f")],
    "file.rename": [("name", "f"), ("to", "f")],
    "pipe.create": [("name", "f"), ("mode", "n"), ("form", "n"), ("instances", "n")],
    "key.create": [("name", "f"), ("access", "n")],
    "key.open": [("name", "f"), ("access", "n")],
    "event.create": [("name", "f"), ("kind", "n"), ("initial", "n")],
    "event.open": [("name", "f"), ("access", "n")],
    "handle.close": [("handle", "h")],
}
ACTIONS = ["allow", "allow", "allow", "deny", "alarm", "fake"]


def quoted(text):
    return '"%s"' % text


def number(lot):
    return lot.choice(["0", "1", "2", "7", "0x40", "0x80000000", "0xc0000000", str(lot.randrange(2**32))])


def argument(lot, kind):
    if kind == "f":
        return quoted(lot.choice(NAMES))
    if kind == "t":
        return quoted(lot.choice(TEXTS))
    return number(lot) if kind == "n" else str(lot.randrange(6))


def call(lot):
    word = lot.choice(list(CALLS))
    return " ".join([word, *(argument(lot, kind) for _, kind in CALLS[word])])


def condition(lot, word):
    parameter, kind = lot.choice(CALLS[word])
    if kind in "ft":
        test = lot.choice(["is " + quoted(lot.choice(NAMES + TEXTS)), "like " + quoted(lot.choice(PATTERNS))])
    else:
        test = lot.choice(["is " + number(lot), "is %s or %s" % (number(lot), number(lot)), "in 0..%d" % lot.randrange(9), "has " + number(lot)])
    return ("not " if lot.random() < 0.2 else "") + parameter + " " + test


def rule(lot):
    word = lot.choice(list(CALLS))
    conditions = [condition(lot, word) for _ in range(lot.randrange(4))]
    return lot.choice(ACTIONS) + " " + word + (" when " + " and ".join(conditions) if conditions else "")


def policy(lot):
    lines = ["sandbox-policy %d" % lot.choice([1, 2])]
    for name in ["web", "low"][: lot.choice([1, 2, 2])]:
        lines += ["policy " + name] + [rule(lot) for _ in range(lot.randrange(8))]
        if lot.random() < 0.2:
            lines.append('grant files_readonly "\\docs\\*"')
    return lines


def statement(lot, hostile, targets, channels):
    if not hostile or lot.random() < 0.6:
        return "call " + call(lot)
    place = "%d %d %s" % (lot.randrange(targets), lot.randrange(channels), lot.choice(["state", "state", lot.randrange(64)]))
    value = lot.choice(["0", "1", "2", "3", "4", "5", str(lot.randrange(2**20))])
    return lot.choice([
        "store %s %s" % (place, value),
        "exchange %s %s %s" % (place, lot.choice("12345"), value),
        "load %s" % place,
        "wait %s %s %d" % (place, value, lot.randrange(1, 50)),
    ])


def script(lot, hostile, targets=None):
    """The lines of a script for targets of the policy `web`; with direct statements if it is hostile."""
    targets = targets or lot.randrange(1, 4)
    channels = lot.randrange(1, 4)
    lines = ["sandbox-script 1", "patience %d" % lot.randrange(20, 200), r'dir "\docs"', r'file "\docs\a.txt" 0x20']
    for target in range(targets):
        lines.append("target t%d web %d" % (target, channels))
        for _ in range(lot.randrange(1, 4)):
            lines += ["thread"] + [statement(lot, hostile, targets, channels) for _ in range(lot.randrange(6))]
    return lines


def schedule(lot):
    actors = ["b0", "b1", "t0.0", "t0.1", "t1.0", "t2.0"]
    lines = ["step %s %d" % (lot.choice(actors), lot.randrange(1, 40)) for _ in range(lot.randrange(20))]
    return ["sandbox-schedule 1", *lines] + ["rounds %d" % lot.choice([0, 1, 50, 20000000])]


def links(lot):
    """The lines of links, some in rings; no FROM occurs twice."""
    froms = lot.sample([r"\docs", r"\docs\b", r"\evil", r"\EVIL\x", r"\a", r"\a\b", r"\key", r"\pipe\x", r"\event"], lot.randrange(6))
    names = NAMES + [r"\a", r"\a\b\c", r"\key", "\\" + "n" * 140]
    return ["sandbox-links 1", *('link "%s" "%s"' % (name, lot.choice(names)) for name in froms)]


def moves(lot, targets):
    """The lines of moves between this number of targets."""
    accesses = ["0", "1", "0x80000000", "0x40000000", "0xc0000000", "0x81"]
    drawn = ((lot.randrange(targets), lot.randrange(12), lot.randrange(targets), lot.choice(accesses)) for _ in range(lot.randrange(12)))
    return ["sandbox-moves 1", *("move %d %d %d %s" % move for move in drawn)]


def damaged(lot, text):
    """A text of bytes with one to three small damages, at any byte or line of it."""
    for _ in range(lot.randrange(1, 4)):
        lines = text.split(b"\n")
        at = lot.randrange(len(lines))
        kind = lot.randrange(7)
        if kind == 0 and text:
            byte = lot.randrange(len(text))
            text = text[:byte] + bytes([lot.randrange(256)]) + text[byte + 1 :]
        elif kind == 1:
            text = text[: lot.randrange(len(text) + 1)]
        elif kind == 2:
            text = b"\n".join(lines[:at] + lines[at + 1 :])
        elif kind == 3:
            text = b"\n".join(lines[:at] + [lines[at]] + lines[at:])
        elif kind == 4:
            words = lines[at].split(b" ")
            words.insert(lot.randrange(len(words) + 1), lot.choice([b"", b"\t", b'"', b"18446744073709551616", b"#", b"\xff", b"\x1b[2J", "é".encode()]))
            text = b"\n".join(lines[:at] + [b" ".join(words)] + lines[at + 1 :])
        elif kind == 5:
            words = lines[at].split(b" ")
            lot.shuffle(words)
            text = b"\n".join(lines[:at] + [b" ".join(words)] + lines[at + 1 :])
        else:
            text = text.replace(b"\n", b"\r\n", lot.randrange(3))
    return text
