"""Policies, scripts, verdicts and the namespace once more, written from the formats alone: what the program is compared with.

It reads policies and scripts that have no fault.
"""
import re

SHAPES = {
    "ping": (("cookie", "num"), ("text", "text")),
    "file.create": (("name", "name"), ("attributes", "num"), ("access", "num"), ("sharing", "num"), ("disposition", "num"), ("options", "num")),
    "file.open": (("name", "name"), ("access", "num"), ("sharing", "num"), ("options", "num")),
    "file.query": (("name", "name"),),
    "file.rename": (("name", "name"), ("to", "name")),
    "pipe.create": (("name", "name"), ("mode", "num"), ("form", "num"), ("instances", "num")),
    "key.create": (("name", "name"), ("access", "num")),
    "key.open": (("name", "name"), ("access", "num")),
    "event.create": (("name", "name"), ("kind", "num"), ("initial", "num")),
    "event.open": (("name", "name"), ("access", "num")),
    "handle.close": (("handle", "handle"),),
}
READ_ONLY = 0xA01200A9
WRITING = 0x5FEDFF56
DENIED, INVALID = 0xC0000022, 0xC000000D


# ---- strings and names

def units(text):
    raw = text.encode("utf-16-le", "surrogatepass")
    return tuple(raw[i] | raw[i + 1] << 8 for i in range(0, len(raw), 2))


def fold(string):
    return tuple(u - 32 if 97 <= u <= 122 else u for u in string)


def components(string):
    parts, part = [], []
    for u in string[1:]:
        if u == 92:
            parts.append(tuple(part))
            part = []
        else:
            part.append(u)
    return parts + [tuple(part)]


def is_name(string):
    if not string or string[0] != 92:
        return False
    return all(part and part[-1] not in (32, 46) and all(u >= 32 and u not in (47, 42) for u in part) for part in components(string))


def quoted(string):
    out = '"'
    for u in string:
        if u in (34, 92):
            out += "\\" + chr(u)
        elif 32 <= u <= 126:
            out += chr(u)
        else:
            out += "\\u%04x" % u
    return out + '"'


def cells(pattern):
    out, i = [], 0
    while i < len(pattern):
        if pattern[i] == 47 and i + 1 < len(pattern) and pattern[i + 1] == 63:
            out.append(("unit", 63))
            i += 2
            continue
        out.append({42: ("any",), 63: ("one",)}.get(pattern[i], ("unit", pattern[i])))
        i += 1
    return out


def matches(pattern, string):
    """Whether a pattern matches: the positions that are reached, cell by cell."""
    string = fold(string)
    reached = {0}
    for cell in cells(pattern):
        if cell[0] == "any":
            reached = set(range(min(reached), len(string) + 1)) if reached else set()
        elif cell[0] == "one":
            reached = {at + 1 for at in reached if at < len(string)}
        else:
            unit = fold((cell[1],))[0]
            reached = {at + 1 for at in reached if at < len(string) and string[at] == unit}
    return len(string) in reached


# ---- calls

def fits(call, args):
    shape = SHAPES[call]
    if len(args) != len(shape):
        return False
    for (_, kind), arg in zip(shape, args):
        if kind in ("num", "handle"):
            if not isinstance(arg, int) or kind == "num" and arg >= 1 << 32:
                return False
        elif isinstance(arg, int) or kind == "name" and not is_name(arg):
            return False
    return True


# ---- texts

def tokens(line):
    out, i = [], 0
    while True:
        while i < len(line) and line[i] in " \t":
            i += 1
        if i == len(line):
            return out
        if line[i] == '"':
            end = line.index('"', i + 1)
            out.append(("string", line[i + 1:end]))
            i = end + 1
        else:
            end = i
            while end < len(line) and line[end] not in " \t":
                end += 1
            out.append(("word", line[i:end]))
            i = end


def lines_of(text):
    """The numbered lines of a text that have tokens and are no comments."""
    for number, line in enumerate(text.decode().split("\n"), 1):
        found = tokens(line[:-1] if line.endswith("\r") else line)
        if found and not found[0][1].startswith("#"):
            yield number, found


def number(word):
    return int(word, 16) if word[:2] in ("0x", "0X") else int(word)


def conditions(call, words):
    out = []
    while words:
        words = words[1:]
        negated = words[0] == ("word", "not")
        if negated:
            words = words[1:]
        name, test = words[0][1], words[1][1]
        at = [parameter for parameter, _ in SHAPES[call]].index(name)
        if test == "is" and words[2][0] == "word":
            numbers, words = [number(words[2][1])], words[3:]
            while words and words[0] == ("word", "or"):
                numbers.append(number(words[1][1]))
                words = words[2:]
            value = numbers
        elif test == "in":
            low, high = words[2][1].split("..")
            value, words = (number(low), number(high)), words[3:]
        elif test == "has":
            value, words = number(words[2][1]), words[3:]
        else:
            value, words, test = units(words[2][1]), words[3:], "same" if test == "is" else "like"
        out.append((at, negated, test, value))
    return out


def granted_rules(grant, pattern, line):
    like = (0, False, "like", pattern)
    reads = lambda at: (at, True, "has", WRITING)
    table = {
        "files_any": [("file.create", [like]), ("file.open", [like]), ("file.query", [like]), ("file.rename", [like, (1, False, "like", pattern)])],
        "files_readonly": [("file.open", [like, reads(1)]), ("file.create", [like, reads(2), (4, False, "is", [1])]), ("file.query", [like])],
        "files_query": [("file.query", [like])],
        "pipes_any": [("pipe.create", [like])],
        "registry_any": [("key.create", [like]), ("key.open", [like])],
        "registry_readonly": [("key.open", [like, reads(1)])],
        "events_any": [("event.create", [like]), ("event.open", [like])],
        "events_readonly": [("event.open", [like, reads(1)])],
    }
    return [(line, "allow", call, conds) for call, conds in table[grant]]


def read_policies(text):
    policies = {}
    for line, words in list(lines_of(text))[1:]:
        head = words[0][1]
        if head == "policy":
            rules = policies[words[1][1]] = []
        elif head == "grant":
            rules.extend(granted_rules(words[1][1], units(words[2][1]), line))
        else:
            rules.append((line, head, words[1][1], conditions(words[1][1], words[2:])))
    return policies


def holds(condition, args):
    at, negated, test, value = condition
    arg = args[at]
    if test == "is":
        found = arg in value
    elif test == "in":
        found = value[0] <= arg <= value[1]
    elif test == "has":
        found = arg & value != 0
    elif test == "same":
        found = fold(arg) == fold(value)
    else:
        found = matches(value, arg)
    return found != negated


def verdict(rules, call, args):
    for line, action, tag, conds in rules:
        if tag == call and all(holds(condition, args) for condition in conds):
            return line, action
    return None


class Script:
    def __init__(self, text):
        self.opening, self.targets = [], []
        for _, words in list(lines_of(text))[1:]:
            head = words[0][1]
            if head in ("dir", "file", "key", "event"):
                self.opening.append((head, units(words[1][1]), [number(word) for _, word in words[2:]]))
            elif head == "target":
                self.targets.append({"name": words[1][1], "policy": words[2][1], "channels": number(words[3][1]), "threads": []})
            elif head == "thread":
                self.targets[-1]["threads"].append([])
            elif head == "call":
                args = [units(word) if kind == "string" else number(word) for kind, word in words[2:]]
                self.targets[-1]["threads"][-1].append(("call", words[1][1], args))
            elif head in ("store", "exchange", "load", "wait"):
                rest = [word if word == "state" else number(word) for _, word in words[1:]]
                self.targets[-1]["threads"][-1].append((head, rest))
        self.numbers = {target["name"]: at for at, target in enumerate(self.targets)}
        self.dirty = {(statement[1][0], statement[1][1]) for target in self.targets for thread in target["threads"] for statement in thread
                      if statement[0] in ("store", "exchange")}

    def is_clean(self, target, channel):
        return (target, channel) not in self.dirty


# ---- the namespace

def parent(name):
    parts = components(name)[:-1]
    return tuple(u for part in parts for u in (92,) + part)


class Namespace:
    def __init__(self, script):
        self.rows = {"file": {}, "pipe": {}, "key": {}, "event": {}}
        self.made = dict.fromkeys(self.rows, 0)
        self.handles, self.granted = {}, 0
        for kind, name, rest in script.opening:
            if kind == "dir":
                self.make("file", name, {"kind": 1, "attributes": 0})
            elif kind == "file":
                self.make("file", name, {"kind": 0, "attributes": rest[0]})
            elif kind == "key":
                self.make("key", name, {})
            else:
                self.make("event", name, {"kind": rest[0], "initial": rest[1]})

    def make(self, service, name, fields):
        self.made[service] += 1
        self.rows[service][fold(name)] = row = dict(fields, number=self.made[service], name=name)
        return row

    def name_of(self, service, number_):
        """The name of the object with this number."""
        return next(row["name"] for row in self.rows[service].values() if row["number"] == number_)

    def has_parent(self, service, name):
        above = fold(parent(name))
        if not above:
            return True
        row = self.rows[service].get(above)
        return row is not None and (service != "file" or row["kind"] == 1)

    def grant(self, target, service, row, access=0, sharing=0):
        self.granted += 1
        self.handles[self.granted] = (target, service, row["number"], access, sharing)
        return self.granted

    def conflicts(self, row, access, sharing):
        masks = ((0xB0000021, 1), (0x50000006, 2), (0x10010000, 4))
        for _, service, number_, held, shared in self.handles.values():
            if service != "file" or number_ != row["number"]:
                continue
            for mask, bit in masks:
                if access & mask and not shared & bit and any(held & each for each, _ in masks):
                    return True
                if held & mask and not sharing & bit and any(access & each for each, _ in masks):
                    return True
        return False

    def perform(self, target, call, args):
        """The answer (status, handle, extended words)."""
        service, act = call.split(".") if "." in call else (call, "")
        if call == "ping":
            return 0, 0, [args[0], len(args[1])]
        if call == "handle.close":
            return self.close(target, args[0])
        return getattr(self, service + "_" + act)(target, *args)

    def close(self, target, handle):
        held = self.handles.get(handle)
        if held is None or held[0] != target:
            return 0xC0000008, 0, []
        del self.handles[handle]
        if held[1] == "pipe" and not any(other[1:3] == held[1:3] for other in self.handles.values()):
            self.rows["pipe"] = {name: row for name, row in self.rows["pipe"].items() if row["number"] != held[2]}
        return 0, 0, []

    def file_create(self, target, name, attributes, access, sharing, disposition, options):
        if disposition > 5 or sharing > 7 or options & 0x41 == 0x41 or options & 1 and disposition in (0, 4, 5):
            return INVALID, 0, []
        if not self.has_parent("file", name):
            return 0xC000003A, 0, []
        row = self.rows["file"].get(fold(name))
        if row is None:
            if disposition in (1, 4):
                return 0xC0000034, 0, []
            row = self.make("file", name, {"kind": options & 1, "attributes": attributes})
            return 0, self.grant(target, "file", row, access, sharing), [2]
        if disposition == 2:
            return 0xC0000035, 0, []
        if row["kind"] == 0 and options & 1:
            return 0xC0000103, 0, []
        if row["kind"] == 1 and (options & 0x40 or disposition in (0, 4, 5)):
            return 0xC00000BA, 0, []
        if self.conflicts(row, access, sharing):
            return 0xC0000043, 0, []
        if disposition in (0, 4, 5):
            row["attributes"] = attributes
        return 0, self.grant(target, "file", row, access, sharing), [{1: 1, 3: 1, 4: 3, 5: 3, 0: 0}[disposition]]

    def file_open(self, target, name, access, sharing, options):
        return self.file_create(target, name, 0, access, sharing, 1, options)

    def file_query(self, target, name):
        if not self.has_parent("file", name):
            return 0xC000003A, 0, []
        row = self.rows["file"].get(fold(name))
        return (0xC0000034, 0, []) if row is None else (0, 0, [row["attributes"], row["kind"]])

    def file_rename(self, target, name, to):
        files, old, new = self.rows["file"], fold(name), fold(to)
        if not self.has_parent("file", name):
            return 0xC000003A, 0, []
        if old not in files:
            return 0xC0000034, 0, []
        if new[:len(old) + 1] == old + (92,):
            return INVALID, 0, []
        if not self.has_parent("file", to):
            return 0xC000003A, 0, []
        if new in files:
            return 0xC0000035, 0, []
        if self.conflicts(files[old], 0x10000, 7):
            return 0xC0000043, 0, []
        below = [key for key in files if key == old or key[: len(old) + 1] == old + (92,)]
        for key in below:
            row = files.pop(key)
            row["name"] = to + row["name"][len(name) :]
            files[new + key[len(old) :]] = row
        return 0, 0, []

    def pipe_create(self, target, name, mode, form, instances):
        if mode not in (1, 2, 3) or form > 1 or not 1 <= instances <= 255:
            return INVALID, 0, []
        row = self.rows["pipe"].get(fold(name))
        if row is None:
            row = self.make("pipe", name, {"shape": (mode, form, instances)})
        elif row["shape"] != (mode, form, instances):
            return DENIED, 0, []
        count = sum(held[1:3] == ("pipe", row["number"]) for held in self.handles.values())
        if count >= instances:
            return 0xC00000AB, 0, []
        return 0, self.grant(target, "pipe", row), [count + 1]

    def key_create(self, target, name, access):
        if not self.has_parent("key", name):
            return 0xC000003A, 0, []
        row = self.rows["key"].get(fold(name))
        if row is not None:
            return 0, self.grant(target, "key", row, access), [2]
        return 0, self.grant(target, "key", self.make("key", name, {}), access), [1]

    def key_open(self, target, name, access):
        if not self.has_parent("key", name):
            return 0xC000003A, 0, []
        row = self.rows["key"].get(fold(name))
        return (0xC0000034, 0, []) if row is None else (0, self.grant(target, "key", row, access), [])

    def event_create(self, target, name, kind, initial):
        if kind > 1 or initial > 1:
            return INVALID, 0, []
        row = self.rows["event"].get(fold(name))
        if row is not None and row["kind"] != kind:
            return 0xC0000024, 0, []
        status = 0 if row is None else 0x40000000
        row = row or self.make("event", name, {"kind": kind, "initial": initial})
        return status, self.grant(target, "event", row), [row["kind"], row["initial"]]

    def event_open(self, target, name, access):
        row = self.rows["event"].get(fold(name))
        return (0xC0000034, 0, []) if row is None else (0, self.grant(target, "event", row, access), [row["kind"], row["initial"]])
