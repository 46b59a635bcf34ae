"""A second auditor of transcripts, written from the formats alone: what `sandbox audit` is compared with.

`audited(policy, script, transcript)` gives ("yes", entries, results) or ("no", line, clause).
"""
import re

from second import DENIED, fits, INVALID, Namespace, quoted, READ_ONLY, read_policies, Script, SHAPES, verdict, WRITING


# ---- the lines of a transcript

NUMBER = r"(?:0|[1-9][0-9]{0,19})"
NAME = r"[a-z0-9_]{1,32}"
REPLY = r"(?P<outcome>%s) (?P<status>[0-9a-f]{8,16}) (?P<handle>%s) \[(?P<ext>(?:%s(?:,%s)*)?)\]" % ((NUMBER,) * 4)
ARG = r'(?:0x(?:0|[1-9a-f][0-9a-f]{0,15})|"(?:[ !#-\[\]-~]|\\["\\]|\\u[0-9a-f]{4})*")'
FAULTS = (("too-many-params", 1, 1), ("bad-end", 2, 1), ("count-changed", 3, 2), ("end-changed", 4, 2), ("bad-param-type", 5, 1), ("bad-place", 6, 1),
          ("unknown-tag", 7, 1), ("wrong-shape", 8, 0), ("bad-size", 9, 1), ("bad-name", 10, 1))
PLACED = ("bad-param-type", "bad-place", "bad-size", "bad-name")
CALLS = "|".join(re.escape(call) for call in SHAPES)
ENTRY = re.compile(r"entry (?P<number>%s) (?P<target>%s) (?P<channel>%s) mark (?P<mark>%s) (?P<decision>.*) reply %s" % (NUMBER, NAME, NUMBER, NUMBER, REPLY))
RESULT = re.compile(r"result (?P<target>%s) (?P<thread>%s) (?P<place>%s) (?P<result>.*)" % (NAME, NUMBER, NUMBER))
TOTALS = re.compile(r"total entries (%s) performed (%s) faked (%s) denied (%s) refused (%s) results (%s)" % ((NUMBER,) * 6))


class NoLine(Exception):
    """The bytes are no line of a transcript."""


def ranged(word, bits=64):
    value = int(word)
    if value >= 1 << bits:
        raise NoLine
    return value


def reply_of(found):
    status, ext = found["status"], found["ext"]
    if len(status) > 8 and status[0] == "0":
        raise NoLine
    words = [ranged(word) for word in ext.split(",")] if ext else []
    if len(words) > 7:
        raise NoLine
    return ranged(found["outcome"]), int(status, 16), ranged(found["handle"]), words


def string_of(text):
    out, i = [], 1
    while i < len(text) - 1:
        if text[i] != "\\":
            out.append(ord(text[i]))
            i += 1
        elif text[i + 1] == "u":
            out.append(int(text[i + 2:i + 6], 16))
            i += 6
        else:
            out.append(ord(text[i + 1]))
            i += 2
    if quoted(out) != text:
        raise NoLine
    return tuple(out)


def decision_of(text):
    found = re.fullmatch(r"refused ([a-z-]+)((?: %s)*)" % NUMBER, text)
    if found:
        for name, code, count in FAULTS:
            if name == found[1]:
                values = [ranged(word, 32 if name in PLACED else 64) for word in found[2].split()]
                if len(values) == count:
                    return ("refused", [code] + values)
        raise NoLine
    found = re.fullmatch(r"denied (%s) norule" % CALLS, text)
    if found:
        return ("norule", found[1])
    found = re.fullmatch(r"(denied|faked) (%s) (rule|alarm) (%s)" % (CALLS, NUMBER), text)
    if found and (found[1], found[3]) != ("faked", "alarm"):
        action = "fake" if found[1] == "faked" else "alarm" if found[3] == "alarm" else "deny"
        return (action, found[2], ranged(found[4], 32))
    found = re.fullmatch(r"performed (%s)((?: %s)*) (rule|readonly) (%s)" % (CALLS, ARG, NUMBER), text)
    if found:
        args = [string_of(word) if word[0] == '"' else int(word, 16) for word in re.findall(ARG, found[2])]
        return ("performed", found[1], args, "allow" if found[3] == "rule" else "readonly", ranged(found[4], 32))
    raise NoLine


def result_of(text):
    found = re.fullmatch("reply (?P<channel>%s) %s" % (NUMBER, REPLY), text)
    if found:
        return ("reply", ranged(found["channel"], 32), reply_of(found))
    if text in ("no-channel", "stored"):
        return (text,)
    for name, bits in (("send-lost", (32, 64)), ("foreign", (32, 64)), ("timed-out", (32,)), ("found", (64,)), ("met", (32,)), ("unmet", (32,))):
        found = re.fullmatch(name + (" (%s)" % NUMBER) * len(bits), text)
        if found:
            return (name, *(ranged(word, bit) for word, bit in zip(found.groups(), bits)))
    raise NoLine


def read_line(raw):
    try:
        text = raw.decode("ascii")
    except UnicodeDecodeError:
        raise NoLine from None
    found = ENTRY.fullmatch(text)
    if found:
        return ("entry", ranged(found["number"]), found["target"], ranged(found["channel"], 32), ranged(found["mark"]), decision_of(found["decision"]), reply_of(found))
    found = RESULT.fullmatch(text)
    if found:
        return ("result", found["target"], ranged(found["thread"], 32), ranged(found["place"], 32), result_of(found["result"]))
    found = TOTALS.fullmatch(text)
    if found:
        return ("totals", [ranged(word) for word in found.groups()])
    raise NoLine


# ---- the clauses

class Audit:
    def __init__(self, policy, script):
        self.policies, self.script = read_policies(policy), Script(script)
        self.space = Namespace(self.script)
        self.due = [(target["name"], thread, place) for target in self.script.targets
                    for thread, statements in enumerate(target["threads"]) for place in range(len(statements))]
        self.entries, self.results, self.ended = 0, 0, False
        self.counts = {"performed": 0, "faked": 0, "denied": 0, "refused": 0}
        self.own, self.highest = {}, {}

    def statement(self, target, thread, place):
        threads = self.script.targets[target]["threads"]
        return threads[thread][place] if thread < len(threads) and place < len(threads[thread]) else None

    def line(self, raw):
        """The lowest clause that fails at a line, or None."""
        try:
            line = read_line(raw)
        except NoLine:
            return 1
        return getattr(self, line[0])(*line[1:])

    def entry(self, number_, name, channel, mark, decision, reply):
        if self.ended or self.results or number_ != self.entries:
            return 1
        target = self.script.numbers.get(name)
        if target is None or channel >= self.script.targets[target]["channels"]:
            return 2
        rules = self.policies[self.script.targets[target]["policy"]]
        if not self.shows_rule(rules, decision):
            return 3
        if reply != self.reply_due(target, decision):
            return 4
        if self.script.is_clean(target, channel) and not self.is_own(rules, target, mark, decision):
            return 5
        if self.script.is_clean(target, channel):
            self.own.setdefault((target, mark), []).append((channel, reply))
        self.entries += 1
        kind = {"norule": "denied", "deny": "denied", "alarm": "denied", "fake": "faked"}.get(decision[0], decision[0])
        self.counts[kind] += 1
        return None

    def shows_rule(self, rules, decision):
        if decision[0] in ("refused", "norule"):
            return True
        if decision[0] != "performed":
            return any(rule[:3] == (decision[2], decision[0], decision[1]) for rule in rules)
        _, call, args, action, line = decision
        if not fits(call, args):
            return False
        if action == "allow":
            return verdict(rules, call, args) == (line, "allow")
        return any(rule[:3] == (line, "readonly", call) for rule in rules) and args[1] & WRITING == 0

    def reply_due(self, target, decision):
        if decision[0] == "refused":
            return 1, INVALID, 0, decision[1]
        if decision[0] == "fake":
            return 3, 0, 0, []
        if decision[0] != "performed":
            return 2, DENIED, 0, []
        return (0, *self.space.perform(target, decision[1], decision[2]))

    def is_own(self, rules, target, mark, decision):
        thread, place = mark // 65536 - 1, mark % 65536
        statement = self.statement(target, thread, place) if thread >= 0 else None
        if statement is None or statement[0] != "call" or self.highest.get((target, thread), -1) >= place:
            return False
        call, args = statement[1], statement[2]
        found = verdict(rules, call, args)
        if found is None:
            wanted = ("norule", call)
        elif found[1] in ("allow", "readonly"):
            cut = [args[0], args[1] & READ_ONLY] + args[2:] if found[1] == "readonly" else args
            wanted = ("performed", call, cut, found[1], found[0])
        else:
            wanted = (found[1], call, found[0])
        if decision != wanted:
            return False
        self.highest[(target, thread)] = place
        return True

    def result(self, name, thread, place, result):
        if self.ended or self.results >= len(self.due) or self.due[self.results] != (name, thread, place):
            return 1
        target = self.script.numbers[name]
        statement = self.statement(target, thread, place)
        mark = (thread + 1) * 65536 + place
        if not self.suits(target, mark, statement, result):
            return 6
        own = self.own.get((target, mark), [])
        shown = result[1:] if result[0] == "reply" else None
        if result[0] == "reply" and self.script.is_clean(target, result[1]) and not any(each == shown for each in own):
            return 6
        if any(each != shown for each in own):
            return 6
        self.results += 1
        return None

    def suits(self, target, mark, statement, result):
        kind = result[0]
        if statement[0] == "store":
            return kind == "stored"
        if statement[0] in ("exchange", "load"):
            return kind == "found"
        if statement[0] == "wait":
            most = statement[1][4]
            return kind == "met" and 1 <= result[1] <= most or kind == "unmet" and result[1] == most
        if kind == "no-channel":
            return not any(self.script.is_clean(target, channel) for channel in range(self.script.targets[target]["channels"]))
        if kind == "reply":
            return True
        if kind not in ("send-lost", "foreign", "timed-out"):
            return False
        if result[1] >= self.script.targets[target]["channels"] or self.script.is_clean(target, result[1]):
            return False
        return not (kind == "send-lost" and result[2] == 2 or kind == "foreign" and result[2] == mark)

    def totals(self, numbers):
        if self.ended or self.results != len(self.due):
            return 1
        self.ended = True
        counts = self.counts
        return None if numbers == [self.entries, counts["performed"], counts["faked"], counts["denied"], counts["refused"], self.results] else 7


def audited(policy, script, transcript):
    audit = Audit(policy, script)
    lines = transcript.split(b"\n")
    last = lines.pop()
    for at, raw in enumerate(lines, 1):
        clause = audit.line(raw)
        if clause:
            return ("no", at, clause)
    if last:
        return ("no", len(lines) + 1, 1)
    if not audit.ended:
        return ("no", len(lines) + 1, 1)
    return ("yes", audit.entries, audit.results)
