"""Small hostile scripts that follow from a number, and the policies of their targets.

Those of the numbers 1 to 20 are cases of crates/sb_cases, in the file written.rows. `bench/small_scripts.py N` prints the script of N.
"""
import sys

POLICY = r"""sandbox-policy 2
policy web
allow event.create when name is "\good"
alarm event.create when name like "\bad*"
fake ping when cookie is 8
allow ping when cookie in 0..100
readonly file.open when name like "\d\*" and access has 0x40000000
allow file.open when name like "\d\*"
allow file.create when name like "\d\*"
allow handle.close
policy strict
deny ping when cookie is 8
allow ping
""".splitlines()

CALLS = [
    r'ping 7 ""', r'ping 8 "some text"', r'ping 900 ""', r'event.create "\good" 0 1', r'event.create "\bad" 0 0',
    r'file.open "\d\a" 0xc0000000 7 0x40', r'file.open "\d\a" 0x80000000 1 0x40', r'file.create "\d\b" 0x20 2 7 3 0x40',
    r'handle.close 1', r'handle.close 2',
]

# Words of a block that decide what becomes of it, and others.
WORDS = ["state", "state", "0", "1", "2", "3", "6", "15", "16", "17", "18", "20"]

VALUES = [
    "0", "1", "2", "3", "4", "5", "9", "10", "65536", "131073", "0x130000", "0x150000", "0x0000000100130009",
    "0xffffffffffffffff",
]


class Rolls:
    """Numbers that follow from one another, and what the script of a number has of each kind."""

    def __init__(self, number):
        self.seed = self.state = number

    def below(self, bound):
        self.state = (self.state * 0x5851F42D4C957F2D + 0x14057B7EF767814F) % 2**64
        return (self.state >> 33) % bound

    def word(self, words):
        return words[self.below(len(words))]

    def targets(self):
        return 1 + self.seed % 3

    def channels(self, target):
        return 1 + (self.seed // 3 + target) % 3


def script(number):
    """The lines of the script of a number."""
    rolls = Rolls(number)
    lines = ["sandbox-script 1", "patience %d" % (rolls.below(2000) + 20), r'dir "\d"', r'file "\d\a" 0x20']
    for target in range(rolls.targets()):
        policy = rolls.word(["web", "web", "strict"])
        lines.append("target t%d %s %d" % (target, policy, rolls.channels(target)))
        for _ in range(min(rolls.below(4), 3) + 1):
            lines.append("thread")
            for _ in range(rolls.below(8)):
                lines.append(statement(rolls))
    return lines


def statement(rolls):
    target = rolls.below(rolls.targets())
    # This many channels of the target, from the first on, are written directly.
    written = min((rolls.seed // 9 + target) % 4, rolls.channels(target))
    kind = rolls.below(8)
    if kind < 4:
        return "call " + rolls.word(CALLS)
    if kind < 6 and written > 0:
        return store(rolls, target, written)
    return load(rolls, target)


def store(rolls, target, written):
    """A store into one of the first channels of a target, or an exchange there."""
    channel = rolls.below(written)
    word, value = rolls.word(WORDS), rolls.word(VALUES)
    if rolls.word(["store", "exchange"]) == "store":
        return "store %d %d %s %s" % (target, channel, word, value)
    return "exchange %d %d %s %s %s" % (target, channel, word, rolls.word(VALUES), value)


def load(rolls, target):
    """A load of a word of a target's channels, once or again and again."""
    channel = rolls.below(rolls.channels(target))
    word, value = rolls.word(WORDS), rolls.word(VALUES)
    if rolls.word(["load", "wait"]) == "load":
        return "load %d %d %s" % (target, channel, word)
    return "wait %d %d %s %s 100" % (target, channel, word, value)


def workers(number):
    """How many workers serve the script of a number, from 1 on."""
    return (1, 2, 8)[(number - 1) % 3]


if __name__ == "__main__":
    print("\n".join(script(int(sys.argv[1]))))
