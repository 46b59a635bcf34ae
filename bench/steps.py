"""How many steps a replay takes.

A step is one step of the worker or of the thread. They are counted by a model that follows the rows of both actors
(crates/sb_actor/specs/WorkerTable.antt and ThreadTable.antt) and the rounds of crates/sb_core/specs/Worlds.antt, without the
values of words: on a channel that nothing else touches, the state and the length of the block decide each next phase. It is
of one target with one channel and one thread, so the turn is free whenever the worker takes it.
"""
import programs


def worker_phases(words):
    """A worker's phases from its look at a ready block of `words` words on, without that look."""
    return ["count", "end"] + ["copy"] * words + ["take", "mark", "give"] + ["reply"] * 12 + ["ack"]


def thread_phases(words):
    """A thread's phases of a call, except those that are repeated until the state changes."""
    return ["try"] + ["fill"] * words + ["send", "wait"] + ["fetch"] * 12 + ["free"]


def steps(lengths):
    """How many steps a whole run takes, whose calls have blocks of these lengths in words."""
    state, rounds = 1, 0
    work, served = [], iter(lengths)
    for length in lengths:
        phases, at = thread_phases(length), 0
        while at < len(phases):
            rounds += 1
            # the worker
            if not work:
                if state == 3:
                    work = worker_phases(next(served))[::-1]
            elif work.pop() == "ack":
                state = 4
            # the thread
            phase = phases[at]
            if phase == "try" and state == 1:
                state, at = 2, at + 1
            elif phase == "wait" and state == 4:
                at += 1
            elif phase == "send":
                state, at = 3, at + 1
            elif phase == "free":
                state, at = 1, at + 1
            elif phase in ("fill", "fetch"):
                at += 1
    # the drain: steps of the worker until it looks and nothing is ready
    return 2 * rounds + len(work)


def check_one_ping():
    """One call `ping 7 "bench"` is counted by hand, from the rows of the two actors. Its block has 21 words: 16, its two
    parameters, a word for the number, and two for the five units of the text.

    Each round is a step of the worker and then one of the thread.

    | Rounds | The worker | The thread |
    |---|---|---|
    | 1 | looks, nothing is ready | tries the channel, which is free |
    | 2 to 22 | the same | fills 21 words |
    | 23 | the same | sends |
    | 24 to 26 | looks and finds the call, loads the count and the end | waits |
    | 27 to 47 | copies 21 words | waits |
    | 48 to 50 | takes the turn, has the book answer, gives the turn back | waits |
    | 51 to 62 | stores 12 words of the reply | waits |
    | 63 | acknowledges | waits, and finds that |
    | 64 to 75 | looks, nothing is ready | fetches 12 words |
    | 76 | the same | frees the channel |

    The thread has ended, and the worker looks: it has nothing to do any more.
    """
    by_hand = 2 * (1 + 21 + 1 + 3 + 21 + 3 + 12 + 1 + 12 + 1)
    if by_hand != 152 or steps([21]) != by_hand:
        programs.fail("the model counts %d steps of one ping, not %d" % (steps([21]), by_hand))
