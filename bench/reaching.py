"""What `linked`, `dup` and `local` write, worked out once more from the formats alone."""
from auditing import Audit
from second import DENIED, READ_ONLY, SHAPES, Namespace, Script, fold, lines_of, number, quoted, read_policies, units, verdict


def shown(call, args, found):
    """How a decision is written: a verdict on a call, with the arguments that are performed."""
    if found is None:
        return "denied %s norule" % call
    line, action = found
    if action in ("allow", "readonly"):
        words = [quoted(arg) if isinstance(arg, tuple) else "0x%x" % arg for arg in args]
        return "performed %s %s %d" % (" ".join([call, *words]), "rule" if action == "allow" else "readonly", line)
    return {"deny": "denied %s rule %d", "alarm": "denied %s alarm %d", "fake": "faked %s rule %d"}[action] % (call, line)


def decided(space, target, call, args, found):
    """What is written of a call, with the reply to it; it is performed where it is to be."""
    action = found[1] if found else "deny"
    if action == "readonly":
        args = [args[0], args[1] & READ_ONLY, *args[2:]]
    if action in ("allow", "readonly"):
        outcome, (status, handle, ext) = 0, space.perform(target, call, args)
    else:
        outcome, status, handle, ext = (3, 0, 0, []) if action == "fake" else (2, DENIED, 0, [])
    return "%s reply %d %08x %d [%s]" % (shown(call, args, found), outcome, status, handle, ",".join(map(str, ext)))


# ---- linked

def read_links(text):
    return [(units(words[1][1]), units(words[2][1])) for _, words in list(lines_of(text))[1:]]


def applying(links, name):
    found = [link for link in links if fold(name[: len(link[0])]) == fold(link[0]) and name[len(link[0]) : len(link[0]) + 1] in ((), (92,))]
    return max(found, key=lambda link: len(link[0]), default=None)


def resolved(links, name):
    """The name after at most 8 steps, or None if a link still applies."""
    for _ in range(8):
        link = applying(links, name)
        if link is None:
            return name
        name = link[1] + name[len(link[0]) :]
    return None if applying(links, name) else name


def words_needed(args):
    """How many words the block of a call has."""
    sizes = [2 * len(arg) if isinstance(arg, tuple) else 0 for arg in args]
    return 16 + len(args) + sum(-(-size // 8) if isinstance(arg, tuple) else 1 for size, arg in zip(sizes, args))


def linked(policy, script, links):
    policies, script, links = read_policies(policy), Script(script), read_links(links)
    space, out, calls, entries = Namespace(script), [], 0, 0
    for at, target in enumerate(script.targets):
        for thread, statements in enumerate(target["threads"]):
            for place, statement in enumerate(statements):
                if statement[0] != "call":
                    continue
                calls += 1
                head = "%s 0 mark %d " % (target["name"], (thread + 1) * 65536 + place)
                call, stop = statement[1], None
                args = [resolved(links, arg) if kind == "name" else arg for (_, kind), arg in zip(SHAPES[call], statement[2])]
                if None in args:
                    stop = "loop %d" % args.index(None)
                elif words_needed(args) > 64:
                    stop = "too-big"
                if stop:
                    out.append("stopped %s%s %s" % (head, call, stop))
                    continue
                found = verdict(policies[target["policy"]], call, args)
                out.append("entry %d %s%s" % (entries, head, decided(space, at, call, args, found)))
                entries += 1
    out.append("linked calls %d entries %d stopped %d" % (calls, entries, calls - entries))
    return "".join(line + "\n" for line in out).encode()


# ---- dup

def moved(space, policies, script, move):
    giver, handle, taker, access = move
    held = space.handles.get(handle)
    if held is None or held[0] != giver:
        return "not-held"
    _, service, object_, has, sharing = held
    if access & ~has:
        return "more-access 0x%x" % has
    if service == "pipe":
        return "no-opening"
    name = space.name_of(service, object_)
    call, args = (service + ".open", [name, access, sharing, 0] if service == "file" else [name, access])
    only_reads = False
    for target in (giver, taker):
        found = verdict(policies[script.targets[target]["policy"]], call, args)
        if found is None or found[1] not in ("allow", "readonly"):
            told = "norule" if found is None else "%s %d" % ({"deny": "rule"}.get(found[1], found[1]), found[0])
            return "denied %s %s" % (script.targets[target]["name"], told)
        only_reads |= found[1] == "readonly"
    space.granted += 1
    given = access & READ_ONLY if only_reads else access
    space.handles[space.granted] = (taker, service, object_, given, sharing)
    return "given %d 0x%x" % (space.granted, given)


def dup(policy, script, moves, transcript):
    """What `dup` writes, by the transcript of the run."""
    audit = Audit(policy, script)
    for line in transcript.split(b"\n")[:-1]:
        audit.line(line)
    out, count = [], 0
    moves = [tuple(number(word) for _, word in words[1:]) for _, words in list(lines_of(moves))[1:]]
    for at, move in enumerate(moves):
        answer = moved(audit.space, audit.policies, audit.script, move)
        count += answer.startswith("given")
        names = [audit.script.targets[target]["name"] for target in (move[0], move[2])]
        out.append("move %d %s %d %s %s" % (at, names[0], move[1], names[1], answer))
    out.append("moves %d given %d" % (len(moves), count))
    return transcript + "".join(line + "\n" for line in out).encode()


# ---- local

def local(policy, script):
    """The lines of local denials, and the script without these calls."""
    policies, read = read_policies(policy), Script(script)
    out, kept, target, thread, place = [], [], -1, -1, 0
    for line in script.decode().split("\n")[:-1]:
        head = line.split(" ")[0]
        if head == "target":
            target, thread = target + 1, -1
        elif head == "thread":
            thread, place = thread + 1, 0
        elif head in ("call", "store", "exchange", "load", "wait"):
            statement = read.targets[target]["threads"][thread][place]
            place += 1
            if statement[0] == "call":
                found = verdict(policies[read.targets[target]["policy"]], statement[1], statement[2])
                if found is None or found[1] == "deny":
                    why = "rule %d" % found[0] if found else "norule"
                    out.append("local %s %d %d %s %s" % (read.targets[target]["name"], thread, place - 1, statement[1], why))
                    continue
        kept.append(line)
    return "".join(line + "\n" for line in out).encode(), "".join(line + "\n" for line in kept).encode()
