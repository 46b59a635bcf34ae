#!/usr/bin/env python3
"""Compares include/sandbox_broker.h with the exports of crates/sb_c: each function with the types of its parameters and of its result, each struct with its
fields, in order, and each number of a status, an action, a call and a fault. `Global` has no bytes, so C passes nothing for it. A slice is a pointer and a
`size_t`. Then it tries itself: a header in which one type of a function or of a field, or one number, is another, or in which a function is missing, has to
differ."""
import glob
import os
import re
import sys

TOP = os.path.dirname(os.path.dirname(os.path.realpath(__file__)))
NUMBERS = {"u8": "uint8_t", "u16": "uint16_t", "u32": "uint32_t", "u64": "uint64_t", "usize": "size_t"}
# the structs of the header, by the name that they have in Rattle
STRUCTS = {
    "Argument": "sb_argument",
    "Step": "sb_step",
    "CopyFault": "sb_copy_fault",
    "ClientCall": "sb_client_call",
    "CallEnding": "sb_call_ending",
    "CallVerdict": "sb_call_verdict",
    "TextFault": "sb_text_fault",
    "CopyDecision": "sb_copy_decision",
    "HostAnswer": "sb_host_answer",
    "Handle": "sb_handle",
}


def plain(text):
    """The text without comments."""
    return re.sub(r"//[^\n]*|/\*.*?\*/", "", text, flags=re.S)


def c_type(name):
    """The type of C for one of Rattle."""
    return NUMBERS.get(name) or STRUCTS.get(name) or f"UNKNOWN {name}"


def c_types(rattle):
    """The types of C that a parameter of this type takes."""
    rattle = rattle.strip()
    if rattle == "Global":
        return []
    if match := re.fullmatch(r"&(mut )?\[(\w+)\]", rattle):
        return [("" if match[1] else "const ") + c_type(match[2]) + " *", "size_t"]
    if match := re.fullmatch(r"&(mut )?(\w+)", rattle):
        return [("" if match[1] else "const ") + c_type(match[2]) + " *"]
    return [c_type(rattle)]


def exports():
    """Each export by its name: the types of its parameters, and its result."""
    found = {}
    for path in glob.glob(os.path.join(TOP, "crates/sb_c/src/*.rt")):
        text = plain(open(path).read())
        for match in re.finditer(r'#\[unsafe\(no_mangle\)\]\s*(?:#\[[^\n]*\]\s*)*pub extern "C" fn (\w+)\(([^)]*)\)(?: -> (\w+))?', text):
            params = [kind for part in match[2].split(",") if part.strip() for kind in c_types(part.split(":", 1)[1])]
            found[match[1]] = (params or ["void"], c_type(match[3]) if match[3] else "void")
    return found


def prototypes(header):
    """Each function of the header by its name, in the same form."""
    found = {}
    for match in re.finditer(r"(?m)^(\w+) (\w+)\(([^)]*)\);", header):
        params = [re.sub(r"\s*(\*?)\s*\w+$", r" \1", part.strip()).strip() if part.strip() != "void" else "void" for part in match[3].split(",")]
        found[match[2]] = (params, match[1])
    return found


def fields_of_rattle():
    """Each struct that crosses, by its name in C: its fields, and how many elements each has. The fields of a struct that only another holds, as `Place`,
    are that one's."""
    structs = {}
    for name in ("sb_c/src/shapes.rt", "sb_c/src/handles.rt", "sb_host/src/calls.rt"):
        text = plain(open(os.path.join(TOP, "crates", name)).read())
        for match in re.finditer(r"#\[repr\(C\)\]\s*(?:#\[[^\n]*\]\s*)*pub struct (\w+) \{(.*?)\n\}", text, re.S):
            structs[match[1]] = re.findall(r"(?m)^    (?:pub )?(\w+): ([^,\n]+),$", match[2])

    def fields_of(struct):
        fields = []
        for name, kind in structs[struct]:
            array = re.fullmatch(r"\[(\w+); (\d+)\]", kind)
            if kind in structs:
                fields += fields_of(kind)
            elif kind != "Global":
                fields.append((name, "void *" if kind.startswith("*mut ") else c_type(array[1] if array else kind), int(array[2]) if array else 1))
        return fields

    held = {kind for fields in structs.values() for _, kind in fields}
    return {STRUCTS.get(name, name): fields_of(name) for name in structs if name not in held}


def fields_of_header(header):
    """The same of the header."""
    found = {}
    for match in re.finditer(r"typedef struct (\w+) \{(.*?)\} (\w+);", header, re.S):
        fields = re.findall(r"(\w+(?: \*)?) ?\b(\w+)(?:\[(\d+)\])?;", match[2])
        found[match[3]] = [(name, kind, int(count or 1)) for kind, name, count in fields]
    return found


def snake(name):
    """The name of a variant as C has it."""
    return re.sub(r"(?<=[a-z0-9])(?=[A-Z])", "_", name).upper()


def numbers_of_rattle():
    """Each number that crosses, by its name in C."""
    found = {}
    for prefix, path, pattern in (
        ("SB_", "sb_c/src/statuses.rt", r"(?m)^    (\w+) = (\d+),$"),
        ("SB_", "sb_call/src/tags.rt", r"(?m)^    (\w+) = (\d+),$"),
        ("SB_", "sb_rule/src/actions.rt", r"(?m)^    (\w+) = (\d+),$"),
        ("SB_COPY_", "sb_c/src/blocks.rt", r"BlockFault::(\w+)(?:\([^)]*\))? => shown\((\d+),"),
        ("SB_TEXT_", "sb_ruletext/src/faults.rt", r"PolicyFaultKind::(\w+)(?:\([^)]*\))?(?: \| [^=]*)? => (\d+),"),
    ):
        text = plain(open(os.path.join(TOP, "crates", path)).read())
        found.update({prefix + snake(name): number for name, number in re.findall(pattern, text)})
    found["SB_READONLY"] = found.pop("SB_READ_ONLY")
    return found


def numbers_of_header(header):
    """The same of the header."""
    enums = re.findall(r"enum sb_(?:status|call_number|action|copy_fault_number|text_fault_number) \{.*?\}", header, re.S)
    return dict(re.findall(r"(SB_\w+) = (\d+)", " ".join(enums)))


def differences(header):
    """What the header has otherwise than the sources."""
    wrong = []
    for what, ours, theirs in (
        ("function", exports(), prototypes(header)),
        ("struct", fields_of_rattle(), fields_of_header(header)),
        ("number", numbers_of_rattle(), numbers_of_header(header)),
    ):
        if not ours:
            wrong.append(f"no {what} of crates/sb_c was found")
        for name in sorted(ours.keys() | theirs.keys()):
            if ours.get(name) != theirs.get(name):
                wrong.append(f"{what} {name}: crates/sb_c has {ours.get(name)}, the header has {theirs.get(name)}")
    return wrong


# headers that have to differ: a piece of the header, and what it becomes
TRIES = (
    ("uint32_t channels);", "uint64_t channels);"),
    ("size_t *word_count);", "uint32_t *word_count);"),
    ("    uint32_t line;\n    uint32_t column;", "    uint64_t line;\n    uint32_t column;"),
    ("uint32_t sb_free(sb_handle *handle);", ""),
    ("SB_NO_ROOM = 4", "SB_NO_ROOM = 5"),
)


def main():
    with open(os.path.join(TOP, "include/sandbox_broker.h"), encoding="utf-8") as file:
        header = plain(file.read())
    wrong = differences(header)
    for old, new in TRIES:
        if old not in header:
            wrong.append(f"there is no {old!r} to be tried")
        elif not differences(header.replace(old, new, 1)):
            wrong.append(f"{old!r} as {new!r} is not seen")
    for line in wrong:
        print(f"include/sandbox_broker.h: {line}", file=sys.stderr)
    sys.exit(1 if wrong else 0)


main()
