#!/usr/bin/env python3
"""Follows each relative link of the documents: the file has to be there, and a heading of it if the link names one.

A link is `[TEXT](PLACE)` outside blocks of code and outside spans between backticks. PLACE is a file or a folder, seen from the folder of the
document, or `#HEADING` in the same document, or both; `https:` and `mailto:` are passed over. HEADING is a heading as GitHub names it: in
lower case, without punctuation, with `-` for each blank, and with `-1`, `-2` .. if it is there already. Each document has to be
reached by links from README.md.
"""
import functools
import glob
import os
import re
import sys

sys.dont_write_bytecode = True

from sessions import TOP, text_of

DOCUMENTS = sorted(glob.glob("*.md", root_dir=TOP) + glob.glob("docs/*.md", root_dir=TOP) + glob.glob("bench/*.md", root_dir=TOP))
LINK = re.compile(r"\[[^\[\]]+\]\(\s*([^()\s]*)\s*\)")
ELSEWHERE = re.compile(r"(?:https?|mailto):")


def prose(document):
    """The lines of a document with their numbers, except blocks of code, which are fenced or indented by four blanks after a blank line."""
    was_blank, is_code, is_fenced = True, False, False
    for number, line in enumerate(text_of(document).splitlines(), 1):
        fence = line.startswith("```")
        is_code = line.startswith("    ") and (is_code or was_blank)
        was_blank = not line.strip()
        if not (is_code or is_fenced or fence):
            yield number, line
        is_fenced ^= fence


def anchor_of(heading):
    """A heading as a link names it."""
    return re.sub(r"[^\w\- ]", "", heading.strip().lower()).replace(" ", "-")


@functools.cache
def anchors(document):
    """The headings of a document, as links name them."""
    found, count = set(), {}
    for _, line in prose(document):
        heading = re.match(r"#{1,6} +(.*?)(?: +#+)?$", line)
        if heading:
            name = anchor_of(heading[1])
            count[name] = count.get(name, -1) + 1
            found.add("%s-%d" % (name, count[name]) if count[name] else name)
    return found


def links(document):
    """The places of the links of a document, each with the number of the line on which the link ends."""
    lines = list(prose(document))
    # spans between backticks are blanked, so that what they show is no link; a link may go over a line end
    text = "\n".join(line for _, line in lines)
    text = re.sub(r"`[^`\n]*`", lambda span: "x" * len(span[0]), text)
    for link in LINK.finditer(text):
        yield lines[text.count("\n", 0, link.end())][0], link[1]


def fault_of(document, place):
    """What is wrong with a link, or None; and the document to which it leads, if it is one."""
    path, _, heading = place.partition("#")
    there = os.path.normpath(os.path.join(os.path.dirname(document), path)) if path else document
    if there.startswith("..") or not os.path.exists(os.path.join(TOP, there)):
        return "there is no %s" % there, None
    if heading and (there not in DOCUMENTS or heading not in anchors(there)):
        return "%s has no heading #%s" % (there, heading), there
    return None, there


def main():
    faults, leads, count = [], {document: set() for document in DOCUMENTS}, 0
    for document in DOCUMENTS:
        for number, place in links(document):
            if ELSEWHERE.match(place):
                continue
            count += 1
            fault, there = fault_of(document, place)
            if fault:
                faults.append("%s:%d: %s" % (document, number, fault))
            if there in leads:
                leads[document].add(there)
    reached, left = set(), ["README.md"]
    while left:
        document = left.pop()
        if document not in reached:
            reached.add(document)
            left += leads[document]
    faults += ["%s: no link leads to it from README.md" % document for document in DOCUMENTS if document not in reached]
    for fault in faults:
        print("links: " + fault, file=sys.stderr)
    if faults:
        sys.exit(1)
    print("links: %d links of %d documents lead somewhere" % (count, len(DOCUMENTS)))


if __name__ == "__main__":
    main()
