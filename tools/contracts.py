#!/usr/bin/env python3
"""Lists every public function with its contract, and fails where something is missing.

Each public function ensures something of its result; none that takes a record's bytes, and none that C links,
requires anything; for each, docs/PROMISES.md names two edits at least that its contract refuses, and each edit
that it names, and no other, stands in a must-fail folder. Run from the repository's root.
"""
import glob
import re
import sys

HEAD = re.compile(r'^( *)pub (?:extern "C" )?fn (\w+)', re.M)
IMPL = re.compile(r"^impl(?:<[^>]*>)? (\w+)", re.M)
# what stands before a clause's brace; one of several clauses has a name
CLAUSE = r"\b%s\*?(?: +\w+)?\s*"


def closed(text, start):
    """The place after the brace that closes the one at a place."""
    depth = 0
    for at in range(start, len(text)):
        depth += (text[at] == "{") - (text[at] == "}")
        if depth == 0:
            return at + 1
    raise ValueError("a brace that nothing closes")


def signature(text, start):
    """From `pub fn` to the brace that opens its body."""
    at = text.index("{", start)
    while re.search(CLAUSE % "(?:requires|ensures)" + "$", text[start:at]):
        at = text.index("{", closed(text, at))
    return text[start:at]


def clauses(head, word):
    """What stands in the braces of each clause of that word."""
    found = []
    for match in re.finditer(CLAUSE % word + r"\{", head):
        found.append(" ".join(head[match.end():closed(head, match.end() - 1) - 1].split()))
    return found


def functions():
    """Every public function: its crate, its name, what it requires and what it ensures."""
    for path in sorted(glob.glob("crates/*/src/*.rt")):
        text = open(path).read()
        crate = path.split("/")[1]
        for match in HEAD.finditer(text):
            head = signature(text, match.start())
            owner = ""
            if match.group(1):
                owner = [m.group(1) for m in IMPL.finditer(text[:match.start()])][-1] + "::"
            yield crate, f"{crate}::{owner}{match.group(2)}", head


def faults_of(name, head):
    told = clauses(head, "ensures")
    returns = "->" in head.split("ensures")[0].split("requires")[0]
    if not told or (returns and not any(re.search(r"\bresult\b", clause) for clause in told)):
        yield f"{name} ensures nothing of its result"
    if clauses(head, "requires") and ('extern "C"' in head or "record: &[u8]" in head):
        yield f"{name} is an entry point, and requires something"


def listed_edits():
    """The rows of the last table of docs/PROMISES.md: a function, then the edits of its crate."""
    rows = {}
    for line in open("docs/PROMISES.md"):
        match = re.match(r"\| `([\w:]+)` \| ([\w, ]+) \|$", line.strip())
        if match:
            rows[match.group(1)] = [e.strip() for e in match.group(2).split(",")]
    return rows


def main():
    faults, rows, seen = [], listed_edits(), set()
    for crate, name, head in functions():
        for clause in clauses(head, "ensures"):
            print(f"{name}: {clause}")
        faults += faults_of(name, head)
        edits = rows.pop(name, [])
        if len(edits) < 2:
            faults.append(f"{name} has fewer than two edits in docs/PROMISES.md")
        seen |= {f"crates/{crate}/must-fail/{e}.edit" for e in edits}
    there = set(glob.glob("crates/*/must-fail/*.edit"))
    faults += [f"docs/PROMISES.md names {e}, which is not there" for e in sorted(seen - there)]
    faults += [f"docs/PROMISES.md does not name {e}" for e in sorted(there - seen)]
    faults += [f"docs/PROMISES.md has a row for {name}, which is not a public function" for name in sorted(rows)]
    for fault in faults:
        print(fault, file=sys.stderr)
    sys.exit(1 if faults else 0)


main()
