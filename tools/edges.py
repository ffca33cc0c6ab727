#!/usr/bin/env python3
"""Fails where crates.txt lists a crate that the other does not cite, or misses one that it cites.

A crate cites another where it says `Rattle.NAME.` (specs, proofs, ghost uses) or `NAME::` (code); what that one
stands on in turn is not listed again, and a program links without it too. The kit's own libraries are not
looked at. Run from the repository's root.
"""
import glob
import re
import sys

# A value of a type is held whose name is not said (a cursor with its Refusal, a Record with its Form): the check asks for
# the crate that declares the type.
HELD = {"rows": {"answer"}, "rsk_c": {"form"}, "rsk": {"answer", "form"}}


def listed():
    """Each crate of crates.txt, and the crates after its colon."""
    crates = {}
    for line in open("crates.txt"):
        name, colon, others = line.split("#")[0].partition(":")
        if colon:
            crates[name.split()[0]] = others.split()
    return crates


def cited(name):
    """Each name that stands before `::` in the crate's code, or as a crate's in its definitions and proofs."""
    found = set()
    for part in ("src/*.rt", "specs/**/*.antt", "proofs/**/*.antt"):
        for path in glob.glob(f"crates/{name}/{part}", recursive=True):
            text = re.sub(r"(--|//).*", "", open(path).read())
            found |= set(re.findall(r"\bRattle\.(\w+)\.", text))
            if path.endswith(".rt"):
                found |= set(re.findall(r"\b(\w+)::", text))
    return found


def main():
    crates, faults = listed(), []
    for name, others in crates.items():
        asked = (cited(name) & set(crates) | HELD.get(name, set())) - {name}
        there = set(others) & set(crates)
        faults += [f"{name} lists {other}, and does not cite it" for other in sorted(there - asked)]
        faults += [f"{name} cites {other}, and does not list it" for other in sorted(asked - there)]
    for fault in faults:
        print(fault, file=sys.stderr)
    edges = sum(len(set(others) & set(crates)) for others in crates.values())
    print(f"{len(crates)} crates stand on each other by {edges} edges")
    sys.exit(1 if faults else 0)


main()
