#!/usr/bin/env python3
"""Brings the repository's own names in specs/ and proofs/ to one spelling, once, after the kit's own port.

usage: tools/respell.py FOLDER

Definitions and lemmas in camel case become snake case, and so do the fields of records that were joined by dashes; types and
modules keep theirs. It rewrites .rt, .antt and .edit files below FOLDER/crates in place and prints what it renamed.
A name that would fall together with another takes the one in TAKEN instead.
"""
import glob
import os
import re
import sys

# the snake-case name is another thing's already: a field of a record beside it, a crate, or a law
TAKEN = {
    "isFree": "is_free_at",
    "runsOn": "ran_on",
    "inUse": "use_of",
    "allPlaced": "are_all_placed",
    "startsFrom": "starts_after",
    "stepIn": "step_within",
    "listRule": "list_rule_of",
    "in_Body": "in_body",
}
WORD = r"[A-Za-z0-9_'₀-₉-]+"
DECLARED = re.compile(
    rf"^\s*(?:pub |abbrev |unfoldable )*({WORD})((?: *[({{][^)}}]*[)}}])*) *: "
)
RECORD = re.compile(r"^(\s*)(?:pub )?record .*\bwhere\s*$")


def files(top, endings):
    found = []
    for folder, folders, names in os.walk(os.path.join(top, "crates")):
        folders[:] = sorted(f for f in folders if f != "out")
        found += [os.path.join(folder, n) for n in sorted(names) if n.endswith(endings)]
    return found


def read(path):
    with open(path, encoding="utf-8") as it:
        return it.read()


def snake(name):
    return re.sub(r"([a-z0-9])([A-Z])", lambda m: m[1] + "_" + m[2].lower(), name)


def fields_of(lines):
    inside = None
    for line in lines:
        record = RECORD.match(line)
        if record:
            inside = len(record[1])
            continue
        if inside is None:
            continue
        depth = len(line) - len(line.lstrip())
        if not line.strip() or depth <= inside:
            inside = None
            continue
        field = DECLARED.match(line)
        if field:
            yield field[1]


def main():
    top = sys.argv[1]
    declared, fields, words = set(), set(), set()
    for path in files(top, (".antt",)):
        text = read(path)
        lines = text.split("\n")
        mine = set(fields_of(lines))
        fields |= mine
        declared |= {m[1] for m in map(DECLARED.match, lines) if m} - mine
        words |= set(re.findall(WORD, text))
    renamed = {}
    for name in sorted(declared | fields | {"in_Body"}):
        if name in TAKEN:
            renamed[name] = TAKEN[name]
        elif name[0].islower() and re.search(r"[a-z0-9][A-Z]", name):
            renamed[name] = snake(name)
    for name in sorted(fields - declared):
        if "-" in name and name[0].islower() and re.fullmatch(r"[a-z0-9-]+", name):
            new = name.replace("-", "_")
            if new not in words and new not in renamed.values():
                renamed[name] = new
    for new in sorted(set(renamed.values())):
        if len([n for n in renamed if renamed[n] == new]) > 1:
            sys.exit(f"{new} would be two names")
    whole = re.compile(rf"(?<![\w'-])(?:{'|'.join(sorted(map(re.escape, renamed), key=len, reverse=True))})(?![\w'-])")
    for path in files(top, (".rt", ".antt", ".edit")):
        text = read(path)
        new = whole.sub(lambda m: renamed[m[0]], text)
        if new != text:
            with open(path, "w", encoding="utf-8") as it:
                it.write(new)
    for name in sorted(renamed):
        print(name, renamed[name])


main()
