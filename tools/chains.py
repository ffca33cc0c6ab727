#!/usr/bin/env python3
"""chains.py CRATE..: names the places of proofs by hand (Proof.antt) that a chain of more than three `.before` leads back to.

In each fact of a proof file whose place `c` is gone back from by more than three steps, places on the way get a name by `let`, after
what is known there: `at-read` is the place that has `.read`, `start` the one that has `.args`. Chains in a fact's type, and
below a `where`, stay as they are. The crates must be proved; check them again afterwards. KEEP=1 uses the prints of the last call.
"""
import glob
import os
import re
import sys

from places import generated, print_generated, records

CHAIN = re.compile(r"(?<![\w\-'.])c((?:\.before)+)(?=\.|\)|,| |$)", re.M)
STEP = ".before"


def printed(crate, function):
    """The places of a function, and the place of each fact to prove."""
    places, needs = {}, {}
    for path in glob.glob(f"{generated(crate)}/Rattle-{crate}-proofs/{function}/Lts*.antt"):
        text = open(path).read()
        places.update(records(text))
        for match in re.finditer(r"^ *(?:abbrev )?pub Need-(\S+) : .*\n((?:.+\n)+)", text, re.M):
            first = re.search(r"\(c : (\S+?)\)|\(before : (\S+?)\)", match.group(2))
            if first:
                needs[match.group(1)] = first.group(1) or first.group(2)
    return places, needs


def names_back(places, place):
    """What each place on the way back is called, from the place of the fact on."""
    names = []
    while place in places:
        fields = [field for field, _ in places[place] if field != "before"]
        names.append("start" if "args" in fields else "at-" + (fields[0] if fields else "place"))
        before = [kind for field, kind in places[place] if field == "before"]
        place = before[0].strip().split()[0].strip("()") if before else None
    return names


def chosen(used):
    """The depths that get a name, so that no step between two of them is longer than three."""
    named, counts = [0], {depth: used.count(depth) for depth in used}
    for depth in sorted(counts):
        while depth - named[-1] > 3:
            near = [other for other in counts if named[-1] < other <= named[-1] + 3]
            named.append(max(near) if near else named[-1] + 3)
        if depth > 3 and depth not in named and counts[depth] > 1:
            named.append(depth)
    return named


def renamed(fact, places, needs):
    """The fact with names for its places, or None where it has no long chain or its place is not known."""
    lines = fact.split("\n")
    at = next((i for i, line in enumerate(lines) if i and re.match(r"^[^\s:\-][^:=]* =( |$)", line)), None)
    if at is None:
        return None
    head = "\n".join(lines[:at])
    own, need = re.search(r"\(c : tie\.([^\s()]+)", head), re.search(r"tie\.Need-([^\s()]+)", head)
    place = own.group(1) if own else needs.get(need.group(1)) if need else None
    back = names_back(places, place)
    first = re.match(r"^([^=]*?=)(?: (.*))?$", lines[at])
    body = "\n".join(([first.group(2)] if first.group(2) else []) + lines[at + 1 :])
    below = re.search(r"^\s+where\s*$", body, re.M)
    body, rest = (body[: below.start()], body[below.start() :]) if below else (body, "")
    used = sorted(len(chain.group(1)) // len(STEP) for chain in CHAIN.finditer(body))
    if not back or not used or max(used) < 4:
        return None
    named, names, seen = chosen(used), {0: "c"}, set()
    for depth in named[1:]:
        name = back[depth] if depth < len(back) else f"at-{depth}"
        if name in seen or re.search(rf"(?<![\w\-']){re.escape(name)}(?![\w\-'])", fact):
            name += f"-{depth}"
        seen.add(name)
        names[depth] = name

    def shorter(chain):
        depth = len(chain.group(1)) // len(STEP)
        near = max(other for other in named if other <= depth)
        return names[near] + STEP * (depth - near)

    new = CHAIN.sub(shorter, body).split("\n")
    indent = "    " if first.group(2) else re.match(r"\s*", new[0]).group(0)
    new[0] = indent + new[0].strip()
    lets = [f"{indent}let {names[b]} = {names[a]}" + STEP * (b - a) + " in" for a, b in zip(named, named[1:])]
    return "\n".join(lines[:at] + [first.group(1).rstrip()] + lets + new) + rest


def main():
    if len(sys.argv) < 2:
        sys.exit(__doc__)
    if not os.environ.get("KEEP"):
        for crate in sys.argv[1:]:
            print_generated(crate)
    for crate in sys.argv[1:]:
        for path in glob.glob(f"crates/{crate}/proofs/**/Proof*.antt", recursive=True):
            text = open(path).read()
            if re.search(r"(\.before){4,}", text):
                places, needs = printed(crate, os.path.dirname(path)[len(f"crates/{crate}/proofs/") :])
                facts = re.split(r"(?<=\n)\n", text)
                open(path, "w").write("\n".join(renamed(fact, places, needs) or fact for fact in facts))


if __name__ == "__main__":
    main()
