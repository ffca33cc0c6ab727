#!/usr/bin/env python3
"""places.py CRATE FUNCTION [NEED..]: the places of a function's code, as the paths that a proof by hand (Proof.antt) writes.

For each fact to prove it prints what stands on the way back to the beginning: `3 knot-of` is
`c.before.before.before.knot-of`. A recursive function is named with `+`, as its proof's folder is.
KEEP=1 uses the print of the last call. For an answer (Answers.antt) the check itself prints the names that it can use.
"""
import os
import re
import shutil
import subprocess
import sys
import tempfile


def records(text):
    """Each record's fields, in order, with the place before it."""
    found = {}
    for match in re.finditer(r"^( *)pub record (\S+).*?where\n((?:\1  .*\n|\n)*)", text, re.M):
        fields = re.findall(r"^" + match.group(1) + r"  pub (\S+) :\s*(.*)", match.group(3), re.M)
        found[match.group(2)] = fields
    return found


def generated(crate):
    """Where what rattle makes of a crate is printed: outside the repository, since rt reads every proof file below its top."""
    return os.path.join(tempfile.gettempdir(), f"gen-{crate}")


def print_generated(crate):
    shutil.rmtree(generated(crate), ignore_errors=True)
    subprocess.run(["rt", "check", "--generated", generated(crate)], cwd=f"crates/{crate}", stdout=subprocess.DEVNULL, stderr=subprocess.DEVNULL)


def main():
    if len(sys.argv) < 3:
        sys.exit(__doc__)
    crate, function, wanted = sys.argv[1], sys.argv[2], sys.argv[3:]
    if not os.environ.get("KEEP"):
        print_generated(crate)
    part = f"Lts-{function[1:]}" if function.startswith("+") else "Lts"
    path = f"{generated(crate)}/Rattle-{crate}-proofs/{function}/{part}.antt"
    text = open(path).read()
    places = records(text)
    for match in re.finditer(r"^ *(?:abbrev )?pub Need-(\S+) : .*\n((?:.+\n)+)", text, re.M):
        name, body = match.group(1), match.group(2)
        if wanted and name not in wanted:
            continue
        first = re.search(r"\(c : (\S+?)\)|\(before : (\S+?)\)", body)
        place = (first.group(1) or first.group(2)) if first else None
        line, steps = [], 0
        while place in places:
            fields = [f for f, _ in places[place] if f != "before"]
            line += [f"{steps} {f}" for f in fields]
            before = [t for f, t in places[place] if f == "before"]
            place = before[0].strip() if before else None
            steps += 1
        print(f"{name}: " + ", ".join(line))


if __name__ == "__main__":
    main()
