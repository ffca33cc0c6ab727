#!/usr/bin/env python3
"""Prints the lines of code, definitions and laws, and proofs of each crate, its edits, and how long the gate takes,
as docs/SIZES.md has them. Run from the repository's root on what .ci/run printed:
python3 tools/sizes.py LOG.. > docs/SIZES.md"""

import glob
import os
import re
import sys


def lines(*patterns):
    paths = {path for pattern in patterns for path in glob.glob(pattern, recursive=True)}
    return sum(sum(1 for _ in open(path)) for path in paths)


def main():
    log = "".join(open(path).read() for path in sys.argv[1:])
    took = re.search(r"^the gate took (.*)$", log, re.M)
    whole = f" The whole gate took {took.group(1)}." if took else ""
    print("# Sizes and times\n")
    print(f"Lines by crate, and its edits.{whole} Written by `tools/sizes.py`.\n")
    print("| Crate | Code | Definitions and laws | Proofs of functions | Edits |")
    print("|---|---|---|---|---|")
    total = [0] * 4
    for folder in sorted(glob.glob("crates/*/")):
        name = os.path.basename(folder[:-1])
        row = [lines(folder + "src/*.rt"), lines(folder + "specs/**/*.antt"), lines(folder + "proofs/**/*.antt"),
               len(glob.glob(folder + "must-fail/*.edit"))]
        total = [a + b for a, b in zip(total, row)]
        print(f"| {name} | " + " | ".join(map(str, row)) + " |")
    print("| all | " + " | ".join(map(str, total)) + " |")


main()
