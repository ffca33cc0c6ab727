#!/usr/bin/env python3
"""Lists functions of 40 lines and more, contracts not counted. Run from the repository's root."""

import glob
import re

for path in sorted(glob.glob("crates/*/src/*.rt")):
    name, begun = None, 0
    for number, line in enumerate(open(path), 1):
        found = re.match(r"\s*(?:pub )?(?:extern \"C\" )?fn (\w+)", line)
        if found:
            name, begun = found.group(1), 0
        if name and not begun and re.match(r"\s*\{$|.*\{$", line) and "ensures" not in line and "requires" not in line:
            begun = number
        if name and begun and re.match(r"(    )?\}$", line):
            if number - begun >= 40:
                print(f"{path}: {name}: {number - begun} lines")
            name = None
