#!/usr/bin/env python3
"""Fails where one name stands for two things: a definition of a crate's specs/ that another crate has under that name.

A reader who meets the name in a contract finds one place that says what it means. Run from the repository's root.
"""
import glob
import re
import sys

DEFINED = re.compile(r"\s*(?:unfoldable pub|abbrev pub|pub record|pub data) ([^\s:]+)")


def main():
    places = {}
    for path in sorted(glob.glob("crates/*/specs/**/*.antt", recursive=True)):
        for line in open(path):
            found = DEFINED.match(line)
            if found:
                places.setdefault(found.group(1), set()).add(path)
    twice = {name: paths for name, paths in places.items() if len({path.split("/")[1] for path in paths}) > 1}
    for name, paths in sorted(twice.items()):
        print(f"{name} stands for {len(paths)} things: {', '.join(sorted(paths))}", file=sys.stderr)
    print(f"{len(places)} names of definitions")
    sys.exit(1 if twice else 0)


main()
