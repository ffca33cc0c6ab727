#!/usr/bin/env python3
"""Makes target/staticlib/librsk_c.a, the archive that C and Rust link, of the crate rsk_c_c. It can be run from anywhere.

Where `rt ci` has just proved the libraries below, it builds the archive over what that run left, which rt itself does
not take up; else `rt lib` proves and builds all that is missing. Both prove rsk_c_c.
"""
import os
import shutil
import subprocess
import sys

ROOT = os.path.dirname(os.path.dirname(os.path.abspath(__file__)))
CRATE = "rsk_c_c"
ARCHIVE = os.path.join(ROOT, "target", "staticlib", "librsk_c.a")


def listed():
    """Each crate of crates.txt, and the crates after its colon."""
    crates = {}
    with open(os.path.join(ROOT, "crates.txt"), encoding="utf-8") as file:
        for line in file:
            name, colon, others = line.split("#")[0].partition(":")
            if colon:
                crates[name.split()[0]] = others.split()
    return crates


def below(crates, name):
    """The crates that a crate stands on, each once."""
    found = []
    for other in crates[name]:
        found += [it for it in [*below(crates, other), other] if it not in found]
    return found


def library(name):
    return os.path.join(ROOT, "crates", name, "out", "rlib", f"{name}.rlib")


def newest_source(name):
    times = []
    for part in ("src", "specs", "proofs"):
        for folder, _, files in os.walk(os.path.join(ROOT, "crates", name, part)):
            times += [os.path.getmtime(os.path.join(folder, file)) for file in files]
    return max(times)


def is_fresh(name):
    """Whether a library of the crate stands there that is newer than its sources."""
    made = library(name)
    return os.path.isfile(os.path.join(made, "format")) and newest_source(name) < os.path.getmtime(made)


def over_libraries(crates, names):
    """Builds the archive over the libraries that stand there."""
    kit = os.path.dirname(subprocess.run(["rt", "doc"], stdout=subprocess.PIPE, text=True, check=True).stdout.strip())
    words = [f"{kit}/bin/rattle", "build", "--crate-name", CRATE, "src/lib.rt", "--crate-type", "staticlib"]
    words += ["--extern", f"std={kit}/rlibs/std.rlib", "-L", f"dependency={kit}/rlibs"]
    for name in crates[CRATE]:
        words += ["--extern", f"{name}={library(name)}"]
    for name in names:
        words += ["-L", f"dependency={os.path.dirname(library(name))}"]
    words += ["--antt-project", f"{kit}/rattle/logic/antt-project.json", "--logic-built", f"{kit}/logic_built"]
    words += ["--links", f"{CRATE}=", "--toolchain", f"{kit}/toolchain", "--backend", "llvm", "-o", ARCHIVE]
    return subprocess.run(words, cwd=os.path.join(ROOT, "crates", CRATE)).returncode == 0


def by_rt():
    folder = os.path.join(ROOT, "crates", CRATE)
    status = subprocess.run(["rt", "lib"], cwd=folder).returncode
    if status == 0:
        shutil.copyfile(os.path.join(folder, "out", f"lib{CRATE}.a"), ARCHIVE)
    return status


def main():
    crates = listed()
    names = below(crates, CRATE)
    os.makedirs(os.path.dirname(ARCHIVE), exist_ok=True)
    if os.path.isfile(ARCHIVE):
        os.remove(ARCHIVE)
    if all(is_fresh(name) for name in names) and over_libraries(crates, names):
        return 0
    return by_rt()


if __name__ == "__main__":
    sys.exit(main())
