#!/usr/bin/env python3
"""edits.py CRATE [EDIT..]: tries the must-fail edits of one crate, and prints the first error of each.

With names of edits it tries those alone, in a copy outside the repository, over what is proved already.
"""
import glob
import os
import shutil
import subprocess
import sys
import tempfile


def tried(folder, crate):
    """Runs the crate's edits in a checkout, and prints what is said of each: a fact that no longer holds, not a proof that does not fit."""
    ran = subprocess.run(["rt", "must-fail", crate], cwd=folder, stdout=subprocess.PIPE, stderr=subprocess.STDOUT, text=True)
    said = [line[:600] for line in ran.stdout.split("\n") if "must-fail" in line or "EDIT" in line or line.startswith("error")]
    print("\n".join(said))
    return ran.returncode


def main():
    if len(sys.argv) < 2:
        sys.exit(__doc__)
    crate, wanted = sys.argv[1], sys.argv[2:]
    if not wanted:
        sys.exit(tried(".", crate))
    with tempfile.TemporaryDirectory(prefix=f"edits-{crate}-") as copy:
        shutil.copytree("crates", f"{copy}/crates", ignore=shutil.ignore_patterns("must-fail", "out"))
        shutil.copy("crates.txt", copy)
        subprocess.run(["git", "init", "-q", copy], check=True)
        os.makedirs(f"{copy}/crates/{crate}/must-fail")
        for path in glob.glob(f"crates/{crate}/must-fail/*.edit"):
            if os.path.basename(path)[:-5] in wanted:
                shutil.copy(path, f"{copy}/{path}")
        sys.exit(tried(copy, crate))


main()
