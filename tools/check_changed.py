#!/usr/bin/env python3
"""Checks what was committed since a commit, and everything that depends on it, as CI would.

    python3 tools/check_changed.py BASE        BASE is a commit that passed CI, as origin/main

In a clean clone of the last commit `rt ci` is run on each crate that differs from BASE and each crate above
one that does: their proofs, tests, programs and mutants. Of the crates below it takes what passed before on
this machine, and proves the rest. Where the kit's `rt ci` takes no names, it is run on all. Uncommitted
changes aren't seen. The last line is `rt ci`'s, `N passed, M failed`, and the status 0 where nothing failed.
"""

import pathlib
import subprocess
import sys
import tempfile

from farmkit.command import parser
from farmkit.kit import ci_takes
from farmkit.repository import TOP, below, changed_files, dependencies, git

# What a verdict on a crate reads: its code, its proofs, its mutants, and what its program is run on.
PARTS = ("src", "specs", "proofs", "must-fail", "stdin", "stdout", "args", "status", "data")


def is_read(path):
    """Whether CI reads the file: of must-fail/ only the mutants right there that weren't removed."""
    return "/must-fail/" not in path or path.endswith(".edit") and (TOP / path).exists()


def differing(base):
    """The crates that differ from the commit and those above them; all where what holds for all changed."""
    every = dependencies()
    if "HANDLES" in git("diff", "--name-only", "--no-renames", base, "HEAD").splitlines():
        return set(every)
    was, now = ({*git("show", f"{commit}:crates.txt").splitlines()} for commit in (base, "HEAD"))
    found = {line.partition(":")[0].split()[0] for line in now - was if line.strip()}
    found |= {name for name, files in changed_files(base, PARTS).items() if any(is_read(it) for it in files)}
    return {name for name in every if not found.isdisjoint(below(name))}


def main() -> int:
    words = parser(__doc__)
    words.add_argument("base", metavar="BASE")
    given = words.parse_args()
    chosen = sorted(differing(given.base))
    print(f"to check: {' '.join(chosen) or 'no crate differs'}", flush=True)
    if not chosen:
        print("0 passed, 0 failed")
        return 0
    if not ci_takes(*chosen):
        print("this kit's `rt ci` takes no names of crates, so it proves all", flush=True)
        chosen = []
    with tempfile.TemporaryDirectory(prefix="check-changed-", dir=TOP.parent) as room:
        clone = pathlib.Path(room) / "clone"
        subprocess.run(["git", "clone", "--quiet", TOP, clone], check=True)
        return subprocess.run(["rt", "ci", *chosen], cwd=clone).returncode


if __name__ == "__main__":
    sys.exit(main())
