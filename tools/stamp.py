#!/usr/bin/env python3
"""Writes the program with the revision that it was built from: over the forty zeros that `crates/wf_version`
has in their place, so that `wfarm --version` and the metrics tell one build from another, and no proof is
made again for it.

The program is the proved one that `rt ci` leaves, unless another is given; not where a source, definition or
proof of it is newer, since it isn't of this revision then. The revision is the newest commit's; where files
are changed that aren't committed, it isn't known, and the zeros stay. Prints what the written program says of
itself.
"""

import argparse
import pathlib
import re
import subprocess
import sys

from farmkit.command import add_program, parser
from farmkit.repository import PROGRAM, TOP, below

UNKNOWN = "0" * 40
# the texts of crates/wf_version in which the revision stands
PLACES = ("(revision {})", 'revision="{}"')


class Unstamped(Exception):
    """Why a program isn't given a revision."""


def git(*words):
    return subprocess.run(["git", "-C", TOP, *words], capture_output=True, text=True).stdout.strip()


def revision_now():
    """The newest commit; forty zeros where the files aren't those of a commit."""
    changed = git("status", "--porcelain", "--untracked-files=no")
    return UNKNOWN if changed else git("rev-parse", "HEAD") or UNKNOWN


def fail_if_stale(program):
    """Fails where the program that `rt ci` left is older than a source, definition or proof of it."""
    files = (file for crate in below("wfarm") for file in (TOP / "crates" / crate).glob("[sp]*/**/*.*"))
    newest = max(files, key=lambda file: file.stat().st_mtime)
    if program == PROGRAM and program.stat().st_mtime < newest.stat().st_mtime:
        raise Unstamped(f"{newest.relative_to(TOP)} is newer: `rt ci` makes the program of it")


def revision_of(word):
    """A revision as an argument: forty hexadecimal digits."""
    if not re.fullmatch("[0-9a-f]{40}", word):
        raise argparse.ArgumentTypeError("not forty hexadecimal digits")
    return word


def write_stamped(program, revision, path):
    """Writes the program with that revision in each of its places, as a file that can be run."""
    fail_if_stale(program)
    data = program.read_bytes()
    for place in PLACES:
        if place.format(UNKNOWN).encode() not in data:
            raise Unstamped(f"no {place.format('0..0')} in it")
        data = data.replace(place.format(UNKNOWN).encode(), place.format(revision).encode())
    path.write_bytes(data)
    path.chmod(0o755)


def main():
    words = parser(__doc__,
                   "Exit status: that of `FILE --version`, 1 where the program can't be read, has no such "
                   "place, or is older than a source.")
    add_program(words)
    words.add_argument("--revision", type=revision_of, default=revision_now(),
                       help="forty hexadecimal digits")
    words.add_argument("--to", type=pathlib.Path, required=True, metavar="FILE")
    options = words.parse_args()
    try:
        write_stamped(pathlib.Path(options.program), options.revision, options.to)
    except (OSError, Unstamped) as error:
        print(f"{options.program}: {error}", file=sys.stderr)
        return 1
    return subprocess.run([options.to.resolve(), "--version"]).returncode


if __name__ == "__main__":
    sys.exit(main())
