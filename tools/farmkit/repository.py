"""The repository: where its parts are, what crates.txt says of its crates, and what git says of its files."""

import pathlib
import re
import shutil
import subprocess
import sys
from collections.abc import Iterable

TOP = pathlib.Path(__file__).resolve().parents[2]
PROGRAM = TOP / "crates" / "wfarm" / "out" / "wfarm"
EXAMPLES = TOP / "examples"
MAPS = TOP / "bench" / "maps"


def built(crate: str) -> pathlib.Path:
    """The built program of a crate, there after `rt run` or `rt ci`."""
    return TOP / "crates" / crate / "out" / crate


def git(*words: str | pathlib.Path) -> str:
    """What a git command prints; an error of git ends the program with git's own words."""
    ran = subprocess.run(["git", "-C", TOP, *words], capture_output=True, text=True)
    if ran.returncode:
        sys.exit(ran.stderr.strip())
    return ran.stdout


def dependencies(top: pathlib.Path = TOP) -> dict[str, list[str]]:
    """Each crate of crates.txt with the libraries that its line names."""
    lines = (line.partition("#")[0] for line in (top / "crates.txt").read_text().splitlines())
    parts = (line.partition(":") for line in lines if line.strip())
    return {head.split()[0]: tail.split() for head, _, tail in parts}


def below(name: str, top: pathlib.Path = TOP) -> set[str]:
    """The repository's crates that a crate is made of, itself too."""
    every, found, waiting = dependencies(top), set[str](), [name]
    while waiting:
        crate = waiting.pop()
        if crate in every and crate not in found:
            found.add(crate)
            waiting += every[crate]
    return found


def copy_crates(to: pathlib.Path, *but: str) -> None:
    """Copies the crates into a folder, without what was built and what has these names."""
    shutil.copytree(TOP / "crates", to / "crates", ignore=shutil.ignore_patterns("out", *but))
    for name in ("crates.txt", "HANDLES"):
        shutil.copy(TOP / name, to)


def changed_files(base: str, parts: Iterable[str], until: str | None = "HEAD") -> dict[str, list[str]]:
    """For each crate the files of these parts that differ between two commits (None: as they are)."""
    found: dict[str, list[str]] = {}
    for path in git("diff", "--name-only", "--no-renames", base, *([until] if until else [])).splitlines():
        at = re.match(rf"crates/([^/]+)/(?:{'|'.join(parts)})(?:/|$)", path)
        if at:
            found.setdefault(at[1], []).append(path)
    return found
