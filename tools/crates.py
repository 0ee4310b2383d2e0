#!/usr/bin/env python3
"""Looks at crates.txt: draws its groups, each above those that it uses, as docs/pictures/layers.svg (by
Graphviz, whose graph is kept in the picture).

    python3 tools/crates.py              writes the picture
    python3 tools/crates.py --check      says whether it is what crates.txt says, which names of its lines are
                                         neither used nor needed, and which comments (`//`, `--`) and clauses
                                         of the crates have over 100 columns
    python3 tools/crates.py --unnamed    prints the names that the crate itself doesn't use

A comment line of crates.txt begins a group, and is its title. An arrow leads from a group to each one that it
uses, but for those that it reaches by others. A name in a crate's line is used where a source, definition or
proof of the crate names it, and needed where the line of another one in it does.
"""

import graphlib
import re
import subprocess
import sys
import textwrap
from collections.abc import Iterator

from farmkit.command import need, parser
from farmkit.repository import TOP, dependencies

PICTURE = TOP / "docs" / "pictures" / "layers.svg"
LETTERS = 44
MOST_COLUMNS = 100
STYLE = """bgcolor=white; node [shape=box, style="rounded,filled", color="#445566", fillcolor="#f4f6fa",
fontname="sans-serif", fontsize=12]; edge [color="#667788", arrowsize=0.7];"""


def groups() -> dict[str, list[str]]:
    """The crates of each group, by its title."""
    found: dict[str, list[str]] = {}
    title = ""
    for line in (TOP / "crates.txt").read_text(encoding="utf-8").splitlines():
        if line.startswith("#"):
            title = line.lstrip("# ")
        elif line:
            found.setdefault(title, []).append(line.partition(":")[0].split()[0])
    return found


def uses(of: dict[str, list[str]]) -> dict[str, set[str]]:
    """The other groups that each group uses."""
    home = {crate: title for title, crates in of.items() for crate in crates}
    every = dependencies()
    return {title: {home[low] for crate in crates for low in every[crate] if low in home} - {title}
            for title, crates in of.items()}


def arrows(below: dict[str, set[str]]) -> list[tuple[str, str]]:
    """From each group to those that it uses and doesn't reach by another one."""
    def reach(title: str) -> set[str]:
        return below[title].union(*(reach(low) for low in below[title]))

    return [(title, low) for title in below for low in sorted(below[title])
            if not any(low in reach(other) for other in below[title])]


def graph() -> str:
    """The groups with their crates, and the arrows, as Graphviz reads them."""
    of = groups()
    below = uses(of)
    graphlib.TopologicalSorter(below).prepare()  # an error where groups use each other
    boxes = ['"{}" [label=<<b>{}</b>{}<br align="left"/>>];'.format(title, title, "".join(
        f'<br align="left"/>{line}' for line in textwrap.wrap(" ".join(crates), LETTERS)))
        for title, crates in of.items()]
    lines = [f'"{upper}" -> "{lower}";' for upper, lower in arrows(below)]
    return "\n".join(["digraph {", STYLE, *boxes, *lines, "}", ""])


def words_of(crate: str) -> set[str]:
    """The words of a crate's sources, definitions and proofs, comments aside."""
    return {word for part, comment in (("src", "//"), ("specs", "--"), ("proofs", "--"))
            for file in (TOP / "crates" / crate / part).rglob("*.*t")
            for word in re.findall(r"\w+", re.sub(rf"{comment}[^\n]*", "", file.read_text(encoding="utf-8")))}


def unnamed() -> Iterator[tuple[str, str, list[str]]]:
    """Each name of a line that its crate doesn't use, with those of the line that need it."""
    every = dependencies()
    for crate, lows in every.items():
        words = words_of(crate)
        for low in lows:
            if low not in words:
                yield crate, low, [other for other in lows if low in every.get(other, ())]


def wide() -> Iterator[str]:
    """Each line of a comment or a clause that has too many columns."""
    for path in sorted((TOP / "crates").glob("*/[sp]*/**/*")):
        if path.suffix in (".rt", ".antt"):
            for number, line in enumerate(path.read_text(encoding="utf-8").splitlines(), 1):
                if len(line) > MOST_COLUMNS and re.match(r"\s*(?://|--|requires\b|ensures\b)", line):
                    yield f"{path.relative_to(TOP)}, line {number}: {len(line)} columns"


def main() -> int:
    words = parser(__doc__)
    words.add_argument("--check", action="store_true", help="writes nothing")
    words.add_argument("--unnamed", action="store_true", help="prints them")
    given = words.parse_args()
    lacking = list(unnamed())
    if given.unnamed:
        for crate, low, others in lacking:
            print(f"{crate}: {low}, which {', '.join(others) or 'none'} of its line needs")
        return 0
    drawn = f"<!--\n{graph()}-->\n"
    if not given.check:
        need("dot")
        made = subprocess.run(["dot", "-Tsvg"], input=graph(), text=True, stdout=subprocess.PIPE, check=True)
        PICTURE.write_text(made.stdout + drawn, encoding="utf-8")
    is_same = PICTURE.read_text(encoding="utf-8").endswith(drawn)
    print(f"docs/pictures/layers.svg is {'what crates.txt says' if is_same else 'out of date'}")
    useless = [f"crates.txt: {crate} doesn't need {low}" for crate, low, others in lacking if not others]
    print("\n".join([*useless, f"{len(useless)} names too many"]))
    long = list(wide()) if given.check else []
    print("\n".join([*long, f"{len(long)} lines of comments and clauses have over {MOST_COLUMNS} columns"]))
    return 0 if is_same and not useless and not long else 1


if __name__ == "__main__":
    sys.exit(main())
