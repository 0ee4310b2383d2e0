#!/usr/bin/env python3
"""Tries a crate's mutants, those of CI and those outside CI, side by side.

    python3 tools/try_edits.py wf_ballot                    every mutant of the crate
    python3 tools/try_edits.py wf_ballot half_is_a_majority one mutant, or several by their names
    python3 tools/try_edits.py --changed origin/main        every mutant of each crate whose code or specs
                                                            differ from a commit
    python3 tools/try_edits.py --applies                    only whether each mutant of every crate applies

CI tries a mutant in `must-fail/NAME.edit`; those of the table `must-fail/by-hand.edits.md` are tried only
here. In the table a mutant is a line `mutant: NAME` and then the lines of an edit, and an empty line comes
before the next. In a copy of the crates each becomes a file as CI's are, and `rt must-fail` has the prover
reject them. It begins with what checks of this machine kept, tries some side by side, and keeps what it
found: a mutant is tried again only once something that it stands on was changed. Run it over a crate whenever
a clause or a definition of that crate changes. The last line counts; the status is 0 where every mutant was
rejected.
"""

import pathlib
import re
import subprocess
import sys
import tempfile

from farmkit.command import parser as parser_of
from farmkit.repository import TOP, changed_files, copy_crates, dependencies

CRATES = TOP / "crates"


def mutants_of(folder, only_by_hand=False):
    """The names and edits of a crate's mutants: CI's first, then those of its table."""
    by_ci = [] if only_by_hand else sorted((folder / "must-fail").glob("*.edit"))
    table = folder / "must-fail" / "by-hand.edits.md"
    blocks = re.split(r"\n{2,}", table.read_text().strip()) if table.exists() else []
    rest = [block.removeprefix("mutant: ").partition("\n") for block in blocks]
    return [*((it.stem, it.read_text()) for it in by_ci), *((name, text + "\n") for name, _, text in rest)]


def fault_of(edit, folder):
    """Why a mutant can't be applied to the code as it is; nothing where it can."""
    path, old, texts = "", "", {}
    for line in edit.splitlines():
        word, _, rest = line.partition(":")
        rest = rest.removeprefix(" ")
        if word == "file":
            path = rest.strip()
        elif word == "old":
            old = rest
        elif word == "new":
            text = texts.get(path) or ((folder / path).read_text() if (folder / path).is_file() else "")
            if not old or text.count(old) != 1 or old == rest:
                return f"{old.strip()[:60]!r} is in {path} {text.count(old)} times, or isn't changed"
            texts[path] = text.replace(old, rest)
        elif line.strip() and not line.startswith(("#", "--", "//")):
            return f"a text of it has several lines, and only the first of them is read: {line.strip()[:60]}"
    return "" if texts else "it has no 'old:' and 'new:'"


def unapplied(chosen):
    """Prints which of these mutants, by crates, don't apply. How many."""
    wrong = [f"{name} {mutant}: {why}" for name, mutants in chosen.items() for mutant, edit in mutants
             if (why := fault_of(edit, CRATES / name))]
    print("\n".join([*wrong, f"{sum(map(len, chosen.values()))} mutants, {len(wrong)} do not apply"]))
    return len(wrong)


def rejected(chosen):
    """How many of these mutants, by crates, `rt must-fail` rejects, in a copy that has them as files."""
    with tempfile.TemporaryDirectory(prefix="try-edits-", dir=TOP.parent) as room:
        copy_crates(pathlib.Path(room), "must-fail")
        for name, mutants in chosen.items():
            folder = pathlib.Path(room) / "crates" / name / "must-fail"
            folder.mkdir()
            for mutant, edit in mutants:
                (folder / f"{mutant}.edit").write_text(edit)
        count = 0
        words = ["rt", "must-fail", *chosen]
        with subprocess.Popen(words, cwd=room, stdout=subprocess.PIPE, text=True) as process:
            for line in process.stdout:
                print(line, end="", flush=True)
                count += ": refused, " in line
    return count


def main() -> int:
    parser = parser_of(__doc__)
    parser.add_argument("crate", nargs="?")
    parser.add_argument("names", nargs="*")
    parser.add_argument("--changed", metavar="BASE")
    parser.add_argument("--by-hand", action="store_true", help="leaves out those that CI tries")
    parser.add_argument("--applies", action="store_true")
    given = parser.parse_args()
    names = [given.crate] if given.crate else sorted(dependencies())
    if given.changed:
        names = sorted(changed_files(given.changed, ("src", "specs"), None))
    if not set(names) <= dependencies().keys() or not (given.crate or given.changed or given.applies):
        parser.error("name a crate of crates.txt, --changed or --applies")
    chosen = {name: [it for it in mutants_of(CRATES / name, given.by_hand)
                     if not given.names or it[0] in given.names] for name in names}
    chosen = {name: mutants for name, mutants in chosen.items() if mutants}
    if lost := {*given.names} - {mutant for mutants in chosen.values() for mutant, _ in mutants}:
        parser.error(f"no mutant is named {', '.join(sorted(lost))}")
    if given.applies:
        return 1 if unapplied(chosen) else 0
    count = sum(map(len, chosen.values()))
    found = rejected(chosen) if count else 0
    print(f"{count} mutants, {found} rejected")
    return 0 if found == count else 1


if __name__ == "__main__":
    sys.exit(main())
