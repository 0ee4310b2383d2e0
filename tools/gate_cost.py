#!/usr/bin/env python3
"""Runs `rt ci` anew, as CI does, prints what each crate cost, and writes that into docs/CI.md if the run
passed and proved all.

    python3 tools/gate_cost.py [LOG]
    python3 tools/gate_cost.py --of PID LOG       of an `rt ci` that runs already, and prints to LOG

Everything that CI prints goes to LOG (`gate.log` beside the repository if left out). It has no times, so a
run that has ended can't be measured, and one that goes on only from then on. Printed is the whole first: the
date, the commit, CI's last line, minutes on the clock, processors, processor minutes; then a table of
processor minutes, a line per crate: its proof, its tests and its mutants, the longest first. In docs/CI.md
they replace what stands between the two marks. The figures are read from the processes as they run, twice a
second, so a line can miss a second here and there; the whole of a run that it began is the system's own
count. Run it on a clean clone, with nothing beside it.
"""

import collections
import contextlib
import datetime
import os
import pathlib
import re
import subprocess
import sys
import time

from ci import lanes
from farmkit.command import parser
from farmkit.kit import ci_takes
from farmkit.processes import descendants
from farmkit.repository import TOP, git

TICKS = os.sysconf("SC_CLK_TCK")
PARTS = ("proof", "tests", "edits")
LEAST = 6  # processor minutes of a crate that has a row of its own
COSTS = TOP / "docs" / "CI.md"
FROM_NOTHING = "every proof and must-fail edit was done in this run"
MARKED = re.compile(r"(?s)(<!-- gate_cost\.py: begin -->\n).*?(<!-- gate_cost\.py: end -->\n)")


def task_of(process):
    """The crate and the part of its cost that a process of CI works on, by its words and its folder."""
    words = (process / "cmdline").read_bytes().split(b"\0")
    if b"--crate-name" not in words:
        return None
    is_edit = "rt-edit-" in os.readlink(process / "cwd")
    part = "edits" if is_edit else "tests" if b"--test" in words else "proof"
    return words[words.index(b"--crate-name") + 1].decode(), part


def look(seen, gate):
    """Notes the task of each check of CI and the processor time that it and its forks have used so far."""
    found = {}
    for number in descendants(gate):
        process = pathlib.Path(f"/proc/{number}")
        with contextlib.suppress(OSError):  # it has ended
            # what the system reports of it: the fields that follow its name
            stat = (process / "stat").read_bytes().rpartition(b") ")[2].split()
            if task := task_of(process):
                # (with that of its forks that have ended)
                found[number] = task, int(stat[1]), stat[19], sum(map(int, stat[11:15])) / TICKS / 60
    for number, (task, parent, began, minutes) in found.items():
        if parent not in found:
            forks = sum(fork[3] for fork in found.values() if fork[1] == number)
            seen[number, began] = task, minutes + forks


def table(seen):
    """The table: processor minutes per crate, of those that take at least LEAST, and of all others."""
    cost = collections.defaultdict(lambda: dict.fromkeys(PARTS, 0.0))
    for (crate, part), minutes in seen.values():
        cost[crate][part] += minutes
    rows = sorted(cost.items(), key=lambda it: -sum(it[1].values()))
    large = [(f"`{crate}`", parts) for crate, parts in rows if sum(parts.values()) >= LEAST]
    small = [parts for _, parts in rows[len(large):]]
    others = (f"{len(small)} others", {it: sum(parts[it] for parts in small) for it in PARTS})
    lines = ["| Crate | Proof | Tests | Edits | Sum |", "|---|---|---|---|---|"]
    for name, parts in [*large, others]:
        figures = " | ".join(f"{parts[it]:.1f}" for it in PARTS)
        lines.append(f"| {name} | {figures} | {sum(parts.values()):.1f} |")
    return "\n".join(lines) + "\n"


def record(costs):
    text, count = MARKED.subn(lambda it: it[1] + costs + it[2], COSTS.read_text(encoding="utf-8"), count=1)
    if not count:
        sys.exit(f"{COSTS}: a mark is missing, so nothing was written")
    COSTS.write_text(text, encoding="utf-8")


def main() -> int:
    words = parser(__doc__, "Exit status: that of `rt ci`.")
    words.add_argument("log", nargs="?", type=pathlib.Path, default=TOP.parent / "gate.log", metavar="LOG")
    words.add_argument("--of", type=int, metavar="PID", help="begins none, and watches this one to its end")
    options, began, seen, gate = words.parse_args(), time.time(), {}, None
    anew = ["--anew"] if ci_takes("--anew") else []
    if options.of is None:
        os.environ.setdefault("RT_JOBS", str(lanes()))
        with open(options.log, "w", encoding="utf-8") as out:
            gate = subprocess.Popen(["rt", "ci", *anew], cwd=TOP, stdout=out, stderr=subprocess.STDOUT)
    while os.path.exists(f"/proc/{options.of}") if gate is None else gate.poll() is None:
        look(seen, gate.pid if gate else options.of)
        time.sleep(0.5)
    used = sum(os.times()[2:4]) / 60 if gate else sum(minutes for _, minutes in seen.values())
    told = options.log.read_text(encoding="utf-8").rstrip()
    costs = (f"{datetime.date.today()}, commit {git('rev-parse', '--short', 'HEAD').strip()}: "
             f"`{told.splitlines()[-1]}`, {(time.time() - began) / 60:.0f} minutes on {os.cpu_count()} "
             f"processors, {used:.0f} processor minutes.\n\n{table(seen)}")
    print(costs, end="")
    has_passed = told.endswith(" 0 failed")
    if has_passed and (FROM_NOTHING in told or not anew):
        record(costs)
    return 0 if has_passed else 1


if __name__ == "__main__":
    sys.exit(main())
