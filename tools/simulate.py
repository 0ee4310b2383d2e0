#!/usr/bin/env python3
"""Plays farms of real nodes on a simulated network, disks and clock, with seeds that the table of CI hasn't.

The program of `crates/wf_test_commands` plays them, as many as fit into the minutes, each with a plan
that is drawn from its seed: how many nodes and replicas, for how long, and which faults how often. The first
play that violates what a farm promises ends it: its case is printed, and a smaller one, of which seconds,
replicas and faults were left out as long as it still violates. `--renew` plays the farms of CI's table in
place of that, and puts what was counted there into it, unless a play violates.
"""

import bisect
import random
import re
import resource
import subprocess
import sys
import time
from collections import Counter
from collections.abc import Callable
from dataclasses import dataclass, field, replace

from farmkit.command import add_program, parser
from farmkit.repository import TOP, built

TABLE = TOP / "crates" / "wf_test_commands" / "stdin"
HEADING = "# ---- farms that are simulated\n"
WEIGHTS = ("alone", "one-way", "kills", "cuts", "disks", "jumps", "slow-syncs", "stops", "full-disks",
           "strangers", "cut-calls")
# (no older tape: after faults it may be what the node has stored, and then nothing is wrong)
RELAPSES = ("lost", "gone", "replaced")
PER_MILLION = {"resets": 3_000, "losses": 1_000, "refusals": 100_000, "silences": 100_000,
               "false-events": 50_000}
FIRST_SEED = 1_000_000


@dataclass(frozen=True)
class Plan:
    """The words of a play."""
    nodes: int
    seconds: int
    kinds: dict[str, int] = field(default_factory=dict)

    def __str__(self) -> str:
        words = [f"{kind} {number}" for kind, number in self.kinds.items()]
        return " ".join([str(self.nodes), str(self.seconds), *words])

    def having(self, **kinds: int) -> "Plan":
        return replace(self, kinds={**self.kinds, **kinds})

    def without(self, kind: str) -> "Plan":
        return replace(self, kinds={name: self.kinds[name] for name in self.kinds if name != kind})


def plan_of(seed: int) -> Plan:
    draw = random.Random(seed)
    kinds = {kind: draw.randint(1, 10) for kind in WEIGHTS if draw.random() < 0.6}
    kinds |= {kind: draw.randint(1, most) for kind, most in PER_MILLION.items() if draw.random() < 0.5}
    kinds |= {"delay": draw.choice((1, 10, 40, 200)), "pause": draw.choice((60, 300, 1_500, 4_000))}
    plan = Plan(draw.choice((1, 2, 3, 3, 3, 4, 5, 5, 6, 7)), draw.choice((5, 10, 20, 40)), kinds)
    if plan.nodes > 2 and draw.random() < 0.2:
        plan = plan.having(**{draw.choice(RELAPSES): 1})
    if draw.random() < 0.2:
        plan = plan.having(all=1)
    if draw.random() < 0.5:
        plan = plan.having(replicas=draw.randint(1, 3), emptied=draw.randint(0, 1))
    return plan


def case_of(seed: int, plan: Plan) -> str:
    """The table with this play alone. No answer is the one that it expects."""
    return f"case seed {seed}\nask play {plan}\nfor {seed} => any\n"


def given_in(report: str) -> dict[int, str]:
    """The answers that a report has, by their lines in the table: those that weren't expected."""
    found = re.findall(r"^line (\d+): .*\n  expected: .*\n  given: +(.*)$", report, re.MULTILINE)
    return {int(line): answer.removesuffix("\\n") for line, answer in found}


def play(program: str, seed: int, plan: Plan) -> tuple[list[str], dict[str, int]]:
    """What a play violated, and what was counted."""
    ran = subprocess.run([program], input=case_of(seed, plan), capture_output=True, text=True)
    for answer in given_in(ran.stdout).values():
        *violations, happened = answer.split("\\n")
        return violations, {word: int(number) for word, number in re.findall(r"([a-z-]+) (\d+)", happened)}
    return [f"the program ended with status {ran.returncode}", ran.stdout, ran.stderr[-2_000:]], {}


def least(low: int, high: int, holds: Callable[[int], bool]) -> int:
    """A number at which it holds, if it does at the greater one, and not at the number before."""
    return low + bisect.bisect_left(range(low, high), True, key=holds)


def smaller(seed: int, plan: Plan, violates: Callable[[int, Plan], bool]) -> Plan:
    """A plan of fewer faults that violates too."""
    last = least(0, 2_000 * plan.seconds, lambda number: violates(seed, plan.having(last=number)))
    plan = plan.having(last=last)
    first = last + 1 - least(0, last, lambda number: violates(seed, plan.having(first=last + 1 - number)))
    plan = plan.having(first=first)
    for kind in [*WEIGHTS, *PER_MILLION, "all", "emptied", "replicas"]:
        fewer = plan.having(**{f"no-{kind}": 1}) if kind in WEIGHTS else plan.without(kind)
        if kind in plan.kinds and violates(seed, fewer):
            plan = fewer
    for seconds in (1, 2, 5, 10, 20):
        shorter = replace(plan, seconds=seconds)
        if seconds < plan.seconds and violates(seed, shorter):
            return shorter
    return plan


def most_memory() -> str:
    """The most memory that a process of plays took, which grows with farms that don't give theirs back."""
    return f"{resource.getrusage(resource.RUSAGE_CHILDREN).ru_maxrss // 1024} MiB at most"


def search(program: str, first: int, minutes: float) -> int:
    """Plays seeds until the time is over or one violates."""
    ends, seed, sums = time.monotonic() + 60 * minutes, first, Counter[str]()
    while time.monotonic() < ends:
        plan = plan_of(seed)
        violations, counts = play(program, seed, plan)
        if violations:
            print(*violations, "it is played again by", case_of(seed, plan.having(log=1)), sep="\n")
            fewer = smaller(seed, plan, lambda number, plan: bool(play(program, number, plan)[0]))
            print("and with fewer faults by", case_of(seed, fewer.having(log=1)), sep="\n")
            return 1
        sums.update(counts)
        seed += 1
    del sums["digest"]
    told = ", ".join(f"{word} {count}" for word, count in sums.items())
    print(f"{seed - first} plays, none violates, {most_memory()}: {told}")
    return 0


def renew(program: str) -> int:
    """Plays the table's farms, and writes what was counted into it."""
    others, heading, plays = TABLE.read_text().partition(HEADING)
    ran = subprocess.run([program], input=plays, capture_output=True, text=True)
    lines = plays.splitlines()
    for number, answer in given_in(ran.stdout).items():
        said, _, _ = lines[number - 1].partition(" => ")
        if "\\n" in answer:
            print(f"line {number} violates: {answer}", file=sys.stderr)
            return 1
        lines[number - 1] = f"{said} => {answer}"
    TABLE.write_text(others + heading + "\n".join(lines) + "\n")
    print(f"{ran.stdout.splitlines()[-1]}, {most_memory()}" if ran.stdout else f"status {ran.returncode}")
    return 0


def main() -> int:
    options = parser(__doc__)
    add_program(options, built("wf_test_commands"))
    options.add_argument("--minutes", type=float, default=1, help="for how long (1)")
    options.add_argument("--seed", type=int, default=FIRST_SEED, help=f"the first one ({FIRST_SEED})")
    options.add_argument("--renew", action="store_true", help="play the table of CI, and renew its numbers")
    told = options.parse_args()
    return renew(told.program) if told.renew else search(told.program, told.seed, told.minutes)


if __name__ == "__main__":
    sys.exit(main())
