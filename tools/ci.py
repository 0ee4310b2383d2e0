#!/usr/bin/env python3
"""Runs all that CI runs: the checks of the Python (tools/check_python.py), and `rt ci`.

    ./test

What both print is printed as it comes. The last line is `N passed, M failed` over both; the status is 0 where
nothing failed. `rt ci` checks as many crates side by side as there are processors, and memory for; where the
environment has RT_JOBS, as many as that says.
"""

import os
import re
import signal
import subprocess
import sys

from farmkit.command import parser
from farmkit.repository import TOP

COMMANDS = ([sys.executable, str(TOP / "tools" / "check_python.py")], ["rt", "ci"])
# The memory to plan for a check, in KiB: most take 1 to 3 GB, a few of the uppermost 5 to 7. By its own count
# `rt ci` plans 8 to 12 GB for each of these, and would check one or two at a time.
MEMORY = 4_600_000
COUNT = re.compile(r"(\d+) passed, (\d+) failed")


def lanes() -> int:
    """How many checks go side by side."""
    with open("/proc/meminfo", encoding="utf-8") as lines:
        free = next(int(line.split()[1]) for line in lines if line.startswith("MemAvailable:"))
    return max(1, min(len(os.sched_getaffinity(0)), free // MEMORY))


def run(words: list[str]) -> tuple[int, int]:
    """Runs a command, and prints what it prints: how many passed and failed, of which the command that counts
    is none. One that ends with an error or doesn't count has failed."""
    last = ""
    try:
        process = subprocess.Popen(words, cwd=TOP, stdout=subprocess.PIPE, text=True, errors="replace")
    except OSError as error:
        print(f"{words[0]}: {error.strerror}", flush=True)
        return 0, 1
    try:
        for line in process.stdout or ():
            print(line, end="", flush=True)
            last = line.strip() or last
        process.wait()
    finally:
        process.terminate()
        status = process.wait()
    found = COUNT.match(last)
    passed, failed = (int(found[1]), int(found[2])) if found else (0, 1)
    if status and not failed:
        print(f"{' '.join(words)} ended with status {status}", flush=True)
    return passed, failed or int(bool(status))


def main() -> int:
    parser(__doc__, "").parse_args()
    signal.signal(signal.SIGTERM, signal.default_int_handler)
    os.environ.setdefault("RT_JOBS", str(lanes()))
    passed, failed = (sum(each) for each in zip(*map(run, COMMANDS)))
    print(f"{passed} passed, {failed} failed")
    return 1 if failed else 0


if __name__ == "__main__":
    sys.exit(main())
