"""What a bench measures and prints: times, instructions, ratios, medians."""

import os
import pathlib
import re
import shutil
import statistics
import subprocess
import sys
import tempfile
import time
from collections.abc import Callable, Sequence
from typing import Any, TypeVar

from farmkit.processes import run

T = TypeVar("T")
CALLGRIND = ["valgrind", "--tool=callgrind", "--callgrind-out-file=/dev/null"]
MASSIF = ["valgrind", "--tool=massif", "--peak-inaccuracy=0"]
# the most that twice the input may cost
MOST_GROWTH = 3


def timed(call: Callable[..., T], *words: Any) -> tuple[T, float]:
    """What a call returns, and the milliseconds that it took."""
    begun = time.perf_counter()
    value = call(*words)
    return value, 1000 * (time.perf_counter() - begun)


def shortest(call: Callable[[], object], runs: int) -> float:
    """The milliseconds of the shortest of several runs."""
    return min(timed(call)[1] for _ in range(runs))


def percentile(values: Sequence[float], part: float) -> float:
    return sorted(values)[min(len(values) - 1, int(len(values) * part))]


def tell(times: Sequence[float]) -> str:
    """The median of milliseconds, and the mean in brackets."""
    return f"{statistics.median(times):9.2f} ({statistics.mean(times):.2f})"


def ran(words: Sequence[str | pathlib.Path], given: bytes = b"",
        wanted: bytes | None = None) -> "subprocess.CompletedProcess[bytes]":
    """A run of a program that has to end with status 0, or to write these bytes somewhere."""
    done = subprocess.run(words, input=given, capture_output=True)
    if wanted not in done.stdout if wanted is not None else done.returncode:
        said = (done.stdout[-300:] + done.stderr[-300:]).decode()
        sys.exit(f"{' '.join(map(str, words))[:200]}: status {done.returncode}: {said}")
    return done


def instructions(words: Sequence[str | pathlib.Path], given: bytes = b"",
                 wanted: bytes | None = None) -> int | None:
    """The instructions of such a run, counted by valgrind; None where that isn't there."""
    if shutil.which("valgrind") is None:
        return None
    found = re.search(rb"Collected : (\d+)", ran([*CALLGRIND, *words], given, wanted).stderr)
    return int(found[1]) if found else None


def most_held(words: Sequence[str | pathlib.Path], given: bytes = b"") -> int:
    """The most bytes that such a run has allocated at a time, counted by valgrind."""
    with tempfile.NamedTemporaryFile("r") as file:
        ran([*MASSIF, f"--massif-out-file={file.name}", *words], given)
        return max(int(held) for held in re.findall(r"(?m)^mem_heap_B=(\d+)$", file.read()))


def rate(address: str, path: str, seconds: int, clients: int = 1) -> tuple[float, int, str | None]:
    """The requests a second by wrk, one connection a request; how many they were; what it says of errors."""
    said = ran(["wrk", f"-t{min(2, clients)}", f"-c{clients}", f"-d{seconds}s", "-H", "Connection: close",
                f"http://{address}{path}"]).stdout.decode()
    found = re.search(r"(\d+) requests in(?:.|\n)*Requests/sec:\s+([\d.]+)", said)
    errors = re.search(r"Socket errors: (.*)|Non-2xx.*: (.*)", said)
    return float(found[2]) if found else 0, int(found[1]) if found else 0, errors[0] if errors else None


def ratios(costs: Sequence[float], least: float = 0.1) -> list[float]:
    """How many times the one before each cost is, of one that is nearly nothing as if it were `least`."""
    return [after / max(before, least) for before, after in zip(costs, costs[1:])]


def grows_well(costs: Sequence[float], least: float = 0.1) -> bool:
    """Whether twice the input costs at most three times as much, each time."""
    return max(ratios(costs, least)) <= MOST_GROWTH


def load() -> str:
    """What else the machine does."""
    return f"load {os.getloadavg()[0]:.1f} on {os.cpu_count()} processors"


def disk_of(folder: str | pathlib.Path) -> str:
    """The kind of file system that a folder is on, which has to be a disk."""
    disk = run("stat", "-f", "-c", "%T", str(folder)).strip()
    if disk in ("tmpfs", "ramfs"):
        sys.exit(f"{folder} is in memory ({disk}): name a folder on a disk (--folder)")
    return disk
