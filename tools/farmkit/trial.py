"""What a trial saw, and how its cases went."""

import contextlib
import pathlib
import tempfile
import threading
from collections import Counter
from collections.abc import Callable, Hashable, Iterable, Iterator, Sequence
from typing import Any

from farmkit.wanted import Wrong, seconds_until


class Trial:
    """Counts what was seen that isn't as it should be. To each time that is waited for, `slack` is added."""

    def __init__(self, slack: float = 0) -> None:
        self.wrong, self.slack = 0, slack

    def see(self, what: str, holds: object, told: object = "") -> None:
        """A line of what was seen, and of what was told where it isn't as it should be."""
        print(f"{'ok   ' if holds else 'WRONG'} {what}" + ("" if holds else f": {told}"), flush=True)
        self.wrong += not holds

    def same(self, what: str, got: object, wanted: object) -> None:
        """A line of what was got, and of what was wanted where that is something else."""
        self.see(what, got == wanted, f"got {got!r}, wanted {wanted!r}")

    def wait(self, what: str, is_so: Callable[[], object], seconds: float = 60) -> None:
        """A line of what is so within this time, with the seconds until then."""
        took = seconds_until(is_so, seconds + self.slack, 0.1)
        self.see(what if took is None else f"{what} ({took:.1f} s)", took is not None)

    def conclude(self) -> int:
        print(f"{self.wrong} wrong")
        return int(bool(self.wrong))


@contextlib.contextmanager
def meanwhile(call: Callable[[], Iterable[Hashable]], pause: float = 0.02) -> Iterator[Counter[Hashable]]:
    """Calls something again and again in a thread, and counts the things that it returned."""
    seen, over = Counter[Hashable](), threading.Event()

    def go_on() -> None:
        while not over.wait(pause):
            seen.update(call())

    thread = threading.Thread(target=go_on, daemon=True)
    thread.start()
    try:
        yield seen
    finally:
        over.set()
        thread.join()


def go_through(every: Iterable[Callable[..., Any]], names: Sequence[str],
               attempt: Callable[[Callable[..., Any], pathlib.Path], str | None]) -> int:
    """Tries the cases of these names, or all, each in its own folder, and prints what it saw. The status."""
    failed, cases = 0, [case for case in every if not names or case.__name__ in names]
    for case in cases:
        with tempfile.TemporaryDirectory(prefix="wfarm-case-") as folder:
            try:
                said = attempt(case, pathlib.Path(folder))
                if said is not None:
                    print(f"{case.__name__}: {said}", flush=True)
            except Wrong as wrong:
                failed += 1
                print(f"{case.__name__}: FAILED: {wrong}", flush=True)
    print(f"{len(cases) - failed} of {len(cases)} cases went as they should")
    return 1 if failed else 0
