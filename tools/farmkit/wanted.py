"""What a trial wants: that something is so, now or within a time."""

import time
from collections.abc import Callable, Sequence

PATIENCE = 30.0


class Wrong(Exception):
    """What didn't go as it should."""


def want(what: str, is_so: object) -> None:
    """Fails, with these words, where it isn't so."""
    if not is_so:
        raise Wrong(what)


def want_none(wrong: Sequence[str]) -> None:
    want("; ".join(wrong), not wrong)


def unless(is_so: object, what: str) -> list[str]:
    """What is wrong where it isn't so."""
    return [] if is_so else [what]


def named(name: str, wrong: Sequence[str]) -> list[str]:
    """What is wrong, each behind the name of what was tried or seen."""
    return [f"{name}: {what}" for what in wrong]


def seconds_until(is_so: Callable[[], object], seconds: float = PATIENCE,
                  pause: float = 0.01) -> float | None:
    """The seconds until it is so; None where it isn't in that time."""
    begun = time.monotonic()
    while not is_so():
        if time.monotonic() > begun + seconds:
            return None
        time.sleep(pause)
    return round(time.monotonic() - begun, 2)


def until(is_so: Callable[[], object], seconds: float = PATIENCE, pause: float = 0.01) -> float:
    """The seconds until it is so, which it has to be in that time."""
    took = seconds_until(is_so, seconds, pause)
    if took is None:
        raise Wrong("not in time")
    return took


def is_so_within(is_so: Callable[[], object], seconds: float, pause: float = 0.02) -> bool:
    """Whether it is so at some moment of that time."""
    return seconds_until(is_so, seconds, pause) is not None
