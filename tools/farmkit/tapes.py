"""The records of a node's tape, as its file has them."""

import functools
import hashlib
import pathlib
from collections.abc import Iterable

from farmkit.mapfiles import canonical, map_of

VERSION = 2
TRIED, PROMISED, ACCEPTED, PUBLISHED = 1, 2, 3, 4
# the most maps that a farm publishes
MOST_MAPS = 4_096
HEAD = 6


def record(kind: int, body: bytes) -> bytes:
    """The bytes of a record, which are those of a message between nodes too."""
    return bytes((VERSION, kind)) + len(body).to_bytes(4, "big") + body


def publication(sequence: int, text: bytes) -> bytes:
    """The record of a published map, by its canonical text."""
    return record(PUBLISHED, sequence.to_bytes(2, "big") + text)


def publications(texts: Iterable[bytes]) -> bytes:
    """The bytes of a tape on which these are published, from the first sequence on."""
    return b"".join(publication(sequence, text) for sequence, text in enumerate(texts, 1))


def records(tape: bytes) -> tuple[list[tuple[int, bytes]], bool]:
    """The whole records of a tape: kind and body of each, and whether a torn one follows them."""
    found, at = [], 0
    while (end := at + HEAD + int.from_bytes(tape[at + 2:at + HEAD], "big")) <= len(tape):
        found.append((tape[at + 1], tape[at + HEAD:end]))
        at = end
    return found, at < len(tape)


def digest_of(texts: Iterable[bytes]) -> bytes:
    """The digest of a history of these canonical texts."""
    return functools.reduce(lambda digest, text: hashlib.sha256(digest + text).digest(), texts, bytes(32))


def tape_of(program: str | pathlib.Path, path: pathlib.Path, count: int, length: int = 2_000) -> int:
    """Writes a tape on which so many maps are published that take about so many bytes; their size."""
    text = canonical(program, map_of(1, length))
    path.write_bytes(publications(text.replace(b'"map 1"', b'"map %d"' % number)
                                  for number in range(1, count + 1)))
    return len(text)
