"""The bytes by which nodes greet one another."""

import re
import struct
from typing import Any

from farmkit.nodes import Nodes
from farmkit.wanted import until

GREETING = struct.Struct(">8sH32sBB16sI16sIIBIBHH32sBB")
# the lengths of a greeting, and of a rejection that says nothing of what is remembered or says it
GREETING_BYTES, REJECTION_BYTES = GREETING.size, (12, 66)
REJECTION = b"wf-nope\n\0\2"
# the state of a node that votes and serves
SERVES = 1


def greeting(these: Nodes, i: int, /, **changes: Any) -> bytes:
    """The bytes by which a node greets node 0, as its folder and node 0's have them, or changed."""
    lines = these.farm(i)
    file = these[0].folder / "heard"
    until(lambda: file.exists()
          and re.search("tried", file.read_text().splitlines()[1 + i]))  # written within a second
    heard = file.read_text().splitlines()[1 + i]

    def of(*words: str) -> list[int]:
        """The numbers behind these words of the line; zeros if they aren't there."""
        found = re.search(" ".join(f"{word} ([0-9a-f]{{8}})" for word in words), heard)
        return [int(number, 16) for number in found.groups()] if found else [0] * len(words)

    published = these.published(0)
    history = these[0].says(f"/history?from={published}")[1]
    digest = bytes.fromhex(history.split()[1]) if history else bytes(32)
    vote = of("voted", "of", "at")
    # (a vote at a sequence that is published needn't be there)
    vote = vote if vote[2] > published else [0, 0, 0]
    said: dict[str, Any] = {"version": 2, "farm": lines["farm"], "nodes": int(lines["nodes"], 16),
                            "starts": int(lines["starts"], 16) + 1, "state": SERVES, **changes}
    return GREETING.pack(
        b"wf-node\n", said["version"], said["farm"].encode(), said["nodes"], i, bytes.fromhex(lines["mark"]),
        said["starts"], b"forger of a life", *of("tried"), *of("promised", "of"), *vote, published, digest,
        said["state"], 0)


def rejected_for(came: bytes) -> int | None:
    """The number of the cause for which a greeting was rejected; None if these bytes are no rejection."""
    has_memory = came[11:12] == b"\1"
    is_one = came[:10] == REJECTION and len(came) == REJECTION_BYTES[has_memory]
    return came[10] if is_one else None
