"""All that the processes of a farm told, and what contradicts it."""

import collections
import random
import threading
from collections.abc import Callable, Hashable, Sequence

from farmkit.mapfiles import PIXEL
from farmkit.processes import Process
from farmkit.web import CAPABILITIES, Answer, sequence_of

MOST_VIOLATIONS = 20


class Ledger:
    """Compares what is told with what was told before, by whichever process; threads may share one. `sent`
    are the pictures of all maps that were sent, where they are known."""

    def __init__(self, tell: Callable[[str], object] = lambda words: None,
                 sent: set[bytes] | None = None) -> None:
        self.tell, self.sent, self.lock = tell, sent, threading.RLock()
        self.violations: list[str] = []
        self.counts = collections.Counter[str]()
        self.kept: dict[str, dict[Hashable, bytes]] = collections.defaultdict(dict)
        self.latest, self.most = collections.Counter[Hashable](), collections.Counter[Hashable]()

    def violation(self, words: str) -> None:
        with self.lock:
            self.violations.append(words)
            if len(self.violations) <= MOST_VIOLATIONS:
                self.tell(words)

    def same(self, what: str, key: Hashable, value: bytes) -> None:
        """What is told has to be what was told before of this key."""
        with self.lock:
            self.counts["answers"] += 1
            before = self.kept[what].setdefault(key, value)
            if before != value:
                self.violation(f"{what} {key} has changed: {before[:120]!r}, now {value[:120]!r}")

    def published(self, name: str, sequence: int) -> None:
        """A process's published sequence, told after all that it told before: it may not go back."""
        with self.lock:
            self.counts["answers"] += 1
            if sequence < self.latest[name]:
                self.violation(f"{name} told {self.latest[name]} as published, now {sequence}")
            self.latest[name] = sequence
            self.most[name] = max(self.most[name], sequence)

    def document(self, body: bytes) -> int:
        sequence = sequence_of(body)
        self.same("the capabilities at", sequence, body)
        return sequence

    def picture(self, sequence: int, answer: Answer) -> None:
        """A picture at a sequence, which has to be of a map that was sent."""
        if answer.status != 200 or self.sent is not None and answer.body not in self.sent:
            told = f"{answer.status} {answer.body[:100]!r}"
            self.violation(f"the picture at {sequence} is of no map that was sent: {told}")
        else:
            self.same("the picture at", sequence, answer.body)


class Watch:
    """Asks processes again and again, and compares all answers by sequence."""

    def __init__(self, processes: Sequence[Process], ledger: Ledger) -> None:
        self.ledger, self.over = ledger, threading.Event()
        self.threads = [threading.Thread(target=self.ask, args=(process,)) for process in processes]
        for thread in self.threads:
            thread.start()

    def ask(self, process: Process) -> None:
        """Asks a process until the watch is over. What it answers while its folder changes doesn't count."""
        draw = random.Random(process.known_as)
        while not self.over.wait(0.02):
            name, (status, body) = process.name, process.ask(CAPABILITIES, seconds=5)
            if status != 200 or name != process.name:
                continue
            sequence = self.ledger.document(body)
            self.ledger.published(name, sequence)
            if sequence:
                at = draw.choice((sequence, draw.randint(1, sequence)))
                answer = process.ask(PIXEL % at, seconds=5)
                if answer.status not in (0, 503) and name == process.name:
                    self.ledger.picture(at, answer)

    def end(self) -> None:
        self.over.set()
        for thread in self.threads:
            thread.join()
