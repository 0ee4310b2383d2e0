"""The nodes of a farm by their numbers, in processes of their own on loopback addresses of this machine."""

import pathlib
import re
import resource
import shutil
import subprocess
from collections.abc import Sequence

from farmkit.processes import UNSIGNALLED, Node, free_ports
from farmkit.wanted import PATIENCE, Wrong, until, want
from farmkit.web import loopback

NODES = 3
# seconds until what a node has, and what it heard of its peers, is in its folder
KEPT = 2
VOTES, NO_MAJORITY = (200, "votes"), (503, "no majority")


class Nodes:
    """The nodes of a farm, each with its folder, ports and log. Within a `with` they run. The ports are those
    of peers, clients and operators, and of readers, whom nodes answer only where that is asked for."""

    def __init__(self, program: str | pathlib.Path, folder: pathlib.Path, count: int = NODES,
                 farm: str = "tried", has_readers: bool = False, ports: Sequence[int] | None = None,
                 logs: bool = True) -> None:
        self.program, self.folder, self.count, self.called, self.logs = program, folder, count, farm, logs
        self.ports = list(ports or free_ports(4 * count))
        self.peer, self.http, self.admin, reading = (self.ports[k * count:(k + 1) * count] for k in range(4))
        self.readers = list(map(loopback, reading))
        peers = ",".join(map(loopback, self.peer))
        self.each = [Node(program, i, folder / str(i), peers, loopback(self.http[i]), loopback(self.admin[i]),
                          self.readers[i] if has_readers else None) for i in range(count)]

    def __enter__(self) -> "Nodes":
        return self.begin()

    def __exit__(self, *_: object) -> None:
        self.end()

    def __getitem__(self, i: int) -> Node:
        return self.each[i]

    def lines(self, i: int, event: str) -> list[str]:
        """The lines of a node's log about an event."""
        return [line for line in self[i].log_lines() if f" {event}" in line]

    def farm(self, i: int) -> dict[str, str]:
        text = (self[i].folder / "farm").read_text()
        return {word: rest for word, _, rest in (line.partition(" ") for line in text.splitlines())}

    def starts(self, i: int) -> int:
        """How often a node was started, by its folder."""
        return int(self.farm(i)["starts"], 16)

    # ---- processes

    def init(self, i: int, *more: str) -> None:
        self[i].init(self.called, *more)

    def init_all(self, *more: str) -> "Nodes":
        for i in range(self.count):
            self.init(i, *more)
        return self

    def run(self, *words: object) -> "subprocess.CompletedProcess[str]":
        """What a command of the program does."""
        command = [str(self.program), *map(str, words)]
        try:
            return subprocess.run(command, capture_output=True, text=True, timeout=PATIENCE)
        except subprocess.TimeoutExpired as late:
            raise Wrong(f"{' '.join(command)}: not in time") from late

    def start(self, *those: int, more: Sequence[str] = ()) -> None:
        for i in those:
            self[i].start(logs=self.logs, more=more)

    def start_all(self, those: Sequence[int] | None = None) -> None:
        """Starts all nodes or these, and waits until they answer."""
        numbers = range(self.count) if those is None else those
        self.start(*numbers)
        for i in numbers:
            self.wait(i)

    def begin(self, *more: str) -> "Nodes":
        self.init_all(*more).start_all()
        return self

    def restart_limitable(self, i: int) -> None:
        """Restarts a node, its log through a pipe, so that its files may be kept from growing (`limit`)."""
        self.kill(i)
        with self[i].log.open("a") as log:
            writer = subprocess.Popen(["cat"], stdin=subprocess.PIPE, stdout=log)
        assert writer.stdin is not None
        self[i].start(before=UNSIGNALLED, stdout=subprocess.DEVNULL, stderr=writer.stdin)
        writer.stdin.close()
        self.wait(i)

    def limit(self, i: int, most: int | None) -> None:
        _, greatest = resource.prlimit(self[i].running().pid, resource.RLIMIT_FSIZE)
        resource.prlimit(self[i].running().pid, resource.RLIMIT_FSIZE,
                         (greatest if most is None else most, greatest))

    def wait(self, i: int) -> None:
        """Waits until a node answers: each peer answered it, closed, or was silent for three seconds."""
        until(lambda: self.published(i) >= 0)

    def kill(self, *those: int) -> None:
        for i in those:
            self[i].kill()

    def restart(self, i: int) -> None:
        self.kill(i)
        self.start(i)

    def end(self) -> None:
        for node in self.each:
            if node.process is not None:
                node.process.kill()
        for node in self.each:
            node.kill()

    def ended(self, i: int) -> tuple[int | None, str]:
        until(lambda: self[i].ended() is not None)
        return self[i].ended(), self[i].last_line()

    def beside(self, i: int, folder: pathlib.Path, *more: str) -> Node:
        """Another process of a node, on this folder and at ports of its own."""
        http, admin, listen = map(loopback, free_ports(3))
        made = Node(self.program, i, folder, ",".join(map(loopback, self.peer)), http, admin)
        made.words += [*more, "--listen", listen]
        return made

    def put(self, i: int, folder: pathlib.Path | None = None) -> None:
        """Puts a copy of a folder in a node's place, or nothing: from now on it may tell less than before."""
        shutil.rmtree(self[i].folder, ignore_errors=True)
        if folder:
            shutil.copytree(folder, self[i].folder)
        self[i].life += 1

    # ---- what they are asked

    def connected(self, i: int) -> list[float | None]:
        return self[i].connected()

    def publish(self, i: int, text: bytes) -> int:
        return self[i].ask("/publish", text, PATIENCE).status

    def publish_whole(self, i: int, text: bytes, *others: int) -> None:
        """Publishes a map, and waits until this node and these others have it or another."""
        before = self.published(i)
        until(lambda: self.publish(i, text) == 202)
        until(lambda: all(before < self.published(each) for each in (i, *others)))

    def publish_all(self, *texts: bytes) -> None:
        """Publishes maps at the first node, until all nodes have them."""
        for text in texts:
            self.publish_whole(0, text)
        self.level()

    def published(self, i: int) -> int:
        """A node's published sequence; -1 if it doesn't answer."""
        told = self[i].published(PATIENCE)
        return -1 if told is None else told

    def name(self, i: int, sequence: int) -> str | None:
        """The name of the map that a node has published under a sequence; None if it has none there."""
        status, text = self[i].says(f"/map?seq={sequence}")
        found = re.search(r'NAME "([^"]*)"', text)
        return found[1] if status == 200 and found else None

    def level(self) -> float:
        """The seconds until all nodes stand at one sequence; their histories are compared."""
        seconds = until(lambda: len({self.published(i) for i in range(self.count)}) == 1)
        top = self.published(0)
        for start in range(1, top + 1, 256):
            # (more may be published between two answers)
            told = {"\n".join(self[i].says(f"/history?from={start}")[1].splitlines()[:top - start + 1])
                    for i in range(self.count)}
            want("histories differ", len(told) == 1 and told != {""})
        return seconds
