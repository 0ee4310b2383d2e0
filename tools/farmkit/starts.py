"""Commands of the program that are cut at each of their calls to a folder, and what starts on what a power
cut leaves of it: `init`, `node` and `clear` on a node's folder, `node` among peers, and `replica`."""

import os
import pathlib
import random
import re
import subprocess
import tempfile
import threading
from argparse import Namespace
from collections import Counter
from collections.abc import Callable, Sequence
from typing import TypeVar

from farmkit.calls import Watcher, follow, traced
from farmkit.folder import Files, Folder, contents, drawn, extremes, put
from farmkit.ledger import MOST_VIOLATIONS
from farmkit.mapfiles import map_of
from farmkit.nodes import NODES, Nodes
from farmkit.processes import Node, end, free_ports
from farmkit.tapes import PUBLISHED, records, tape_of
from farmkit.wanted import until
from farmkit.web import loopback

T = TypeVar("T")
MAPS = 3
# how long a start may take until it has come as far as is wanted
START_SECONDS = 20
CUT_AT = ("openat", "write", "fsync", "rename")
NOT_A_NODES = "bad folder: not a node's folder: wfarm init makes one"
OPENED = re.compile(r"opened (?:node=0 )?published=([0-9]+)")
STARTS = re.compile(rb"^starts ([0-9a-f]{8})$", re.MULTILINE)


def is_unsynced(folder: Folder) -> bool:
    return folder.changes != [] or any(file.changes for file in folder.names.values())


def new_folder(above: str) -> str:
    """An empty folder that is there after a power cut."""
    path = os.path.join(os.path.realpath(above), "state")
    os.mkdir(path)
    handle = os.open(above, os.O_RDONLY)
    os.fsync(handle)
    os.close(handle)
    return path


class Violations(Counter[str]):
    """The violations of one part, and how often each was seen. The first of each are printed."""

    def add(self, words: str) -> None:
        if words not in self and len(self) < MOST_VIOLATIONS:
            print("violation: " + words, flush=True)
        self[words] += 1


class Start:
    """A start of the program, which is killed once its log has each of these: what it had published when it
    opened its tape, whether it came so far, and its last line."""

    def __init__(self, words: Sequence[str], wanted: Sequence[str]) -> None:
        self.opened: int | None = None
        self.last, missing = "", [re.compile(pattern) for pattern in wanted]
        process = subprocess.Popen(words, stdout=subprocess.DEVNULL, stderr=subprocess.PIPE, text=True)
        late = threading.Timer(START_SECONDS, process.kill)
        late.start()
        assert process.stderr is not None
        for line in process.stderr:
            self.last = line.strip() or self.last
            if found := OPENED.search(line):
                self.opened = int(found[1])
            missing = [pattern for pattern in missing if not pattern.search(line)]
            if not missing:
                break
        late.cancel()
        end(process)
        process.stderr.close()
        self.is_through = not missing


def starts_in(files: Files) -> int | None:
    found = STARTS.search(files.get("farm", b""))
    return int(found[1], 16) if found else None


def published_in(tape: bytes) -> int:
    return sum(kind == PUBLISHED for kind, _ in records(tape)[0])


class Alone:
    """The folder of a node of a farm of one: `init`, `node` and `clear` are cut."""

    where, starts_by, tape = "alone", "node", "node-0.tape"
    wanted = [OPENED.pattern]
    # nodes: those of the trial, and of them those that run beside what is cut
    every: Sequence[Node] = ()
    others: Sequence[Node] = ()

    def __init__(self, given: Namespace, above: str) -> None:
        self.given, self.path = given, new_folder(above)
        self.trace = f"{self.path}.trace"
        self.peers, self.http = map(loopback, free_ports(2))

    def words(self, command: str) -> list[str]:
        more: dict[str, list[str]] = {
            "init": ["--id", "0", "--nodes", "1", "--farm", "trial"], "clear": [],
            "node": ["--peers", self.peers, "--http", self.http, "--log"]}
        return [self.given.program, command, "--state", self.path, *more[command]]

    def begin(self) -> list[tuple[str, Files]]:
        """The commands that are to be cut, each with what its folder has before."""
        subprocess.run(self.words("init"), check=True, capture_output=True)
        tape_of(self.given.program, pathlib.Path(self.path) / self.tape, MAPS)
        self.start()
        used = contents(self.path)
        return [("init", {}), ("node", used), ("clear", used)]

    def start(self) -> Start:
        return Start(self.words(self.starts_by), self.wanted)

    def run(self, command: str, cut: tuple[str, int] | None = None) -> tuple[Folder, Counter[str]]:
        """Runs a command under strace, up to the cut or as far as is wanted: its folder, and its calls."""
        folder = Folder(contents(self.path))
        Start(traced(self.words(command), self.trace, cut), self.wanted)
        return folder, follow(self.trace, self.path, folder, Watcher(), self.given.without)

    def beside(self, others: list[Files], files: Files, act: Callable[[], T]) -> tuple[T, list[Files]]:
        """What is done on these files, while whoever is beside it runs on those; what those have then."""
        put(self.path, files)
        for node, theirs in zip(self.others, others):
            put(node.folder, theirs)
            node.start()
        return act(), self.end_others()

    def end_others(self) -> list[Files]:
        """Ends them: what their folders have then."""
        for node in self.others:
            node.kill()
        return [contents(node.folder) for node in self.others]

    def end(self) -> None:
        """Ends whoever still runs."""
        for node in self.every:
            node.kill()

    def judge(self, command: str, before: int | None, left: Files, said: Start, published: int) -> str | None:
        """What is wrong with what the node said on a folder that a cut left; None if nothing is."""
        if command == "init":
            right = said.opened == 0 if "farm" in left else said.last.endswith(NOT_A_NODES)
            return None if right else f"a folder with {sorted(left)} is answered with: {said.last}"
        if said.opened is None or not said.is_through:
            return f"the node isn't served: {said.last}"
        if said.opened < published:
            return f"{published} were published, and {said.opened} are left"
        counted = starts_in(left)
        if command == "node" and before is not None and counted not in (before, before + 1):
            return f"{before} starts were counted, and then {counted}"
        return None


class AmongPeers(Alone):
    """The folder of a node of a farm of three, to which its peers say what they remember of it, and which
    keeps what it hears of them in the file `heard`: `node` is cut. After each cut the peers have what they
    had then, so a start that says less than they heard is rejected."""

    where, wanted = "among peers", ["connected peer=1 ", "connected peer=2 "]

    def __init__(self, given: Namespace, above: str) -> None:
        super().__init__(given, above)
        self.nodes = Nodes(given.program, pathlib.Path(above), NODES)
        self.every, self.others = self.nodes.each, self.nodes.each[1:]
        self.path = str(self.nodes[0].folder)

    def words(self, command: str) -> list[str]:
        return [*self.nodes[0].command(), "--log"]

    def begin(self) -> list[tuple[str, Files]]:
        self.nodes.begin()
        for number in range(MAPS):
            self.nodes.publish_whole(0, map_of(number))
        until(lambda: (self.nodes[0].folder / "heard").is_file())
        self.end()
        return [("node", contents(self.path))]


class Following(Alone):
    """The folder of a replica that asks a node: `replica` is cut, on a new one, on some maps and on all."""

    where, starts_by, tape = "of a node", "replica", "replica.tape"
    wanted = [rf"(?:opened|learned) published={MAPS}\b"]

    def __init__(self, given: Namespace, above: str) -> None:
        super().__init__(given, above)
        nodes = Nodes(given.program, pathlib.Path(above), 1, has_readers=True)
        self.every, self.readers = nodes.each, nodes.readers[0]

    def words(self, command: str) -> list[str]:
        return [self.given.program, "replica", "--state", self.path, "--farm", "tried", "--peers",
                self.readers, "--http", self.http, "--log"]

    def begin(self) -> list[tuple[str, Files]]:
        tape = pathlib.Path(f"{self.path}.tape")
        length = tape_of(self.given.program, tape, MAPS)
        self.every[0].init("tried", "--from", str(tape))
        self.every[0].start()
        self.start()
        used = contents(self.path)
        # (the second record is torn)
        part = {**used, self.tape: used[self.tape][:length * 3 // 2]}
        return [("replica", {}), ("replica", part), ("replica", used)]

    def judge(self, command: str, before: int | None, left: Files, said: Start, published: int) -> str | None:
        whole = published_in(left.get(self.tape, b""))
        if not said.is_through:
            return f"the replica doesn't come to have all maps: {said.last}"
        return None if said.opened == whole else f"of {whole} maps it opened {said.opened}"


def cut_command(subject: Alone, command: str, files: Files, draw: random.Random) -> int:
    """Cuts a command at each of its calls, or some. How many violations."""
    others = subject.end_others()
    (_, counts), _ = subject.beside(others, files, lambda: subject.run(command))
    published, most = published_in(files.get(subject.tape, b"")), subject.given.cuts
    done, violations = Counter[str](), Violations()
    cuts = [(kind, index) for kind in CUT_AT for index in range(1, counts[kind] + 1)]
    for kind, index in cuts if len(cuts) <= most else draw.sample(cuts, most):
        (folder, _), at_cut = subject.beside(others, files, lambda: subject.run(command, (kind, index)))
        done["cuts"] += 1
        done["unsynced"] += is_unsynced(folder)
        for left in (*extremes(folder), drawn(folder, draw)):
            said, _ = subject.beside(at_cut, left, subject.start)
            done["folders"] += 1
            if why := subject.judge(command, starts_in(files), left, said, published):
                violations.add(f"{command}, cut at {kind} {index}: {why}")
    print(f"starts, {command} {subject.where}: {done['cuts']} cuts, {done['unsynced']} of them with "
          f"something unsynced, {done['folders']} folders started on; {violations.total()} violations",
          flush=True)
    return violations.total()


def starts(given: Namespace, draw: random.Random, _: object) -> int:
    """Cuts each of the commands. How many violations."""
    violations = 0
    for kind in (Alone, AmongPeers, Following):
        with tempfile.TemporaryDirectory(dir=given.folder) as above:
            subject = kind(given, above)
            try:
                violations += sum(cut_command(subject, command, files, draw)
                                  for command, files in subject.begin())
            finally:
                subject.end()
    return violations
