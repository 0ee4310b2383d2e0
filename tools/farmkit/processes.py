"""The built program on free ports of this machine: `wfarm serve`, or nodes and replicas in processes of their
own, and `wfarmctl` over these."""

import contextlib
import pathlib
import random
import re
import resource
import signal
import socket
import subprocess
import sys
import threading
import time
from collections.abc import Callable, Iterable, Sequence
from typing import Any

from farmkit.repository import TOP
from farmkit.wanted import want
from farmkit.web import Answer, ask, connect, loopback, received, request

# words before a program whose write to a file over its limit is an error and no signal
UNSIGNALLED = ("env", "--ignore-signal=XFSZ")
# what a node tells at /status: its number, what it has published, and the state of its proposal with that
# one's sequence
STATUS = re.compile(rb"node (\d+) published (\d+) proposal (none|running|(?:published|overtaken) (\d+))\n")
PUBLISHED = re.compile(rb"(?:node \d+|replica) published (\d+)\b.*\n")


# what `free_ports` has returned: it is listened at later, and isn't returned twice
GIVEN = set[int]()


def free_ports(count: int) -> list[int]:
    """Ports that nothing listens at now, below those that the system gives to connections."""
    ports: list[int] = []
    while len(ports) < count:
        port = random.randrange(10_000, 32_000)
        if port not in GIVEN:
            with contextlib.suppress(OSError):
                socket.create_server(("127.0.0.1", port)).close()
                ports.append(port)
                GIVEN.add(port)
    return ports


def run(*words: str, check: bool = True) -> str:
    """Runs a command; what it writes."""
    return subprocess.run(words, check=check, capture_output=True, text=True).stdout


def end(process: "subprocess.Popen[Any]") -> None:
    """Ends a process by SIGKILL, also one that is stopped, and waits for it."""
    process.kill()
    process.wait()


def listens(port: int) -> bool:
    """Whether something listens at a port of this machine."""
    try:
        connect(loopback(port), 5).close()
    except OSError:
        return False
    return True


def children(number: int) -> list[int]:
    """The processes that a process of this number started, and that run; none where it has ended."""
    found: list[int] = []
    for file in pathlib.Path(f"/proc/{number}/task").glob("*/children"):
        with contextlib.suppress(OSError):
            found += map(int, file.read_text().split())
    return found


def descendants(number: int) -> list[int]:
    """The processes that a process of this number started, and that these started in turn."""
    return [each for child in children(number) for each in (child, *descendants(child))]


def limited(most: int) -> Callable[[], None]:
    """What `preexec_fn` may be: no file of the program grows over so many bytes."""
    return lambda: resource.setrlimit(resource.RLIMIT_FSIZE, (most, most))


# ---- wfarm serve

def serve_words(program: str | pathlib.Path, requests: int, folder: str | pathlib.Path | None, nodes: int = 3,
                log: bool = False) -> list[str]:
    """The command line of a farm in one process."""
    words = [str(program), "serve", "--nodes", str(nodes), "--port", "0", "--requests", str(requests)]
    return words + ["--log"] * log + ([] if folder is None else ["--state", str(folder)])


class Farm(contextlib.AbstractContextManager["Farm"]):
    """`wfarm serve` in one process, for n connections. `before` are words before the program's."""

    def __init__(self, program: str | pathlib.Path, requests: int, folder: str | pathlib.Path | None,
                 nodes: int = 3, log: bool = False, before: Sequence[str] = (), **settings: Any) -> None:
        words = [*before, *serve_words(program, requests, folder, nodes, log=log)]
        self.process = subprocess.Popen(words, stdout=subprocess.PIPE, text=True, **settings)
        assert self.process.stdout is not None
        told = self.process.stdout.readline()
        port = re.fullmatch(r"listening ([0-9]+)\n", told)
        assert port, told
        self.port = int(port[1])
        self.address = loopback(self.port)

    def __exit__(self, *_: object) -> None:
        self.kill()

    def ask(self, path: str, body: bytes | None = None) -> Answer:
        return ask(self.address, path, body, 20)

    def ask_with_more(self, path: str, more: int) -> bytes:
        """What comes back to a GET with n bytes after its head, up to where the connection breaks."""
        with connect(self.address, 20) as client:
            client.sendall(request(path) + b"x" * more)
            time.sleep(0.2)
            return received(client)

    def end(self) -> None:
        assert self.process.wait(timeout=20) == 0

    def kill(self) -> None:
        with self.process:
            self.process.kill()


# ---- wfarm node, wfarm replica

class Process(contextlib.AbstractContextManager["Process"]):
    """A node or a replica in a process of its own. `before` are words that enter a host, say."""

    def __init__(self, program: str | pathlib.Path, folder: str | pathlib.Path, clients: str, operator: str,
                 words: list[str], before: Sequence[str] = ()) -> None:
        self.program, self.folder = str(program), pathlib.Path(folder)
        self.words, self.before = words, list(before)
        self.clients, self.operator = clients, operator
        self.process: subprocess.Popen[Any] | None = None
        self.lock = threading.RLock()
        self.known_as, self.life = self.folder.name, 0
        # the file of its standard error, and when it was started, and answered last
        self.log = self.folder.parent / f"log-{self.folder.name}"
        self.started = self.answered = 0.0

    def __exit__(self, *_: object) -> None:
        self.kill()

    @property
    def name(self) -> str:
        """What it is called, anew with each folder: with another one it may tell less than before."""
        return f"{self.known_as} of folder {self.life}"

    def log_lines(self) -> list[str]:
        return self.log.read_text(errors="replace").splitlines()

    def last_line(self) -> str:
        return (self.log_lines() or [""])[-1]

    def command(self) -> list[str]:
        return [self.program, *self.words, "--state", str(self.folder), "--http", self.clients, "--admin",
                self.operator]

    def start(self, before: Sequence[str] = (), logs: bool = True, more: Sequence[str] = (),
              **settings: Any) -> None:
        """Starts it, with words before the program's and more behind; `settings` are those of Popen."""
        words = [*self.before, *before, *self.command(), *["--log"] * logs, *more]
        with self.lock, self.log.open("ab") as log:
            settings = {"stdin": subprocess.DEVNULL, "stdout": log, "stderr": log, **settings}
            self.process = subprocess.Popen(words, start_new_session=bool(self.before), **settings)
        self.started = time.monotonic()

    def kill(self) -> None:
        with self.lock:
            if self.process is not None:
                end(self.process)
                self.process = None

    def running(self) -> "subprocess.Popen[Any]":
        """Its process, which was started and not killed."""
        assert self.process is not None
        return self.process

    def pause(self) -> None:
        self.running().send_signal(signal.SIGSTOP)

    def go_on(self) -> None:
        self.running().send_signal(signal.SIGCONT)

    def ended(self) -> int | None:
        return None if self.process is None else self.process.poll()

    def ask(self, path: str, body: bytes | None = None, seconds: float = 20) -> Answer:
        return ask(self.clients, path, body, seconds)

    def ask_operator(self, path: str, seconds: float = 20) -> Answer:
        """An answer of its operator's port; status 0 where none came."""
        return ask(self.operator, path, None, seconds)

    def says(self, path: str, seconds: float = 20) -> tuple[int, str]:
        """The status and the text of an answer of its operator's port; 0 and none where it doesn't answer."""
        status, told = self.ask_operator(path, seconds)
        return status, told.decode().strip() if status else ""

    def health(self) -> tuple[int, str]:
        return self.says("/healthz")

    def votes(self) -> tuple[int, str]:
        """What it says of whether it can publish a map now."""
        return self.says("/votez")

    def published(self, seconds: float = 20) -> int | None:
        """The last sequence that it has published; None where it doesn't answer."""
        line = PUBLISHED.fullmatch(self.ask("/status", seconds=seconds).body)
        if line is None:
            return None
        self.answered = time.monotonic()
        return int(line[1])

    def metrics(self) -> dict[str, float]:
        lines = self.says("/metrics")[1].splitlines()
        return {name: float(value) for name, _, value in (line.partition(" ") for line in lines)
                if name.isidentifier()}

    def connected(self) -> list[float | None]:
        """How many peers it hears, and whether that makes a majority, by its metrics."""
        told = self.metrics()
        return [told.get(name) for name in ("wfarm_peers_connected", "wfarm_majority_connected")]

    def processor_seconds(self) -> float:
        """The processor time of it and its threads, from the scheduler, which counts nanoseconds."""
        tasks = pathlib.Path(f"/proc/{self.running().pid}/task").iterdir()
        return sum(int((task / "schedstat").read_text().split()[0]) for task in tasks) / 1e9


class Node(Process):
    """A node with a vote. `peers` are the addresses of all nodes, with commas between them."""

    def __init__(self, program: str | pathlib.Path, number: int, folder: str | pathlib.Path, peers: str,
                 clients: str, operator: str, readers: str | None = None, before: Sequence[str] = ()) -> None:
        more = [] if readers is None else ["--readers", readers]
        super().__init__(program, folder, clients, operator, ["node", "--peers", peers, *more], before)
        self.number, self.count, self.known_as = number, len(peers.split(",")), f"node {number}"

    def init(self, farm: str, *more: str) -> None:
        self.folder.mkdir(parents=True, exist_ok=True)
        self.to_folder("init", "--farm", farm, "--id", str(self.number), "--nodes", str(self.count), *more)

    def clear(self) -> None:
        """Ends a suspension as an operator does, in the folder of a node that is stopped."""
        self.to_folder("clear")

    def to_folder(self, command: str, *words: str) -> None:
        """Does a command of the program, which has to end with status 0, to its folder."""
        ran = subprocess.run([self.program, command, "--state", str(self.folder), *words],
                             capture_output=True, text=True)
        want(f"{command} of node {self.number}: status {ran.returncode}, {ran.stderr.strip()}",
             ran.returncode == 0)

    @property
    def tape(self) -> pathlib.Path:
        return self.folder / f"node-{self.number}.tape"


class Service(contextlib.AbstractContextManager["Service"]):
    """Starts each process again that ended with status 0, as the service of a machine does."""

    def __init__(self, processes: Sequence[Process]) -> None:
        self.processes, self.over, self.restarts = processes, threading.Event(), 0
        self.thread = threading.Thread(target=self.watch)
        self.thread.start()

    def watch(self) -> None:
        while not self.over.wait(0.05):
            for process in self.processes:
                with process.lock:
                    if process.ended() == 0:
                        process.start()
                        self.restarts += 1

    def __exit__(self, *_: object) -> None:
        self.over.set()
        self.thread.join()


class Replica(Process):
    """A renderer without a vote. It asks at the addresses `readers`; others may ask it at its own."""

    def __init__(self, program: str | pathlib.Path, folder: str | pathlib.Path, farm: str,
                 readers: str) -> None:
        clients, operator, self.readers = map(loopback, free_ports(3))
        words = ["replica", "--farm", farm, "--peers", readers, "--readers", self.readers]
        super().__init__(program, folder, clients, operator, words)
        self.folder.mkdir(parents=True)


# ---- wfarmctl

def write_nodes(file: pathlib.Path, processes: Iterable[Process]) -> None:
    """Writes the file of a farm's nodes and replicas."""
    lines = (f"{'' if isinstance(each, Node) else 'replica '}{each.clients} {each.operator}\n"
             for each in processes)
    file.write_text("# clients operator\n" + "".join(lines))


def ctl_words(program: str | pathlib.Path, file: pathlib.Path, *words: object,
              seconds: float = 30) -> list[str]:
    """The command line of `wfarmctl` for the farm of a file."""
    options = ["--farm", str(file), "--program", str(program), "--seconds", str(seconds)]
    return [sys.executable, str(TOP / "tools" / "wfarmctl"), *options, *map(str, words)]


def wfarmctl(program: str | pathlib.Path, file: pathlib.Path, *words: object,
             seconds: float = 30) -> tuple[int, str, str]:
    """What it does: its status, what it writes, and what it writes on standard error."""
    ended = subprocess.run(ctl_words(program, file, *words, seconds=seconds), capture_output=True, text=True)
    return ended.returncode, ended.stdout, ended.stderr
