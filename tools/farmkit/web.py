"""HTTP to a program at an address like `127.0.0.1:8080`, a connection per request, over sockets: so a bench
times little else."""

import contextlib
import re
import socket
import threading
from typing import NamedTuple

CAPABILITIES = "/wms?SERVICE=WMS&REQUEST=GetCapabilities"
LENGTH = re.compile(rb"(?i)\r\ncontent-length: *(\d+)\r\n")
PIECE = 1 << 18


class Answer(NamedTuple):
    """The status and the body of an answer; 0 and why, where none came."""

    status: int
    body: bytes


class Listener:
    """Listens at a port of this machine, and attends to each connection in a thread of its own."""

    def __init__(self, port: int = 0) -> None:
        self.server = socket.create_server(("127.0.0.1", port))
        self.port: int = self.server.getsockname()[1]
        threading.Thread(target=self.accept, daemon=True).start()

    def accept(self) -> None:
        with contextlib.suppress(OSError):
            while True:
                threading.Thread(target=self.attend, args=self.server.accept()[:1], daemon=True).start()

    def attend(self, client: socket.socket) -> None:
        with contextlib.suppress(OSError), client:
            self.serve(client)

    def serve(self, client: socket.socket) -> None:
        """Serves a client, whose connection is closed behind it."""
        raise NotImplementedError

    def end(self) -> None:
        self.server.shutdown(socket.SHUT_RDWR)
        self.server.close()


class Unanswered(Exception):
    """No connection could be opened, or it broke or ended before a whole answer."""


def loopback(port: int | str) -> str:
    return f"127.0.0.1:{port}"


def connect(address: str, seconds: float = 30) -> socket.socket:
    """A connection to an address, on which nothing waits longer."""
    host, port = address.rsplit(":", 1)
    return socket.create_connection((host, int(port)), timeout=seconds)


def request(path: str, body: bytes | None = None, host: str = "127.0.0.1") -> bytes:
    """The bytes of a request: a POST where there is a body."""
    head = f"{'GET' if body is None else 'POST'} {path} HTTP/1.1\r\nHost: {host}\r\nConnection: close\r\n"
    if body is not None:
        head += f"Content-Length: {len(body)}\r\n"
    return head.encode() + b"\r\n" + (body or b"")


def received(client: socket.socket) -> bytes:
    """What comes on a connection until the other end closes or breaks it."""
    pieces = []
    with contextlib.suppress(OSError):
        while piece := client.recv(PIECE):
            pieces.append(piece)
    return b"".join(pieces)


def read_answer(client: socket.socket) -> Answer:
    """The answer that comes on a connection, which is closed behind it."""
    came, end = bytearray(), None
    with client:
        while (end is None or len(came) < end) and (piece := client.recv(PIECE)):
            came += piece
            end = end or end_of(came)
    head, gap, body = bytes(came).partition(b"\r\n\r\n")
    if not gap or end is not None and len(came) < end:
        raise Unanswered("the connection ended before a whole answer")
    return Answer(int(head[9:12]), body)


def end_of(came: bytes) -> int | None:
    """How many bytes a whole answer has that begins so, where its head says it."""
    head, gap, _ = came.partition(b"\r\n\r\n")
    found = LENGTH.search(head + b"\r\n") if gap else None
    return len(head) + 4 + int(found[1]) if found else None


def exchange(address: str, path: str, body: bytes | None = None, seconds: float = 30) -> Answer:
    """An answer. Raises Unanswered where none comes, and TimeoutError where the other end is silent."""
    try:
        client = connect(address, seconds)
        client.sendall(request(path, body, address.rsplit(":", 1)[0]))
        return read_answer(client)
    except TimeoutError:
        raise
    except OSError as broken:
        raise Unanswered(repr(broken)) from broken


def ask(address: str, path: str, body: bytes | None = None, seconds: float = 30) -> Answer:
    """An answer, whatever becomes of it."""
    try:
        return exchange(address, path, body, seconds)
    except (Unanswered, TimeoutError) as why:
        return Answer(0, repr(why).encode())


def sequence_of(capabilities: bytes) -> int:
    """The sequence in a document of capabilities."""
    return int(capabilities.partition(b'updateSequence="')[2].partition(b'"')[0])
