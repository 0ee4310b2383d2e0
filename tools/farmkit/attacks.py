"""Connections that mean harm, to each port of a program, and what listens where a node or replica dials."""

import itertools
import random
import select
import socket
import struct
import time
from collections.abc import Callable, Sequence

from farmkit.greetings import GREETING_BYTES, REJECTION
from farmkit.mapfiles import GET_MAP
from farmkit.tapes import record
from farmkit.web import CAPABILITIES, Listener

Attack = Callable[[socket.socket, random.Random], None]
MAP = b"""MAP NAME "it" EXTENT 0 0 4 4 PROJECTION "init=epsg:3857" END
LAYER NAME it TYPE POLYGON CLASS STYLE COLOR 9 99 199 END END
FEATURE POINTS 1 1 3 1 3 3 1 3 END END END END"""
TILE = GET_MAP.format(256) % 1
GOOD = b"GET /status HTTP/1.1\r\n\r\n"
# the least length that no message has, nor a reply to a reader
TOO_LONG = 1 << 20


def drain(peer: socket.socket, seconds: float = 15) -> None:
    peer.settimeout(seconds)
    while peer.recv(1 << 16):
        pass


def silent(peer: socket.socket, _: random.Random) -> None:
    drain(peer)


def send(peer: socket.socket, data: bytes, ends: bool = True) -> None:
    """Sends bytes, and ends behind them or stays."""
    peer.sendall(data)
    if ends:
        peer.shutdown(socket.SHUT_WR)
    drain(peer)


# ---- at a clients' or an operator's port

def trickling(peer: socket.socket, _: random.Random) -> None:
    """A head that never ends, a byte at a time until the farm closes."""
    peer.sendall(GOOD[:-2] + b"a: ")
    while not select.select([peer], [], [], 0.3)[0]:
        peer.sendall(b"b")
    drain(peer)


def staying(peer: socket.socket, draw: random.Random) -> None:
    """Its answer is read, and the connection stays open."""
    send(peer, draw.choice((b"GET /x HTTP/1.1\r\n\r\n", b"\x16\x03\x01\r\n\r\n",
                            b"POST /publish HTTP/1.1\r\nContent-Length: 200000\r\n\r\n")), ends=False)


def cut(peer: socket.socket, draw: random.Random) -> None:
    whole = draw.choice((GOOD, b"POST /publish HTTP/1.1\r\nContent-Length: 200\r\n\r\n" + MAP))
    send(peer, whole[:draw.randrange(1, len(whole))])


def oversized(peer: socket.socket, draw: random.Random) -> None:
    send(peer, draw.choice((
        b"GET /" + b"x" * draw.choice((8_193, 1 << 20)) + b" HTTP/1.1\r\n\r\n",
        b"GET /status HTTP/1.1\r\n" + b"a: b\r\n" * draw.choice((33, 2_000)) + b"\r\n",
        b"GET /status HTTP/1.1\r\n" + b"a: " + b"b" * 9_000 + b"\r\n\r\n",
        b"POST /publish HTTP/1.1\r\nContent-Length: 131073\r\n\r\n" + b" " * 131_073,
        b"POST /publish HTTP/1.1\r\nContent-Length: 99999999999999999999\r\n\r\n" + b"MAP " * 50_000)))


def pipelined(peer: socket.socket, draw: random.Random) -> None:
    send(peer, GOOD * draw.choice((2, 100, 10_000)))


def resetting(peer: socket.socket, draw: random.Random) -> None:
    """The connection is reset: at once, in a request, or before its answer is read."""
    peer.sendall(draw.choice((b"", GOOD[:9], GOOD, b"GET %s HTTP/1.1\r\n\r\n" % TILE.encode())))
    peer.setsockopt(socket.SOL_SOCKET, socket.SO_LINGER, struct.pack("ii", 1, 0))


def binary(peer: socket.socket, draw: random.Random) -> None:
    """Random bytes, or a request with some in it."""
    noise = draw.randbytes(draw.choice((1, 100, 5_000, 200_000)))
    send(peer, draw.choice((noise, GOOD[:4] + noise[:3_000] + GOOD[4:],
                            b"POST /publish HTTP/1.1\r\nContent-Length: %d\r\n\r\n" % len(noise) + noise)))


def no_map(peer: socket.socket, draw: random.Random) -> None:
    """A publish of a whole body that is no map."""
    body = MAP.replace(b"LAYER", draw.choice((b"LAYERS", b"INCLUDE", b"END", b"\xff", b'"')))
    send(peer, b"POST /publish HTTP/1.1\r\nContent-Length: %d\r\n\r\n" % len(body) + body, ends=False)


CLIENTS: tuple[Attack, ...] = (cut, oversized, pipelined, resetting, binary, no_map)
SLOW: dict[Attack, int] = {silent: 64, trickling: 64, staying: 32}


def operators(peer: socket.socket, draw: random.Random) -> None:
    """Requests that an operator's port takes, with numbers and words that they don't have."""
    number = draw.choice((b"-1", b"4097", b"99999999999999999999", b"x", b"", b"%00"))
    asked = draw.choice((
        b"GET /map?seq=" + number, b"GET /history?from=" + number, b"GET " + CAPABILITIES.encode(),
        b"POST /replace/ask?node=" + number + b"&count=1&mark=" + b"0" * 32,
        b"POST /replace/agree?node=0&count=" + number + b"&mark=" + b"0" * draw.choice((31, 32, 33)),
        b"POST /replace/begin?count=" + number))
    send(peer, asked + b" HTTP/1.1\r\nContent-Length: 0\r\n\r\n", ends=False)


# ---- at a node's port for peers, and at one for readers

class Strangers:
    """What strangers send there: something whole, which is of no use there, or a part of it."""

    def whole(self, draw: random.Random) -> bytes:
        raise NotImplementedError

    def half(self, peer: socket.socket, draw: random.Random) -> None:
        """A beginning, which ends or stays silent."""
        whole = self.whole(draw)
        send(peer, whole[:draw.randrange(1, len(whole))], draw.random() < 0.5)

    def in_pieces(self, peer: socket.socket, draw: random.Random) -> None:
        """A byte at a time."""
        peer.setsockopt(socket.IPPROTO_TCP, socket.TCP_NODELAY, 1)
        for byte in self.whole(draw):
            peer.sendall(bytes([byte]))
            time.sleep(0.005)
        drain(peer)

    def noise(self, peer: socket.socket, draw: random.Random) -> None:
        send(peer, draw.choice((GOOD, bytes(200), draw.randbytes(5_000), self.whole(draw)[:8] * 1_000)),
             ends=False)


class Peers(Strangers):
    """Greetings of nodes that aren't let in, and those of one that is let in, with no message behind them."""

    def __init__(self, own: bytes) -> None:
        self.own, self.starts = own, itertools.count(int.from_bytes(own[60:64], "big") + 1)
        self.kinds: tuple[Attack, ...] = (self.half, self.in_pieces, self.replaced, self.behind, self.noise)

    def whole(self, draw: random.Random) -> bytes:
        return self.rejected(draw, draw.choice((0, 64)))

    def rejected(self, draw: random.Random, replaced: int = 0) -> bytes:
        """A greeting that is rejected, which tells of so many replaced nodes."""
        at, value = draw.choice(((10, b"other".ljust(32, b"\0")), (8, b"\0\3"), (42, b"\5"), (43, b"\1"),
                                 (44, draw.randbytes(16)), (130, b"\0"), (130, b"\4")))
        told = b"".join(bytes([node]) + draw.randbytes(20) for node in range(replaced))
        whole = self.own[:131] + bytes([replaced]) + told + (b"\0\1" if told else b"")
        return whole[:at] + value + whole[at + len(value):]

    def replaced(self, peer: socket.socket, draw: random.Random) -> None:
        """64 nodes were replaced, or more than a farm has."""
        send(peer, draw.choice((self.rejected(draw, 64), self.own[:131] + b"\x41" + draw.randbytes(1_400),
                                self.own[:131] + b"\xff" + draw.randbytes(6_000))), ends=False)

    def behind(self, peer: socket.socket, draw: random.Random) -> None:
        """It is let in, and then comes what is no message."""
        let_in = self.own[:60] + next(self.starts).to_bytes(4, "big") + self.own[64:]
        whole = record(1, b"\0\2" + (9).to_bytes(4, "big") + b"\2")
        send(peer, let_in + draw.choice((
            whole[:draw.randrange(1, len(whole))], whole[:2] + TOO_LONG.to_bytes(4, "big") + bytes(200_000),
            whole[:2] + b"\xff" * 4, record(99, b"nothing"), b"\x09" + whole[1:],
            record(1, b"\0\2" + bytes(5)), draw.randbytes(200_000),
            record(3, b"\0\2" + (9).to_bytes(4, "big") + b"\2MAP"))), ends=False)


class Readers(Strangers):
    """Questions of readers."""

    def __init__(self, farm: str) -> None:
        self.farm = farm.encode().ljust(32, b"\0")
        self.kinds: tuple[Attack, ...] = (self.half, self.in_pieces, self.other, self.many, self.noise)

    def question(self, sequence: int = 0, digest: bytes = bytes(32)) -> bytes:
        return b"wf-read\n\0\1" + self.farm + sequence.to_bytes(2, "big") + digest

    def whole(self, draw: random.Random) -> bytes:
        return self.question()

    def other(self, peer: socket.socket, draw: random.Random) -> None:
        """Of another farm or version, with another history, or further on than anybody."""
        whole = self.question()
        send(peer, draw.choice((whole[:10] + b"other" + whole[15:], whole[:8] + b"\0\2" + whole[10:],
                                self.question(1, draw.randbytes(32)), self.question(4_096),
                                self.question(65_535, draw.randbytes(32)))), ends=False)

    def many(self, peer: socket.socket, _: random.Random) -> None:
        """Many questions, whose replies nobody reads."""
        peer.settimeout(5)
        peer.sendall(self.question() * 2_000)
        time.sleep(3)


# ---- where a node or a replica connects

class Impostor(Listener):
    """Listens at a port of this machine, and answers what comes there by one of these in turn."""

    def __init__(self, port: int, answers: Sequence[bytes]) -> None:
        self.answers, self.count = itertools.cycle(answers), 0
        super().__init__(port)

    def serve(self, client: socket.socket) -> None:
        self.count += 1
        answer = next(self.answers)
        client.settimeout(10)
        client.recv(1 << 16)
        client.sendall(answer)
        # (half of the answers are followed by the end, the others by silence)
        if len(answer) % 2:
            drain(client, 10)


def peer_answers(own: bytes, draw: random.Random) -> list[bytes]:
    """What a node is answered that dials a peer."""
    peers = Peers(own)
    return [b"", own[:60], own[:GREETING_BYTES - 1], peers.rejected(draw), peers.rejected(draw, 64),
            draw.randbytes(200_001), REJECTION, REJECTION + b"\1\0", REJECTION + b"\x63\0", bytes(131),
            own + draw.randbytes(200_001)]


def source_answers(draw: random.Random) -> list[bytes]:
    """What a replica is answered that asks a source."""
    def reply(body: bytes) -> bytes:
        return len(body).to_bytes(4, "big") + body

    head, digest = b"\1\0\0", draw.randbytes(32)
    return [b"", b"\0", b"\xff" * 5, TOO_LONG.to_bytes(4, "big") + bytes(TOO_LONG), reply(b""),
            reply(b"\3\0\0\1"),
            reply(head + b"\1" + digest), reply(head + b"\1" + digest + reply(b"MAP NAME")),
            reply(head + b"\1" + digest + b"\xff" * 4), reply(head + b"\1" + digest)[:-1], reply(b"\2\4\0\0"),
            reply(b"\2\x63\0\0"), reply(b"\1\5\0\0" + bytes(32)), draw.randbytes(70_001)]
