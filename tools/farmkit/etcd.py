"""Three members of etcd, whose keys are put and got through its HTTP/JSON gateway."""

import base64
import contextlib
import http.client
import json
import pathlib
import subprocess
from typing import Any

from farmkit.processes import free_ports
from farmkit.wanted import until
from farmkit.web import loopback

MEMBERS = 3


def call(connection: http.client.HTTPConnection, path: str, body: str) -> Any:
    """The answer of the gateway to one request."""
    connection.request("POST", path, body)
    answer = connection.getresponse()
    text = answer.read()
    if answer.status != 200:
        raise ConnectionError(text)
    return json.loads(text)


def in_base64(text: bytes) -> str:
    return base64.b64encode(text).decode()


class Etcd(contextlib.AbstractContextManager["Etcd"]):
    """Three members with their data in a folder."""

    def __init__(self, folder: pathlib.Path) -> None:
        ports = free_ports(2 * MEMBERS)
        urls = [f"http://{loopback(port)}" for port in ports]
        self.ports, self.members = ports[:MEMBERS], []
        cluster = ",".join(f"n{number}={peer}" for number, peer in enumerate(urls[MEMBERS:]))
        for number, (client, peer) in enumerate(zip(urls, urls[MEMBERS:])):
            words = ["etcd", "--name", f"n{number}", "--data-dir", str(folder / f"etcd-{number}"),
                     "--listen-client-urls", client, "--advertise-client-urls", client,
                     "--listen-peer-urls", peer, "--initial-advertise-peer-urls", peer,
                     "--initial-cluster", cluster, "--initial-cluster-state", "new", "--logger", "zap",
                     "--log-level", "error"]
            self.members.append(subprocess.Popen(words, stdout=subprocess.DEVNULL, stderr=subprocess.DEVNULL))

    def __exit__(self, *_: object) -> None:
        for member in self.members:
            member.terminate()
        for member in self.members:
            member.wait(timeout=20)

    def leads(self, port: int) -> bool | None:
        """Whether the member at a port is the leader; None where it knows none yet."""
        with contextlib.closing(http.client.HTTPConnection("127.0.0.1", port, timeout=20)) as connection:
            told = call(connection, "/v3/maintenance/status", "{}")
        leader = told.get("leader", "0")
        return None if leader == "0" else leader == told["header"]["member_id"]

    def connect(self) -> http.client.HTTPConnection:
        """A connection to the leader, once all members know it."""
        leaders: list[bool | None] = []

        def is_led() -> bool:
            with contextlib.suppress(OSError, http.client.HTTPException):
                leaders[:] = [self.leads(port) for port in self.ports]
            return None not in leaders and leaders.count(True) == 1

        until(is_led, 20, 0.1)
        return http.client.HTTPConnection("127.0.0.1", self.ports[leaders.index(True)], timeout=20)
