"""nginx with an example's configuration on a free port of this machine: names, addresses and certificates
changed."""

import contextlib
import pathlib
import signal
import ssl
import subprocess
import urllib.error
import urllib.request
from collections.abc import Iterable
from email.message import Message
from typing import Any

from farmkit.processes import children, free_ports, listens, run
from farmkit.repository import EXAMPLES
from farmkit.wanted import seconds_until

TYPES = "types { text/html html; text/css css; text/javascript js; image/png png; }"


def changed(example: str, changes: Iterable[tuple[str, str]]) -> str:
    """An example's text with each of these pairs' first, which has to be there, replaced by its second."""
    text = (EXAMPLES / example).read_text(encoding="utf-8")
    for said, here in changes:
        assert said in text, said
        text = text.replace(said, here)
    return text


def whole(folder: str | pathlib.Path, site: str) -> str:
    """A whole configuration with a server block."""
    temporary = "".join(f"{it}_temp_path {folder}/{it};\n"
                        for it in ("client_body", "proxy", "fastcgi", "uwsgi", "scgi"))
    return (f"daemon off; pid {folder}/pid; error_log {folder}/log;\nevents {{}}\n"
            f"http {{ access_log off; {TYPES}\n{temporary}{site}\n}}\n")


class Nginx(contextlib.AbstractContextManager["Nginx"]):
    """nginx at a port of its own, with a certificate of this machine where it is for https."""

    def __init__(self, folder: str | pathlib.Path, scheme: str = "https") -> None:
        self.folder = pathlib.Path(folder)
        self.file = self.folder / "nginx.conf"
        self.certificate, self.key = f"{folder}/cert.pem", f"{folder}/key.pem"
        self.process: subprocess.Popen[Any] | None = None
        self.port, = free_ports(1)
        self.address = f"{scheme}://127.0.0.1:{self.port}/"
        if scheme == "https":
            run("openssl", "req", "-x509", "-newkey", "rsa:2048", "-nodes", "-days", "2", "-subj",
                "/CN=127.0.0.1", "-keyout", self.key, "-out", self.certificate)

    def __exit__(self, *_: object) -> None:
        self.end()

    def site(self, example: str, changes: Iterable[tuple[str, str]]) -> str:
        """A whole configuration with the site of an example: at this port, by any name, and changed."""
        return whole(self.folder, changed(example, [
            ("listen 443 ssl", f"listen 127.0.0.1:{self.port} ssl"),
            ("server_name maps.county.example", "server_name _"),
            ("/etc/ssl/maps.county.example.pem", self.certificate),
            ("/etc/ssl/maps.county.example.key", self.key), *changes]))

    def start(self, configuration: str) -> None:
        """Starts nginx with a whole configuration, and waits until it listens."""
        self.file.write_text(configuration, encoding="utf-8")
        self.process = subprocess.Popen(
            ["nginx", "-e", f"{self.folder}/log", "-p", self.folder, "-c", self.file])
        seconds_until(lambda: listens(self.port), 10)

    def reload(self, configuration: str) -> None:
        """Gives it another configuration while it runs, and waits until it has new workers alone."""
        before = self.workers()
        self.file.write_text(configuration, encoding="utf-8")
        self.running().send_signal(signal.SIGHUP)
        seconds_until(lambda: self.workers() and not before & self.workers(), 20)

    def running(self) -> "subprocess.Popen[Any]":
        assert self.process is not None
        return self.process

    def workers(self) -> set[int]:
        return set(children(self.running().pid))

    def ask(self, path: str, body: bytes | None = None, **headers: str) -> tuple[int, Message, bytes]:
        """The status, the headers and the body of an answer; a header's name has `_` in place of `-`."""
        named = {name.replace("_", "-"): value for name, value in headers.items()}
        request = urllib.request.Request(self.address + path, data=body, headers=named)
        try:
            with urllib.request.urlopen(request, timeout=20,
                                        context=ssl._create_unverified_context()) as answer:
                return answer.status, answer.headers, answer.read()
        except urllib.error.HTTPError as error:
            return error.code, error.headers, error.read()

    def end(self) -> None:
        if self.process is not None:
            self.process.terminate()
            self.process.wait()
