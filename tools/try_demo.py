#!/usr/bin/env python3
"""Tries `./demo`: from another port on with its page, where a port is taken, and where a node ends while it
serves.

Wants nginx and Leaflet for the page.
"""

import os
import pathlib
import re
import signal
import socket
import subprocess
import sys
import tempfile
import time
import urllib.request

from farmkit import trial
from farmkit.command import need, program_parser
from farmkit.processes import children, free_ports
from farmkit.repository import TOP

DEMO = TOP / "demo"
PATIENCE = 60


class Trial(trial.Trial):
    def __init__(self, program, folder):
        super().__init__()
        self.words, self.folder = [sys.executable, str(DEMO), "--program", program], folder

    def begin(self, port, *words):
        return subprocess.Popen([*self.words, "--port", str(port), *words], cwd=self.folder,
                                stdout=subprocess.PIPE, stderr=subprocess.PIPE, text=True)

    def check(self, port):
        """How `--check` ends, its status and what it says of errors; where it doesn't end by itself, it is
        ended, so that its nodes are too."""
        process = self.begin(port, "--check")
        try:
            _, error = process.communicate(timeout=PATIENCE)
        except subprocess.TimeoutExpired:
            process.terminate()
            _, error = process.communicate()
        return process.returncode, error

    def start(self, port):
        """Starts it, and waits until it serves: the process, and what it wrote."""
        process = self.begin(port)
        told = ""
        while "serving until" not in told and (line := process.stdout.readline()):
            told += line
        return process, told


def try_serving(trial, port):
    process, told = trial.start(port)
    trial.see("it serves", "serving until" in told and f"http://127.0.0.1:{port + 10}/wms" in told, told)
    trial.see("no carriage return where there is no terminal", "\r" not in told, told)
    page = re.search(r"page: (http://\S+/)\?nodes=", told)
    trial.see("the page's address", page is not None and page[1] == f"http://127.0.0.1:{port + 30}/", told)
    if page:
        time.sleep(0.5)
        seen = [urllib.request.urlopen(f"{page[1]}{path}", timeout=20).read()
                for path in ("node/2/status", "status", "viewer.js")]
        trial.see("the page reaches its nodes", seen[0].startswith(b"node 2 published 2 ")
                  and seen[1].startswith(b"node 0 published 2 "), seen[:2])
    process.send_signal(signal.SIGTERM)
    trial.see("it ends by itself when it is ended", process.wait(PATIENCE) == 0, process.stderr.read())


def try_ended_node(trial, port):
    process, _ = trial.start(port)
    nodes = [number for number in children(process.pid)
             if b"\0node\0" in pathlib.Path(f"/proc/{number}/cmdline").read_bytes()]
    begun = time.monotonic()
    os.kill(nodes[1], signal.SIGKILL)
    code, error = process.wait(PATIENCE), process.stderr.read()
    trial.see("it ends at once where a node ended, with a line", code == 1
              and re.fullmatch(r"demo: node \d ended with status -9.*\n", error)
              and time.monotonic() - begun < 5, error)


def main():
    options = program_parser(__doc__).parse_args()
    need("nginx")
    with tempfile.TemporaryDirectory(prefix="wfarm-try-demo-") as name:
        seen, (port,) = Trial(options.program, pathlib.Path(name)), free_ports(1)
        code, error = seen.check(port)
        seen.see("--check", code == 0 and (seen.folder / "demo.png").exists(), error)
        try_serving(seen, port)
        try_ended_node(seen, port)
        for taken in (port + 12, port + 30):
            with socket.create_server(("127.0.0.1", taken)):
                begun = time.monotonic()
                code, error = seen.check(port)
                seen.see("it ends at once where a port is taken, with a line", code == 1
                         and re.fullmatch(f"demo: port {taken} can't be had.*\n", error)
                         and time.monotonic() - begun < 5, error)
    return seen.conclude()


if __name__ == "__main__":
    sys.exit(main())
