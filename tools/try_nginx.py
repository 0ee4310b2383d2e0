#!/usr/bin/env python3
"""Tries nginx with `examples/three/nginx.conf` before three nodes: what it keeps, and that a farm that begins
anew at the same addresses while nginx and its clients go on isn't shown with the old farm's pictures.

Wants nginx and openssl.
"""

import contextlib
import pathlib
import sys
import tempfile
import time

from farmkit import mapfiles, trial
from farmkit.command import need, program_parser
from farmkit.nginx import Nginx
from farmkit.nodes import Nodes

RED, BLUE = "255 0 0", "0 0 255"
FIRST = mapfiles.PICTURE[1:] % 1
PICTURE = FIRST.removesuffix("&MAPSEQ=1")


class Trial(trial.Trial):
    def __init__(self, program, folder):
        super().__init__()
        self.folder = folder
        self.nodes = Nodes(program, folder / "county", farm="county").init_all()
        self.nginx = Nginx(folder)

    def configuration(self, farm):
        """The example, with this farm's name in it."""
        nodes = [(f"10.0.0.{number}:8080", node.clients) for number, node in enumerate(self.nodes.each, 1)]
        return self.nginx.site("three/nginx.conf", [
            ("/etc/ssl/county-publishers.pem", self.nginx.certificate),
            ("/var/cache/nginx/wfarm", f"{self.folder}/cache"), ("include /etc/nginx/wfarm/*.server;", ""),
            ("default county;", f"default {farm};"), *nodes])

    def publish(self, colour):
        """Publishes a map of this colour at the first node, and waits until all have it."""
        self.nodes.publish_all(mapfiles.MAP.format(name="it", words="", color=colour).encode())

    def shows(self, colour, path=FIRST, **headers):
        body = self.nginx.ask(path, **headers)[2]
        return body.endswith(bytes(map(int, colour.split())) * 64)


@contextlib.contextmanager
def behind_nginx(program):
    """A trial of nginx before three nodes, of which nothing runs yet, and behind it nothing any more."""
    with tempfile.TemporaryDirectory(prefix="wfarm-nginx-") as folder:
        pathlib.Path(folder).chmod(0o777)
        seen = Trial(program, pathlib.Path(folder))
        try:
            yield seen
        finally:
            seen.nginx.end()
            seen.nodes.end()


def try_kept(seen):
    status, headers, _ = seen.nginx.ask(FIRST)
    seen.see("a picture with MAPSEQ, and its tag", status == 200 and headers["ETag"] == 'W/"county"', headers)
    seen.see("a browser asks each time", headers["Cache-Control"] == "public, no-cache", headers)
    status, _, body = seen.nginx.ask(FIRST, If_None_Match='W/"county"')
    seen.see("and gets no second copy", (status, body) == (304, b""), status)
    status, headers, _ = seen.nginx.ask(PICTURE)
    seen.see("one without MAPSEQ has no tag", status == 200 and headers["ETag"] is None, headers)
    status, headers, body = seen.nginx.ask(PICTURE + "&MAPSEQ=2")
    seen.see("an exception has none, and isn't kept", b"Exception" in body and headers["ETag"] is None
             and headers["Cache-Control"] == "no-store", headers)
    seen.publish(BLUE)
    seen.see("the sequence that is published later is shown", seen.shows(BLUE, PICTURE + "&MAPSEQ=2"))
    seen.see("the first one stays", seen.shows(RED))
    time.sleep(2.1)
    seen.see("after two seconds a picture without MAPSEQ is the new map's", seen.shows(BLUE, PICTURE))
    seen.nodes.end()
    seen.see("a picture that was kept is there without a node", seen.shows(RED))
    seen.nodes.start_all()


def try_anew(seen):
    seen.nodes.end()
    seen.nodes = Nodes(seen.nodes.program, seen.folder / "county-2", farm="county-2",
                       ports=seen.nodes.ports).begin()
    seen.publish(BLUE)
    seen.see("under the old name the old farm's picture comes", seen.shows(RED))
    seen.nginx.reload(seen.configuration("county-2"))
    told = seen.nginx.ask("wms?SERVICE=WMS&REQUEST=GetCapabilities&UPDATESEQUENCE=2")[2]
    seen.see("a client of the old farm's second map is told so", b"InvalidUpdateSequence" in told, told[:300])
    seen.see("under the new name the new farm's", seen.shows(BLUE))
    seen.see("also to a browser that has the old one", seen.shows(BLUE, If_None_Match='W/"county"'))
    status, headers, _ = seen.nginx.ask(FIRST, If_None_Match='W/"county-2"')
    seen.see("which then keeps the new one", status == 304 and headers["ETag"] == 'W/"county-2"', status)


def main():
    options = program_parser(__doc__).parse_args()
    need("nginx", "openssl")
    with behind_nginx(options.program) as seen:
        seen.nodes.start_all()
        seen.publish(RED)
        seen.nginx.start(seen.configuration("county"))
        try_kept(seen)
        try_anew(seen)
    return seen.conclude()


if __name__ == "__main__":
    sys.exit(main())
