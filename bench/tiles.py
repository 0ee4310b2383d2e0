#!/usr/bin/env python3
"""Times pictures of the built program beside MapServer and nginx, all in one run, on loopback, one connection
a request.

Asked of the farm (one node) and of MapServer (FastCGI behind lighttpd, one process), as uncompressed pixmaps:
  kept      one tile of 256 by 256 on the grid, again and again; nginx serves the same bytes as a file
  cold      the sixteen tiles of one metatile, each once; another background each round, so that nothing is
            kept
  off grid  256 by 256, another box each time
  large     1,024 by 1,024, another box each time
Times are milliseconds of an answer, from connect to the last byte: the median, and the mean in brackets.
Rates of the kept tile are wrk's, where it is installed, with one client. MapServer, lighttpd, spawn-fcgi,
nginx and wrk are Debian's packages cgi-mapserver, lighttpd, spawn-fcgi, nginx-light and wrk; --alone leaves
them out.
"""

import contextlib
import os
import pathlib
import re
import shutil
import statistics
import subprocess
import sys
import tempfile

from farmkit.command import lacks, program_parser, tell_missing
from farmkit.mapfiles import PIXMAP
from farmkit.measure import rate, tell, timed
from farmkit.nginx import Nginx, whole
from farmkit.processes import Farm, end, free_ports, listens
from farmkit.repository import MAPS
from farmkit.wanted import until
from farmkit.web import exchange, loopback

SPARE = 1_000_000
MAPSERV = shutil.which("mapserv") or "/usr/lib/cgi-bin/mapserv"


def ask(port, target, body=None):
    """The body of one answer, which has to be a good one, and the milliseconds that it took."""
    (status, answer), took = timed(exchange, loopback(port), target, body, 120)
    if status not in (200, 202):
        sys.exit(f"{target[:200]}: {status} {answer[:300]!r}")
    return answer, took


class Map:
    def __init__(self, path):
        self.path = pathlib.Path(path).resolve()
        self.name = self.path.stem
        self.text = self.path.read_bytes()
        words = self.text.decode()
        self.layers = ",".join(re.findall(r'(?ims)^\s*LAYER\b.*?\bNAME\s+"?([\w-]+)"?', words))
        found = re.search(r"\bEXTENT" + r"\s+(-?[\d.]+)" * 4, words, re.I)
        self.extent = [*map(float, found.groups())]

    def query(self, box, size, background="0xFFFFFF"):
        corners = ",".join(f"{it:.6f}".rstrip("0").rstrip(".") for it in box)
        return (f"SERVICE=WMS&VERSION=1.3.0&REQUEST=GetMap&LAYERS={self.layers}&STYLES=&CRS=EPSG:3857"
                f"&BBOX={corners}&WIDTH={size}&HEIGHT={size}&FORMAT={PIXMAP}&BGCOLOR={background}")

    def tile(self, z, col, row, background="0xFFFFFF"):
        side = (self.extent[2] - self.extent[0]) / 2**z
        left, low = self.extent[0] + col * side, self.extent[1] + row * side
        return self.query((left, low, left + side, low + side), 256, background)

    def shifted(self, number, share, size):
        """A box of this share of the extent, off the grid, another one for each number."""
        side = (self.extent[2] - self.extent[0]) * share
        room = (self.extent[2] - self.extent[0]) - side
        left = self.extent[0] + room * ((number * 37 % 101) + 0.37) / 103
        low = self.extent[1] + room * ((number * 61 % 101) + 0.61) / 103
        return self.query((left, low, left + side, low + side), size)


def measure(port, path, it, rounds):
    """The times of the four kinds of request, asked of one server."""
    def times(queries):
        return [ask(port, path + query)[1] for query in queries]

    ask(port, path + it.tile(2, 1, 1))
    cold = [[it.tile(2, n % 4, n // 4, f"0x{round_:02X}FFFF") for n in range(16)] for round_ in range(rounds)]
    return {"kept": times([it.tile(2, 1, 1)] * (20 * rounds)),
            "cold": [sum(times(metatile)) / 16 for metatile in cold],
            "off grid": times(it.shifted(n, 0.24, 256) for n in range(10 * rounds)),
            "large": times(it.shifted(n, 0.97, 1024) for n in range(3 * rounds))}


@contextlib.contextmanager
def mapserver(it, room):
    """MapServer as FastCGI behind lighttpd, one process; gives its port and path."""
    output = (f'OUTPUTFORMAT NAME "ppm" DRIVER "GDAL/PNM" MIMETYPE "{PIXMAP}" IMAGEMODE RGB EXTENSION "ppm" '
              "END\n")
    text = re.sub(r"(?m)^MAP$", "MAP\n" + output, it.text.decode(), count=1)
    text = re.sub(r'(?m)("wms_onlineresource".*)$', rf'\1 "wms_getmap_formatlist" "{PIXMAP}"', text, count=1)
    (room / "served.map").write_text(text)
    (room / "ms.conf").write_text(f'CONFIG\n ENV\n  MS_MAP_PATTERN "."\n END\n MAPS\n  "served" '
                                  f'"{room}/served.map"\n END\nEND\n')
    port, = free_ports(1)
    (room / "lighttpd.conf").write_text(
        f'server.modules = ("mod_fastcgi")\nserver.document-root = "{room}"\nserver.bind = '
        f'"127.0.0.1"\nserver.port = {port}\n'
        f'fastcgi.server = ("/wms" => (("socket" => "{room}/socket", "check-local" => "disable")))\n')
    environment = {**os.environ, "MAPSERVER_CONFIG_FILE": f"{room}/ms.conf"}
    words = ["spawn-fcgi", "-n", "-s", f"{room}/socket", "-F", "1", "--", MAPSERV]
    quiet = {"stdout": subprocess.DEVNULL, "stderr": subprocess.DEVNULL}
    with contextlib.ExitStack() as running:
        running.callback(end, subprocess.Popen(words, env=environment, start_new_session=True, **quiet))
        # lighttpd answers 503 for a while where MapServer doesn't listen at its first request.
        until((room / "socket").exists)
        words = ["lighttpd", "-D", "-f", f"{room}/lighttpd.conf"]
        running.callback(end, subprocess.Popen(words, **quiet))
        until(lambda: listens(port))
        yield port, "/wms?map=served&"


@contextlib.contextmanager
def nginx(body, room, sendfile="on"):
    """nginx with one worker, serving the bytes as a file, with sendfile or without; its port and path."""
    (room / "tile").write_bytes(body)
    server = Nginx(room, "http")
    server.start(whole(room, f"keepalive_timeout 0; sendfile {sendfile};\nserver {{ listen 127.0.0.1:"
                             f"{server.port}; root {room}; default_type {PIXMAP}; }}"))
    try:
        yield server.port, "/tile"
    finally:
        server.end()


def compare(program, it, seconds, alone):
    with tempfile.TemporaryDirectory(prefix="tiles-") as room, contextlib.ExitStack() as stack:
        os.chmod(room, 0o755)
        farm = stack.enter_context(Farm(program, SPARE, None, nodes=1))
        ask(farm.port, "/publish", it.text)
        rounds = max(2, seconds)
        ours = measure(farm.port, "/wms?", it, rounds)
        tile, target = it.tile(2, 1, 1), "/wms?" + it.tile(2, 1, 1)
        asked, theirs = {"wfarm": (farm.port, target)}, {}
        if not alone:
            port, path = stack.enter_context(mapserver(it, pathlib.Path(room)))
            theirs = measure(port, path, it, rounds)
            asked["MapServer"] = port, path + tile
            asked["nginx"] = stack.enter_context(nginx(ask(farm.port, target)[0], pathlib.Path(room)))
        rates = {name: rate(loopback(port), path, seconds)[0] for name, (port, path) in asked.items()
                 if shutil.which("wrk")}
    print(f"\n{it.name}: {len(it.text)} bytes")
    for kind, times in ours.items():
        beside = ""
        if theirs:
            share = statistics.median(theirs[kind]) / statistics.median(times)
            beside = f"  MapServer {tell(theirs[kind])}  {share:6.2f} times its rate"
        print(f"  {kind:9} wfarm {tell(times)}{beside}")
    print("  kept, requests a second: " + ", ".join(f"{name} {got:,.0f}" for name, got in rates.items()))


def main():
    words = program_parser(__doc__)
    words.add_argument("--map", nargs="*", default=sorted(MAPS.glob("*.map")), help="those of bench/maps")
    words.add_argument("--seconds", type=int, default=3, help="of each run of wrk (3)")
    words.add_argument("--alone", action="store_true", help="leaves the other servers out")
    given = words.parse_args()
    lacking = [] if given.alone else lacks("lighttpd", "spawn-fcgi", "nginx")
    if not given.alone and not os.access(MAPSERV, os.X_OK):
        lacking.append("mapserv")
    if lacking:
        return tell_missing([*lacking, "or --alone"])
    print(f"milliseconds of an answer: median (mean); {os.cpu_count()} processors")
    for path in given.map:
        compare(given.program, Map(path), given.seconds, given.alone)
    return 0


if __name__ == "__main__":
    sys.exit(main())
