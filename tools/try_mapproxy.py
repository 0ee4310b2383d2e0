#!/usr/bin/python3
"""Tries MapProxy with `examples/three/mapproxy.yaml` before nginx and three nodes: PNG with the farm's own
pixels, WMS 1.1.1, another system by reprojection, and tiles as Leaflet asks for them.

FILE gets the farm's own picture beside the reprojected one. Wants Debian's mapproxy (and with it python3-pil
and python3-pyproj), nginx and openssl.
"""

import contextlib
import io
import pathlib
import re
import subprocess
import sys
import urllib.request

from farmkit.command import need, of_debian, program_parser
from farmkit.nginx import changed
from farmkit.processes import free_ports
from farmkit.repository import EXAMPLES
from farmkit.wanted import is_so_within, seconds_until
from farmkit.web import ask, loopback
from try_nginx import behind_nginx

BOX = (-3.25, 51.5, -2.75, 52)
SYSTEM = "EPSG:25832"
SIDE = 512
PATIENCE = 60
# the tile 9/251/170 as Leaflet asks for it
TILE = ("service?SERVICE=WMS&VERSION=1.1.1&REQUEST=GetMap&LAYERS=map_tiles&STYLES=&SRS=EPSG:3857&BBOX="
        "-391357.5848,6653078.9419,-313086.0679,6731350.4589&WIDTH=256&HEIGHT=256&FORMAT=image/png")


class MapProxy:
    def __init__(self, folder, nginx):
        self.port, = free_ports(1)
        conf = folder / "mapproxy.yaml"
        conf.write_text(changed("three/mapproxy.yaml", [
            ("https://maps.county.example/", nginx.address), ("/var/cache/mapproxy/county", f"{folder}/kept"),
            ("client_timeout: 30", "client_timeout: 30\n      ssl_no_cert_checks: true")]))
        log = (folder / "mapproxy.log").open("wb")
        words = ["mapproxy-util", "serve-develop", "-b", f"127.0.0.1:{self.port}", str(conf)]
        self.process = subprocess.Popen(words, stdout=log, stderr=log, start_new_session=True)

    def ask(self, path):
        return ask(loopback(self.port), f"/{path}", None, PATIENCE)

    def picture(self, version, system, box):
        return image_of(self.ask("service" + query_of("map", version, system, box, "png"))[1])

    def close(self):
        subprocess.run(["kill", "--", f"-{self.process.pid}"], check=False)
        self.process.wait()


def query_of(layer, version, system, box, form):
    key = "CRS" if version == "1.3.0" else "SRS"
    return (f"?SERVICE=WMS&VERSION={version}&REQUEST=GetMap&LAYERS={layer}&STYLES=&{key}={system}"
            f"&BBOX={','.join(map(str, box))}&WIDTH={SIDE}&HEIGHT={SIDE}&FORMAT=image/{form}")


def image_of(data):
    """The image that these bytes are, in its colours; one of a single pixel where they are none."""
    images = of_debian("PIL.Image")
    try:
        return images.open(io.BytesIO(data)).convert("RGB")
    except OSError:
        return images.new("RGB", (1, 1))


def colours(image):
    return {colour: count for count, colour in image.getcolors(1 << 24)}


def attempt(trial, proxy, picture):
    images = of_debian("PIL.Image")
    query = query_of("roads", "1.3.0", "CRS:84", BOX, "x-portable-pixmap")
    own = images.open(io.BytesIO(trial.nginx.ask("wms" + query)[2]))
    seconds_until(lambda: proxy.ask("").status, PATIENCE, 0.2)
    newer, older = proxy.picture("1.3.0", "CRS:84", BOX), proxy.picture("1.1.1", "EPSG:4326", BOX)
    trial.see("PNG has the farm's own pixels", newer.tobytes() == own.tobytes(), newer)
    trial.see("WMS 1.1.1 has the same", older.tobytes() == own.tobytes(), older)
    to_metres = of_debian("pyproj").Transformer.from_crs("EPSG:4326", SYSTEM, always_xy=True)
    box = to_metres.transform_bounds(*BOX)
    other = proxy.picture("1.1.1", SYSTEM, box)
    common = [colour for colour, count in colours(own).items() if count > SIDE]
    trial.see(f"{SYSTEM}: a picture with the farm's colours", colours(other).keys() >= {*common}, common)
    before = proxy.ask(TILE)[1]
    tile = image_of(before)
    trial.see("a tile of Mercator with something on it",
              tile.size == (256, 256) and len(colours(tile)) > 1, tile)
    with urllib.request.urlopen(f"http://{loopback(proxy.port)}/{TILE}", timeout=PATIENCE) as answer:
        kept = [name for name in ("Cache-Control", "ETag", "Last-Modified") if answer.headers[name]]
    trial.see("no browser is told to keep it", not kept, kept)
    roads = (EXAMPLES / "roads.map").read_bytes()
    trial.nodes.publish_all(re.sub(rb"COLOR [0-9 ]+", b"COLOR 200 30 30 ", roads))
    # nginx keeps a picture without MAPSEQ for a second
    trial.see("nor does MapProxy keep it", is_so_within(lambda: proxy.ask(TILE)[1] != before, 3, 0.2))
    if picture:
        both = images.new("RGB", (2 * SIDE + 8, SIDE), (190, 190, 190))
        both.paste(own, (0, 0))
        both.paste(other, (SIDE + 8, 0))
        both.save(picture)


def main():
    words = program_parser(__doc__)
    words.add_argument("--picture", type=pathlib.Path, metavar="FILE.png",
                       help="gets the farm's picture beside the reprojected one")
    options = words.parse_args()
    need("mapproxy-util", "nginx", "openssl")
    for name in ("PIL.Image", "pyproj"):
        of_debian(name)
    with behind_nginx(options.program) as trial:
        trial.nodes.start_all()
        trial.nodes.publish_all((EXAMPLES / "roads.map").read_bytes())
        trial.nginx.start(trial.configuration("county"))
        with contextlib.closing(MapProxy(trial.folder, trial.nginx)) as proxy:
            attempt(trial, proxy, options.picture)
    return trial.conclude()


if __name__ == "__main__":
    sys.exit(main())
