"""Maps whose picture says which map it is, and the requests for them."""

import hashlib
import pathlib
import subprocess

PIXMAP = "image/x-portable-pixmap"
GET_MAP = ("/wms?VERSION=1.3.0&REQUEST=GetMap&LAYERS=it&STYLES=&CRS=EPSG:3857&BBOX=0,0,4,4"
           "&WIDTH={0}&HEIGHT={0}&FORMAT=image/x-portable-pixmap&MAPSEQ=%d")
PICTURE, PIXEL = GET_MAP.format(8), GET_MAP.format(2)
MAP = """MAP NAME "{name}" EXTENT 0 0 4 4 PROJECTION "init=epsg:3857" END
WEB METADATA "wms_title" "{words}" END END
LAYER NAME it TYPE POLYGON CLASS STYLE COLOR {color} END END
FEATURE POINTS -9 -9 9 -9 9 9 -9 9 END END END END
"""


def map_of(number: int, length: int = 0) -> bytes:
    """A map whose picture is one colour, its number, and that takes about so many bytes."""
    color = "%d %d %d" % (number >> 16, number >> 8 & 255, number & 255)
    more = "".join(f'FEATURE TEXT "{"x" * 960}" POINTS 0 0 4 0 4 4 END END\n' for _ in range(length // 1_000))
    return (f'MAP NAME "map {number}" EXTENT 0 0 4 4 PROJECTION "init=epsg:3857" END\n'
            f"LAYER NAME it TYPE POLYGON\nCLASS STYLE COLOR {color} END END\n"
            f"FEATURE POINTS -9 -9 9 -9 9 9 -9 9 END END\n{more}END END\n").encode()


def picture_of(number: int) -> bytes:
    return b"P6\n2 2\n255\n" + 4 * number.to_bytes(3, "big")


def a_map(name: str, words: str = "", more: int = 0) -> bytes:
    """A map with this name, and a colour of its own; with so many comments of 1,000 bytes behind it."""
    color = " ".join(map(str, hashlib.sha256(name.encode()).digest()[:3]))
    return (MAP.format(name=name, words=words, color=color) + ("#" + "x" * 998 + "\n") * more).encode()


def canonical(program: str | pathlib.Path, text: bytes) -> bytes:
    """The canonical text of a map, by `wfarm canon`."""
    return subprocess.run([str(program), "canon"], input=text, capture_output=True, check=True).stdout
