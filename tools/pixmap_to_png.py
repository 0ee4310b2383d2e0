#!/usr/bin/env python3
"""Turns a picture of wfarm, an uncompressed pixmap (Netpbm P6), into a PNG to look at.

    curl -s 'http://127.0.0.1:8080/wms?...' | python3 tools/pixmap_to_png.py > map.png

Netpbm's `pnmtopng` and ImageMagick's `convert` do the same. The status is 1 where standard input is no such
picture. The package has this tool, so it stands alone.
"""

import argparse
import re
import struct
import sys
import zlib


def chunk(kind: bytes, data: bytes) -> bytes:
    return struct.pack(">I", len(data)) + kind + data + struct.pack(">I", zlib.crc32(kind + data))


def png(pixmap: bytes) -> bytes | None:
    """The PNG of a pixmap; None where it isn't a whole one."""
    found = re.fullmatch(rb"P6\n(\d+) (\d+)\n255\n(.*)", pixmap, re.DOTALL)
    if found is None or len(found[3]) != 3 * int(found[1]) * int(found[2]):
        return None
    width, height, rows = int(found[1]), int(found[2]), found[3]
    lines = b"".join(b"\0" + rows[3 * width * row:3 * width * (row + 1)] for row in range(height))
    header = struct.pack(">IIBBBBB", width, height, 8, 2, 0, 0, 0)
    return b"\x89PNG\r\n\x1a\n" + chunk(b"IHDR", header) + chunk(b"IDAT", zlib.compress(lines, 9)) + chunk(
        b"IEND", b"")


def main() -> None:
    raw = argparse.RawDescriptionHelpFormatter
    argparse.ArgumentParser(description=__doc__, formatter_class=raw).parse_args()
    picture = png(sys.stdin.buffer.read())
    if picture is None:
        sys.exit("error: standard input is no whole P6 pixmap of 8 bits a colour")
    sys.stdout.buffer.write(picture)


if __name__ == "__main__":
    main()
