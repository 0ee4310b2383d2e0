#!/usr/bin/env python3
"""Looks for the dearest requests: maps as full as their limits allow, asked for as often as LAYERS allows, at
the largest size.

Each map is published to a farm of one node in memory, whose capabilities and picture are then asked for once:
1,024 by 1,024 pixels, its layer named 1 and 64 times. Printed are the milliseconds and bytes of each answer,
the most bytes that were resident in the program by then, and last the dearest of each kind. A publish is
timed until the answer to a /status right after it, since the nodes agree before the next connection.
Canonical texts are bounded by 65,536 bytes and mapfiles by 131,072, which bounds the points: one of two
digits takes four bytes. It takes half a minute, with nothing else on the machine.
"""

import pathlib
import random
import re
import sys

from farmkit.command import program_parser
from farmkit.processes import Farm
from farmkit.web import CAPABILITIES
from tiles import ask

SIDE = 1_024
MOST_CANONICAL = 65_300
MAP = 'MAP NAME "dearest" EXTENT 0 0 9 9 PROJECTION "init=epsg:3857" END\n'
COLOURS = [f"{30 * k} {255 - 30 * k} {k}" for k in range(8)]


def styles(words, count=8, falls=0):
    """Styles of different colours, each so much less wide than the one before."""
    each = (words.format(color=COLOURS[k], width=16 - falls * k) for k in range(count))
    return "".join(f"STYLE {it} END\n" for it in each)


def mapfile(kind, styling, features, more=""):
    return f"{MAP}LAYER NAME a TYPE {kind}\nCLASS\n{styling}{more}END\n{''.join(features)}END\nEND\n"


def feature(points, text=""):
    return f"FEATURE\n{text}POINTS {' '.join(f'{x} {y}' for x, y in points)} END\nEND\n"


def fitting(make, cost):
    """As many features, or points, as the canonical text has room for."""
    return [make(k) for k in range((MOST_CANONICAL - 1_500) // cost)]


def zigzag(k):
    """Up and down over the whole height."""
    return (k * 5 % 10, 9 * (k % 2))


def up_and_down(seed, count, step=1, first=0):
    """Up and down over the whole height, each end at one of so many positions from the first one on."""
    draw = random.Random(seed)
    return lambda k: (first + draw.randrange(count) / step, 9 * (k % 2))


def grouped(group):
    """Ends at six positions next to each other: between groups columns stay free."""
    ends = map(up_and_down(4 + group, 6, 10, group), range(10_480 // 9))
    return f"POINTS {' '.join(f'{x} {y}' for x, y in ends)} END\n"


def oblique(seed):
    """To and fro over the whole width, just flatter than 1 to 1, each end at one of 10 positions."""
    draw = random.Random(seed)
    return lambda k: (9 * (k % 2), draw.randrange(10) / 10 + 8 * (k % 2))


def cases():
    comb, full = [feature(fitting(zigzag, 4))], "COLOR {color} OUTLINECOLOR {color} WIDTH {width}"
    falling = styles(full, falls=1)
    distinct, outlines = [feature(fitting(up_and_down(2, 90, 10), 6))], "8 outlines of falling width"
    groups = [f"FEATURE\n{''.join(grouped(k) for k in range(9))}END\n"]
    for name, styling, features in (
            (f"full-height edges, {outlines}", falling, comb),
            (f"edges with ends anywhere, {outlines}", falling, [feature(fitting(up_and_down(1, 10), 4))]),
            (f"distinct edges with ends anywhere, {outlines}", falling, distinct),
            ("distinct edges with ends anywhere, one fill", styles("COLOR {color}", 1), distinct),
            (f"edges in nine groups with free columns between, {outlines}", falling, groups),
            (f"oblique edges, {outlines}", falling, [feature(fitting(oblique(3), 6))]),
            (f"slanted edges, {outlines}", falling,
             [feature(fitting(lambda k: (9 * (k % 2), 7 * (k % 2)), 4))]),
            ("full-height edges, 8 fills and outlines of 16 pixels", styles(full), comb),
            ("full-height edges, one fill", styles("COLOR {color}", 1), comb)):
        yield f"one polygon of {name}", mapfile("POLYGON", styling, features)
    lines, flat = "COLOR {color} WIDTH {width}", [feature([(y, x) for x, y in fitting(zigzag, 4)])]
    yield ("one line of full-height segments, 8 styles of falling width",
           mapfile("LINE", styles(lines, falls=2), comb))
    yield "one line of full-width segments, 8 styles", mapfile("LINE", styles(lines), flat)
    big = fitting(lambda k: feature([(0, 0), (9, 0), (9, 9 - k % 2), (0, 9)]), 56)
    yield "polygons over nearly the whole picture", mapfile("POLYGON", styles("COLOR {color}"), big)
    thin = fitting(lambda k: feature([(0, k % 9), (9, k % 9 + 1), (9, k % 9)]), 52)
    narrow = styles(full.replace("{width}", "2"))
    yield "thin triangles over the whole width", mapfile("POLYGON", narrow, thin)
    spots = [feature([(k % 10, k // 10 % 10) for k in range(15_000)])]
    yield "points of 64 pixels", mapfile("POINT", styles("COLOR {color} SIZE 64"), spots)
    names = fitting(lambda k: feature([(k % 9, k % 7)], f'TEXT "{"N" * 40}"\n'), 84)
    yield "labels of 40 letters, forced", mapfile("POINT", "", names, "LABEL SIZE GIANT FORCE TRUE END\n")
    short = fitting(lambda k: feature([(k % 10, k // 10 % 10)], 'TEXT "N"\n'), 45)
    yield "many labels of one letter", mapfile("POINT", "", short, "LABEL SIZE TINY FORCE FALSE END\n")
    yield "64 layers whose names and titles are quotes alone, each six bytes in a document", quotes()


def quotes():
    """A map whose texts are nearly all quotes; its capabilities have its title twice, its address thrice."""
    quote = "'"
    head = "".join(f'"wms_{key}" "{quote * 1_000}"\n' for key in ("title", "abstract", "onlineresource"))
    layers = "".join(f'LAYER NAME "{quote * 435}{k}" TYPE POINT METADATA wms_title "{quote * 435}" END END\n'
                     for k in range(63))
    return f"{MAP}WEB METADATA\n{head}END END\nLAYER NAME a TYPE POINT END\n{layers}END\n"


def most_resident(process):
    status = pathlib.Path(f"/proc/{process.pid}/status").read_text()
    return 1_024 * int(re.search(r"VmHWM:\s+(\d+) kB", status)[1])


def costs(program, text):
    """Of each kind of request: milliseconds, bytes of the answer, most bytes resident after it."""
    query = ("/wms?VERSION=1.3.0&REQUEST=GetMap&LAYERS={}&STYLES=&CRS=EPSG:3857&BBOX=-0.1,-0.1,9.1,9.1"
             f"&WIDTH={SIDE}&HEIGHT={SIDE}&FORMAT=image/x-portable-pixmap")
    with Farm(program, 6, None, nodes=1) as farm:
        taken = ask(farm.port, "/publish", text.encode())[1]
        status, asked = ask(farm.port, "/status")
        if not status.startswith(b"node 0 published 1 "):
            sys.exit(f"the map wasn't published: {status!r}")
        yield "publish", taken + asked, len(text), most_resident(farm.process)
        for kind, path in (("capabilities", CAPABILITIES), ("picture", query.format("a")),
                           ("picture of 64 layers", query.format(",".join(["a"] * 64)))):
            body, taken = ask(farm.port, path)
            yield kind, taken, len(body), most_resident(farm.process)


def main():
    words = program_parser(__doc__)
    words.add_argument("--only", default="", metavar="WORD", help="maps whose names hold this")
    words.add_argument("--print-map", metavar="NAME", help="prints the map whose name holds this alone")
    given = words.parse_args()
    chosen = [(name, text) for name, text in cases() if given.only in name]
    if given.print_map:
        print(next(text for name, text in chosen if given.print_map in name), end="")
        return
    dearest = {}
    for name, text in chosen:
        print(f"{name} ({len(text)} bytes)")
        for kind, taken, count, resident in costs(given.program, text):
            print(f"  {taken:8.1f} ms  {count:9,} bytes  {resident / 1e6:6.1f} MB resident  {kind}",
                  flush=True)
            dearest[kind] = max(dearest.get(kind, (0, "")), (taken, name))
    for kind, (taken, name) in dearest.items():
        print(f"the dearest {kind}: {taken:.1f} ms, {name}")


if __name__ == "__main__":
    main()
