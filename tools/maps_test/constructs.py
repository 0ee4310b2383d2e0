"""Each keyword that the table of docs/MAPFILES.md has, in a small mapfile, with what has to become of it and be told: the
lines of constructs.txt."""

import re
from pathlib import Path

from farmkit.documents import Document

from .agency import collection, feature
from .case import Case
from .keywords import PAGE

CARRIED, CHANGED, LEFT_OUT, IDLE = "carried", "changed", "left out", "without effect"
SYMBOLS = ('SYMBOL NAME dot TYPE ELLIPSE FILLED TRUE POINTS 1 1 END END SYMBOL NAME "lines" TYPE HATCH END '
           'SYMBOL NAME "box" TYPE VECTOR FILLED TRUE POINTS 0 0 0 1 1 1 1 0 0 0 END END')
HEAD = f'MAP NAME a EXTENT 0 0 10 10 PROJECTION "init=epsg:4326" END {SYMBOLS}\n'
RING = 'FEATURE POINTS 1 1 5 1 5 5 1 1 END ITEMS "a;4" TEXT "x" END'
SHAPES = {"POLYGON": RING, "LINE": RING, "POINT": 'FEATURE POINTS 1 1 END ITEMS "a;4" TEXT "x" END'}
FILL = "STYLE COLOR 1 2 3 END"


def layer(content, kind="POLYGON", shapes=None, items='PROCESSING "ITEMS=use,n"'):
    return f"{HEAD}LAYER NAME p TYPE {kind} {items} {SHAPES[kind] if shapes is None else shapes}\n{content} END\nEND\n"


# a mapfile with a text in a place, in a layer of a kind, and with more beside it
PLACES = {
    "map": lambda text, kind, more: layer(f"CLASS {FILL} END").replace("LAYER", f"{text}\nLAYER"),
    "web": lambda text, kind, more: PLACES["map"](f"WEB {text} END", kind, more),
    "metadata": lambda text, kind, more: PLACES["web"](f"METADATA {text} END", kind, more),
    "layer": lambda text, kind, more: layer(f"{text} CLASS {more or FILL} END", kind),
    "data": lambda text, kind, more: layer(f'CONNECTIONTYPE OGR CONNECTION "a.geojson" {text} CLASS {FILL} END', kind, "", ""),
    "class": lambda text, kind, more: layer(f"CLASS {text} {FILL} END"),
    "style": lambda text, kind, more: layer(f"CLASS STYLE {text} END {more} END", kind),
    "label": lambda text, kind, more: layer(f"CLASS {FILL} LABEL {text} END END"),
    "grid": lambda text, kind, more: layer(f"{text} CLASS {FILL} END", kind, "", "")}
DATA = collection(feature("Polygon", [[[1, 1], [5, 1], [5, 5], [1, 1]]], use="a", n=4))
LINE = re.compile(r"(.*?): (\w+)/?(\w*) ?(.*?)( =>.*?)?(?: \| (.*))?")  # name, place, kind, text, => instead, more


def made():
    """The mapfile of each construct, by its block, what becomes of it, and its name."""
    found, heading = {}, None
    for line in Path(__file__).with_suffix(".txt").read_text().splitlines():
        if line.startswith("["):
            heading = tuple(line.strip("[]").split(", "))
        elif line and not line.startswith("#"):
            name, place, kind, text, instead, more = LINE.fullmatch(line).groups("")
            whole = PLACES[place]("" if instead else text, kind or "POLYGON", more)
            found[(*heading, name)] = whole.replace(text, instead[3:].strip()) if instead else whole
    return found


MADE = made()


def construct(block, fate, name, text):
    files = {"a.map": text, "a.geojson": DATA, "b.map": "# nothing\n", "a.csv": "1\na\n"}
    # the notes call it by its first word in capitals or with an underscore
    spelled = {"a hatch over a fill": "SYMBOL", "no SYMBOL": "COLOR"}.get(name, name)
    found = re.search(r"[A-Z]{3,}|wms_\w+", spelled)
    word = found[0] if found else "WIDTH"
    told = {CARRIED: "(changed|left out): [^(]*", IDLE: "without effect on a farm's answers: .*"}
    said = (rf"{told.get(fate, f'{fate}: [^(]*')}\b{word}\b",)
    notes, silent = ((), said) if fate == CARRIED else (said, ())
    return Case(f"{block} {name} is {fate}", ["--crs", "4326", "a.map"], files, notes=notes, silent=silent)


CASES = [construct(*key, text) for key, text in MADE.items()]


def table_of_the_page(folder, program, keep):
    """The page's table has each construct where it is tried, and no other."""
    rows = [cells for heads, cells in Document(PAGE).rows() if heads[:1] == ("Carried",)]
    found = {(block, fate, name.strip(" .")) for block, *cells in rows
             for fate, cell in zip((CARRIED, CHANGED, LEFT_OUT, IDLE), cells)
             for name in cell.split(",") if name.strip(" .-")}
    wrong = sorted(set(MADE) ^ found)
    return f"{len(wrong)} constructs are tried or written alone: {wrong[:9]}" if wrong else None
