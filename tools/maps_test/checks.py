"""What no single input shows: borders by area, features as one shape, pictures beside MapServer's, and speed."""

import json
import re
from pathlib import Path

import numpy
from shapely.geometry import Polygon
from shapely.ops import unary_union

from farmkit.measure import timed
from farmkit.repository import EXAMPLES
from maps.borders import weights
from maps.preview import CAPTION, GAP, pixels_of, size_of
from maps.texts import number

from . import agency, pictures
from .case import TOOLS, answer, made
from .constructs import table_of_the_page
from .keywords import a_map_of_each_keyword, keywords_of_the_page

COMMUNES = ["--name", "a", "--crs", "3857", "--layer", "communes.shp", "--label", "NAME", "--ascii"]
TABLE = ["--name", "a", "--crs", "3857", "--layer", "a.gpkg"]
WARDS = ["--name", "a", "--layer", "wards.geojson", "--label", "ward", "--class-by", "party"]
DATA = TOOLS / "geojson"


def polygons_of(text):
    """The polygons of a map whose features have a ring each."""
    rings = re.findall(r"^POINTS\n(.*?)\nEND$", text, re.DOTALL | re.MULTILINE)
    return [Polygon([tuple(map(float, line.split())) for line in ring.splitlines()]) for ring in rings]


# ---- borders

def borders_stay_shared(folder, program, keep):
    """Communes in labelled polygons, simplified until they fit: no overlap, no gap between them, in square metres."""
    agency.write_data(folder, depth=5, roads=1, towns=1)
    text, said = made("make_map.py", ["--fit", *COMMUNES], folder)
    if "simplified by" not in said:
        return said
    polygons = polygons_of(text)
    union = unary_union(polygons)
    if len(polygons) != 200 or union.geom_type != "Polygon":
        return f"{len(polygons)} polygons, whose union is a {union.geom_type}"
    overlap, gaps = sum(polygon.area for polygon in polygons) - union.area, Polygon(union.exterior).area - union.area
    return f"overlap {overlap:,.1f} m², gaps {gaps:,.1f} m²" if abs(overlap) > 1 or gaps > 1 else None


def borders_do_not_cross(folder, program, keep):
    """A narrow tongue beside a bent border: simplified by itself, the border would cut the tongue off."""
    tongue = [(0, 0), (50, 0), (50, 49), (52, 49), (52, 0), (100, 0), (100, 100), (60, 100), (51, 51), (40, 100), (0, 100), (0, 0)]
    inner = [(44, 90), (51, 55), (56, 90), (44, 90)]
    rings = [[(2600000 + 100 * x, 1200000 + 100 * y) for x, y in ring] for ring in (tongue, inner)]
    agency.write_table(folder / "a.gpkg", [agency.feature("Polygon", [ring]) for ring in rings])
    for distance in (100, 200, 500, 1000, 2000, 4000):
        polygons = polygons_of(made("make_map.py", ["--simplify", str(distance), *TABLE], folder)[0])
        if not all(polygon.is_valid for polygon in polygons) or (len(polygons) == 2 and polygons[0].intersection(polygons[1]).area > 1):
            return f"at {distance} m the polygons cross"
    return None


def weights_of_a_line(folder, program, keep):
    """The distance of each point at which Douglas and Peucker's method leaves it out, worked out by hand."""
    found = weights([(0, 0), (1, 1), (2, 4), (3, 1), (4, 0)])
    wanted = [float("inf"), 1 / 5**0.5, 4.0, 1 / 5**0.5, float("inf")]
    return None if numpy.allclose(found, wanted, 0, 1e-9) else f"{found}"


def numbers_as_written(folder, program, keep):
    wanted = {(0, 6): "0", (-1, 6): "-0.000001", (1500000, 6): "1.5", (-12, 1): "-1.2", (7, 0): "7", (-20, 1): "-2"}
    found = {value: number(*value) for value in wanted}
    return None if found == wanted else f"{found}"


# ---- features as one shape

SHAPED = {
    "paths": ["--layer", "paths.geojson", "--class-by", "kind", "--class", "road=200,0,0", "--width", "9"],
    "woods": ["--layer", "woods.geojson", "--color", "0,120,0"],
    "fences": ["--layer", "woods.geojson", "--outline", "0,120,0", "--width", "9"],
    "fields": ["--layer", "woods.geojson", "--color", "200,200,0", "--outline", "0,120,0", "--width", "9"],
    "wards": ["--layer", "wards.geojson", "--class-by", "party", "--outline", "0,0,0", "--label", "ward"]}


def unlike(folder, program, words, width, share=1.0):
    """What is wrong where the map of these words has another picture by --apart, or not at most this share of its bytes."""
    one, each = (made("make_map.py", [*more, *words], folder)[0] for more in ((), ("--apart",)))
    if len({pictures.drawn_by_wfarm(program, text, width) for text in (one, each)}) != 1:
        return "another picture"
    return f"{len(one)} bytes for {len(each)}" if len(one) > len(each) * share else None


def one_shape_looks_alike(folder, program, keep):
    """Features that became one shape have the picture of each by itself, and fewer bytes where any did."""
    wrong = {name: unlike(DATA, program, ["--name", name, *words], 500) for name, words in SHAPED.items()}
    return f"{wrong}" if any(wrong.values()) else None


def neighbours_as_one_look_alike(folder, program, keep):
    """Neighbours of one colour without labels become one shape without the borders between them."""
    agency.write_table(folder / "a.gpkg", [agency.feature("Polygon", [ring], use=agency.USES[i * 7 // 3 % 4])
                                           for i, ring in enumerate(agency.coverage(12, 6, 3))])
    return unlike(folder, program, ["--by-class", *TABLE, "--class-by", "use"], 800, 0.8)


# ---- beside MapServer

def own_maps_stay(folder, program, keep):
    """Maps of wfarm go through MapServer's library and back with every pixel."""
    for name in ("roads", "parcels", "lakes", "towns"):
        strict = ["--strict"] if name == "roads" else []  # the others have points without symbols, double quotes, other metadata
        text, _ = made("import_mapfile.py", [*strict, "--digits", "6", str(EXAMPLES / f"{name}.map")], folder)
        own = answer(program, (EXAMPLES / f"{name}.map").read_bytes(), "canon").stdout.decode()
        (folder / "own.map").write_text(own)
        made("import_mapfile.py", [*strict, "--digits", "6", "own.map"], folder)
        before, after = (pictures.drawn_by_wfarm(program, each, 1024) for each in (own, text))
        if before != after:
            return f"{name}: another picture"
    return None


def shown(folder, program, keep, name, words, least, layers=None, **sizes):
    """Imports agency.map and looks how many pixels of the pictures are equal. Told, too, is how many are if MapServer's
    smoothed borders count as the nearer colour."""
    agency.write(folder, **sizes)
    text, said = made("import_mapfile.py", [*words, "agency.map"], folder)
    drawn = {f"{name}-mapserver.ppm": pictures.drawn_by_mapserver(folder / "agency.map", text, 1024, layers),
             f"{name}.ppm": pictures.drawn_by_wfarm(program, text, 1024)}
    theirs, ours = map(pixels_of, drawn.values())
    unsmoothed = pictures.nearest(theirs, numpy.unique(ours.reshape(-1, 3), axis=0))
    plain, share = pictures.share_equal(ours, theirs), pictures.share_equal(ours, unsmoothed)
    print(f"{name}: {plain:.2%} of the pixels are equal, {share:.2%} without MapServer's smoothing; {said.splitlines()[-1]}")
    if keep is not None:
        for file, content in (drawn | {f"{name}.map": text.encode()}).items():
            (keep / file).write_bytes(content)
    return None if plain >= least else f"{plain:.2%} of the pixels are equal, and {least:.0%} are wanted"


def polygons_beside_mapserver(folder, program, keep):
    words = ["--crs", "3857", "--fit", "--layers", "communes"]
    sizes = {"columns": 12, "rows": 6, "roads": 1, "towns": 1}
    return shown(folder, program, keep, "polygons", words, 0.97, ["communes"], labels=False, **sizes)


def whole_map_beside_mapserver(folder, program, keep):
    """All of an agency's map, with its labels, which have other letters: most of it is alike."""
    return shown(folder, program, keep, "agency", ["--crs", "3857", "--fit", "--by-class", "--ascii"], 0.75)


# ---- parts and previews

PART = "--extent=880000,5960000,930000,5985000"  # a ninth of the agency's area


def cut_borders_stay_shared(folder, program, keep):
    """Communes cut at an extent and simplified: no overlap, no gap, and they fill the extent and its margin."""
    agency.write_data(folder, depth=5, roads=1, towns=1)
    polygons = polygons_of(made("make_map.py", [PART, "--simplify", "100", *COMMUNES], folder)[0])
    union = unary_union(polygons)
    overlap, gaps = sum(polygon.area for polygon in polygons) - union.area, union.envelope.area - union.area
    wide = union.bounds[2] - union.bounds[0]
    return None if abs(overlap) < 1 and gaps < 1 and 50_400 < wide < 51_000 else f"overlap {overlap:,.1f} m², gaps {gaps:,.1f} m², {wide:,.0f} m wide"


def a_part_has_more_detail(folder, program, keep):
    """A ninth of the area is simplified by a third of the whole's distance, or less."""
    agency.write_data(folder, depth=7, roads=1, towns=1)
    told = (made("make_map.py", [*more, "--fit", *COMMUNES], folder)[1] for more in ((), (PART,)))
    whole, part = (float(re.search(r"the largest displacement is ([\d.,]+) m", said)[1].replace(",", "")) for said in told)
    print(f"a ninth of the area: displaced by {part:,.1f} m at most, the whole by {whole:,.1f} m")
    return None if part < whole / 3 else "less than three times the detail"


def sides_of_preview(folder, program, text):
    """The share of the pixels of each side of p.png, at its top, that are the map's own picture."""
    ours = pixels_of(pictures.drawn_by_wfarm(program, text, 400))
    top = pictures.pixels_of_png(folder / "p.png")[CAPTION : CAPTION + len(ours)]
    return [pictures.share_equal(side, ours) for side in (top[:, :400], top[:, 400 + GAP :])]


def preview_and_query_of_data(folder, program, keep):
    """Where nothing is simplified, both sides are the map's own picture. --query writes a query that draws the whole map."""
    words = ["--preview", str(folder / "p.png"), "--query", str(folder / "query"), "--program", program, *WARDS]
    text, _ = made("make_map.py", words, DATA)
    query = (folder / "query").read_text().strip()
    drawn = answer(program, text.encode(), "draw", query).stdout
    if not re.match(rb"P6\n400 267\n", drawn):
        return f"{query}: {drawn[:40]}"
    return None if sides_of_preview(folder, program, text) == [1, 1] else "the preview has another picture"


def preview_of_many_points(folder, program, keep):
    """50,000 points: the map's side is its picture but for the frame, the source's nearly."""
    agency.write_table(folder / "a.gpkg", [agency.feature("Polygon", [ring], name=f"Ö{i}", use=i % 7)
                                           for i, ring in enumerate(agency.coverage(20, 10, 6))])
    words = ["--fit", "--preview", "p.png", "--program", program, *TABLE, "--class-by", "use"]
    (text, said), took = timed(made, "make_map.py", words, folder)
    source, ours = sides_of_preview(folder, program, text)
    print(f"preview of 51,200 points: {took / 1000:.1f} seconds, {source:.2%} of the source's pixels are the map's; {said.splitlines()[-1]}")
    size, tall = pictures.pixels_of_png(folder / "p.png").shape[:2], size_of(pictures.map_of(text).extent, 400)[1]
    is_whole = size == (2 * tall + 2 * CAPTION, 2 * 400 + GAP)
    return None if is_whole and ours > 0.995 and 0.95 < source < ours else f"{size}, {source}, {ours}"


def preview_of_a_mapfile(folder, program, keep):
    """MapServer's picture on one side and the map's on the other."""
    agency.write(folder, columns=4, rows=2, depth=6, roads=9, towns=5)
    words = ["--crs", "3857", "--simplify", "900", "--preview", "p.png", "--program", program, "agency.map"]
    text, _ = made("import_mapfile.py", words, folder)
    if keep is not None:
        (keep / "preview.png").write_bytes((folder / "p.png").read_bytes())
    theirs, ours = sides_of_preview(folder, program, text)
    return None if ours > 0.99 and 0.6 < theirs < ours else f"{theirs} and {ours} of the pixels are the map's"


def own_map_of_mapserver(folder, program, keep):
    """The mapfile of MapServer's own tests, where its source package is unpacked in /usr/src, as by apt-get source."""
    path = next(Path("/usr/src").glob("mapserver-*/tests/test.map"), None)
    if path is None:
        print("MapServer's own test.map isn't in /usr/src: not tried")
        return None
    _, said = made("import_mapfile.py", [str(path)], folder)
    wanted = ("layer RASTER: left out: all of it", "layer POINT: left out: FONT Vera of LABEL", "layer POINT: changed: SYMBOL 1 of STYLE")
    return None if all(line in said for line in wanted) else said


# ---- speed, and the whole way

def fast_enough(folder, program, keep):
    """200 communes, 300 roads and 60 towns by --fit in 15 seconds; 100,000 points of a GeoPackage in a minute."""
    agency.write(folder, depth=4)
    _, took = timed(made, "import_mapfile.py", ["--crs", "3857", "--fit", "--ascii", "agency.map"], folder)
    agency.write_table(folder / "big.gpkg", [agency.feature("Polygon", [ring], name=f"C{i}")
                                             for i, ring in enumerate(agency.coverage(20, 10, 7))])
    words = ["--name", "a", "--fit", "--layer", "big.gpkg", "--label", "name"]
    _, long = timed(made, "make_map.py", words, folder)
    print(f"speed: the agency's map in {took / 1000:.1f} seconds, 102,400 points in {long / 1000:.1f}")
    return None if took < 15_000 and long < 60_000 else "too slow"


def report_of_what_is_lost(folder, program, keep):
    agency.write(folder, columns=4, rows=2, depth=3, roads=9, towns=5)
    _, said = made("import_mapfile.py", ["--crs", "4326", "--report", "lost.txt", "agency.map"], folder)
    report = (folder / "lost.txt").read_text()
    return None if report.strip() == said and "layer roads: left out: PATTERN 4 2 of STYLE (net.inc, line 10)" in report else report


# ---- the report of `wfarm check` as JSON

def wrong_json(program, text):
    """What `check --format json` says that `check` doesn't, or a place that isn't the offset's."""
    said, as_json = answer(program, text, "check"), answer(program, text, "check", "--format", "json")
    if (said.returncode, said.stderr, bool(said.stdout)) != (as_json.returncode, as_json.stderr, bool(as_json.stdout)):
        return f"{said} {as_json}"
    if not said.stdout:
        return None
    found = json.loads(as_json.stdout)
    heading, _, _, *message = said.stdout.decode().rstrip("\n").split("\n")
    before = text[: found["offset"]]
    place = {"line": before.count(b"\n") + 1, "column": len(before.split(b"\n")[-1].decode()) + 1, "offset": len(before)}
    wanted = place | {"error": heading.split()[4], "message": "\n".join(message)}
    if found != wanted or not heading.startswith(f"line {place['line']}, column {place['column']}: ") or as_json.stdout.count(b"\n") != 1:
        return f"{found} where {wanted} is wanted, {heading}"
    return None


def check_as_json(folder, program, keep):
    """Of examples, whole, cut and with a wrong byte, and of odd texts."""
    texts = [b"", b"/*", b"\xff", b"MAP\r\n\tNAME 'a \"\\'\r\n x", 'MAP NAME "ü\u2028é" {x'.encode(), b'MAP "\x01" END', b" " * 140_000]
    for path in sorted(EXAMPLES.glob("*.map")):
        text = path.read_bytes()
        ends = range(0, len(text), len(text) // 4 + 1)
        texts += [text, *(text[:end] for end in ends), *(text[:end] + b"!" + text[end + 1 :] for end in ends)]
    return next(filter(None, (wrong_json(program, text) for text in texts)), None)


CHECKS = {
    check.__name__.replace("_", " "): check for check in (
        borders_stay_shared, borders_do_not_cross, weights_of_a_line, numbers_as_written, one_shape_looks_alike,
        neighbours_as_one_look_alike, own_maps_stay, polygons_beside_mapserver, whole_map_beside_mapserver, fast_enough,
        cut_borders_stay_shared, a_part_has_more_detail, preview_and_query_of_data, preview_of_many_points, preview_of_a_mapfile,
        own_map_of_mapserver, report_of_what_is_lost, table_of_the_page, keywords_of_the_page, a_map_of_each_keyword, check_as_json)}
