"""Odd inputs of tools/make_map.py, each with the error or map that is wanted."""

import json

from .agency import LATIN, collection, feature, write_table
from .case import Case

SQUARE = [[0, 0], [2, 0], [2, 2], [0, 2], [0, 0]]
TWO = [feature("Point", [1, 1], name="one"), feature("Point", [2, 3], name="two")]
WORDS = ["--name", "made", "--layer", "made.geojson"]


def made(name, features, words=(), text=None, **wanted):
    """A case of one file of GeoJSON."""
    content = text if text is not None else collection(*features)
    return Case(name, [*WORDS, *words], {"made.geojson": content}, **wanted)


def named(value, **others):
    return [feature("Point", [1, 1], name=value, **others), TWO[1]]


GEOMETRY = [
    made("null geometry", [*TWO, feature(None, [], name="x")], error=r"made.geojson: feature 3: it has no geometry.*--skip"),
    made("null geometry, skipped", [*TWO, feature(None, [], name="x")], ["--skip"], notes=("left out .*feature 3: it has no geometry",)),
    made("empty polygon", [*TWO, feature("Polygon", [])], error=r"feature 3: it has no geometry"),
    made("polygon with an empty ring", [*TWO, feature("Polygon", [[]])], error=r"feature 3"),
    made("collection", [*TWO, {"type": "Feature", "properties": {}, "geometry": {"type": "GeometryCollection", "geometries": [
        {"type": "Point", "coordinates": [1, 1]}]}}], error=r"feature 3: it is a GEOMETRYCOLLECTION: split it"),
    made("empty collection", [*TWO, {"type": "Feature", "properties": {}, "geometry": {"type": "GeometryCollection", "geometries": []}}],
         error=r"feature 3: it has no geometry"),
    made("unknown kind of geometry", [*TWO, feature("Circle", [1, 1])], error=r"made.geojson: feature 3: its geometry is malformed|feature 3: it has no geometry"),
    made("NaN", [], text=collection(*TWO, feature("Point", ["N", 1])).replace('"N"', "NaN"), error=r"feature 3"),
    made("infinity", [], text=collection(*TWO, feature("Point", ["N", 1])).replace('"N"', "1e999"), error=r"made.geojson: feature 3"),
    made("huge coordinate", [*TWO, feature("Point", [1e300, 1])], error=r"feature 3: the point 1e\+300 1 lies outside of EPSG:4326: give the data's own system"),
    made("longitude out of range", [*TWO, feature("Point", [200, 1])], error=r"feature 3: the point 200 1 lies outside of EPSG:4326"),
    made("latitude out of range", [*TWO, feature("Point", [20, 91])], error=r"feature 3: the point 20 91 lies outside"),
    made("metres of a named system", [], text=collection(
        feature("Point", [2600000, 1200000]), feature("Point", [2700000, 1250000]),
        crs={"type": "name", "properties": {"name": "urn:ogc:def:crs:EPSG::2056"}}), lines=("7.438632 46.951083",)),
    made("metres by --source", [feature("Point", [2600000, 1200000]), feature("Point", [2700000, 1250000])], ["--source", "EPSG:2056"],
         lines=("7.438632 46.951083",)),
    made("line with a position of one number", [*TWO, feature("LineString", [[1, 1], [2]])], error=r"made.geojson: feature 3"),
    made("position of four numbers", [*TWO, feature("Point", [1, 2, 3, 4])], lines=("1 2",), notes=("heights were left out",)),
    made("position of texts", [*TWO, feature("Point", ["a", "b"])], error=r"made.geojson: feature 3"),
    made("coordinates that are no list", [*TWO, feature("Point", 7)], error=r"made.geojson: feature 3"),
    made("ring that isn't closed", [feature("Polygon", [SQUARE[:-1]])], lines=("0 0",)),
    made("ring of two points", [*TWO, feature("Polygon", [[[0, 0], [1, 1]]])], error=r"feature 3: a polygon with 2 points, and it needs 3"),
    made("line of one point", [*TWO, feature("LineString", [[0, 0]])], error=r"feature 3: a line with 1 points, and it needs 2"),
    made("line of one point, twice", [*TWO, feature("LineString", [[0, 0], [0, 0]])], notes=("a part is smaller than the last digit",)),
    made("a polygon below the last digit", [feature("Polygon", [[[0, 0], [0.1, 0], [0.1, 0.1], [0, 0]]])], ["--digits", "0"], error=r"nothing is left to draw: write more --digits"),
    made("mixed kinds", [*TWO, feature("LineString", [[0, 0], [1, 1]]), feature("Polygon", [SQUARE])],
         lines=('NAME "made_point"', 'NAME "made_line"', 'NAME "made_polygon"')),
    made("line across 180 degrees", [feature("LineString", [[179, 0], [-179, 1]])], error=r"feature 1: it crosses 180 degrees \(179 to -179\): cut it there"),
    made("polygon across 180 degrees", [*TWO, feature("Polygon", [[[170, 0], [-170, 0], [-170, 9], [170, 9], [170, 0]]])], error=r"feature 3: it crosses 180"),
    made("across 180 degrees in metres", [feature("LineString", [[179, 0], [-179, 1]])], ["--crs", "3857"], error=r"feature 1: it crosses 180"),
    made("the whole world", [feature("Polygon", [[[-180, -90], [180, -90], [180, 90], [-180, 90], [-180, -90]]])], lines=("EXTENT -180 -90 180 90",)),
    made("a pole in metres", [*TWO, feature("Point", [1, 90])], ["--crs", "3857"], error=r"feature 3: .*--crs 4326"),
    made("a line east to west at 180", [feature("LineString", [[170, 0], [180, 5]])], lines=("180 5",)),
    made("one point", TWO[:1], error=r"the extent 1 1 1 1 is empty: give one by --extent"),
    made("one point with an extent", TWO[:1], ["--extent=0,0,2,2"], lines=("EXTENT 0 0 2 2",)),
    made("many parts", [feature("MultiPolygon", [[SQUARE], [[[5, 5], [9, 5], [9, 9], [5, 5]]]])], lines=("EXTENT 0 0 9 9",))]

FILES = [
    *(made(name, [], text=text, error=r"made.geojson: GDAL can't read it") for name, text in (
        ("not JSON", "MAP END"), ("an empty file", ""), ("cut JSON", collection(*TWO)[:-9]),
        ("JSON of something else", '{"a": 1}'))),
    made("features that are null", [], text='{"type": "FeatureCollection", "features": null}', error=r"made.geojson"),
    made("no features", [], error=r"made.geojson: table made: it has no feature to draw: look at --table"),
    made("a feature alone", [], text=json.dumps(feature("LineString", [[1, 1], [2, 3]])), lines=("2 3",)),
    made("a geometry alone", [], text=json.dumps({"type": "LineString", "coordinates": [[1, 1], [2, 3]]}), lines=("2 3",)),
    made("a byte order mark", [], text="\ufeff" + collection(*TWO), lines=("2 3",)),
    Case("no file", WORDS, error=r"made.geojson: there is no such file"),
    Case("a folder", ["--name", "a", "--layer", "."], error=r"\.: GDAL can't read it"),
    Case("a layer without a comma in its name", ["--name", "a", "--layer", "a,b.geojson"], {"a,b.geojson": collection(*TWO)}, lines=('NAME "a_b"',)),
    Case("two layers of one name", [*WORDS, "--layer", "made.geojson"], {"made.geojson": collection(*TWO)}, error=r"two layers have the name made: rename"),
    Case("a table without places", ["--name", "a", "--layer", "a.csv"], {"a.csv": "name,age\nx,3\n"}, error=r"a.csv: (feature 1: it has no geometry|the data name no system)"),
    Case("an option before any layer", ["--name", "a", "--label", "name", *WORDS], error="--label stands before the first --layer", status=2)]

TEXTS = [
    made("both quotes in a label", named("5\" of 'x'"), ["--label", "name"], notes=("double quotes became apostrophes .*feature 1",), lines=("TEXT \"5' of 'x'\"",)),
    made("quotes in two attributes", named('say "a"', other="it's"), ["--items", "name,other"], lines=("ITEMS \"say 'a';it's\"",)),
    made("a list", named(["a", "b"]), ["--items", "name"], lines=('ITEMS "a,b"',)),
    made("an object", named({"a": "it's"}), ["--items", "name"]),
    made("a line feed", named("a\nb"), ["--label", "name"], lines=('TEXT "a b"',), notes=("line feeds and tabs",)),
    made("a backslash", named("a\\b"), ["--label", "name"], lines=('TEXT "a/b"',), notes=("a backslash became a slash",)),
    made("a semicolon", named("a;b"), ["--items", "name"], lines=('ITEMS "a,b"',), notes=("a semicolon in a value became a comma",)),
    made("a semicolon in a label", named("a;b"), ["--label", "name"], lines=('TEXT "a;b"',)),
    made("a control character", named("a\u0001b"), ["--label", "name"], lines=('TEXT "ab"',), notes=("characters that no text holds",)),
    made("half of a surrogate pair", [], ["--label", "name"], text=collection(*named("a@b")).replace("@", "\\ud800"), notes=("",)),
    made("values of other types", named(True, n=3.0, m=None, k=0.1), ["--items", "name,n,m,k"], lines=('ITEMS "true;3;;0.1"',)) ,
    made("a long label", named("x" * 1001), ["--label", "name"], error=r"layer made: feature 1: 1001 bytes, over the limit of 1000: shorten it"),
    made("letters that are boxes", named("Zürich"), ["--label", "name"], notes=("drawn as boxes; --ascii .*feature 1: Zürich",)),
    made("letters in ASCII", named("Straße nach Øresund/Łódź"), ["--label", "name", "--ascii"], lines=('TEXT "Strasse nach Oresund-Lodz"',)),
    made("letters that stay boxes", named("東京"), ["--label", "name", "--ascii"], notes=("drawn as boxes .*東京",)),
    *(made(f"an unknown attribute of {option}", TWO, [option, "nme"], error=r"made.geojson: it has no attribute 'nme': it has name")
      for option in ("--label", "--items", "--class-by")),
    made("quotes in the title", TWO, ["--title", "\"a\" and 'b'"], lines=("\"wms_title\" \"'a' and 'b'\"",)),
    made("a condition that isn't SQL", TWO, ["--where", "name ="], error=r"--where 'name =' isn't understood"),
    made("a condition that nothing meets", TWO, ["--where", "name = 'x'"], error=r"made.geojson: table made: no feature meets --where \"name = 'x'\""),
    made("an unknown system", TWO, ["--source", "here"], error=r"here is no system: write --source EPSG:"),
    made("a system without a number", TWO, ["--source", "EPSG:99999"], error=r"EPSG:99999 is no system")]

USES = [feature("Point", [i, i], use=f"use {i % 3}", pop=i * 100) for i in range(9)]
CLASSES = [
    made("colours of the palette", USES, ["--class-by", "use"], lines=('NAME "use 2"', 'EXPRESSION "3"'), absent=('NAME "other"',)),
    made("some values", USES, ["--class-by", "use", "--class", "use 1=1,2,3"], lines=("COLOR 1 2 3", 'NAME "other"'), notes=(r"features in no class of use have --color \(6 times",)),
    made("a value that isn't there", USES, ["--class-by", "use", "--class", "nix=1,2,3"], notes=("no feature has use 'nix'",)),
    made("ranges", USES, ["--class-by", "pop", "--ranges", "100,500"], lines=('NAME "under 100"', 'NAME "100 to 500"', 'NAME "500 and more"')),
    made("ranges of texts", USES, ["--class-by", "use", "--ranges", "100,500"], lines=('NAME "other"',), notes=("features in no class",)),
    made("ranges that fall", USES, ["--class-by", "pop", "--ranges", "500,100"], error="isn't a list of numbers that rise", status=2),
    made("ranges of nothing", USES, ["--ranges", "100"], error=r"need --class-by"),
    made("too many values", [feature("Point", [i, i], n=i) for i in range(20)], ["--class-by", "n"], error=r"attribute n has 20 values, and a layer at most 15 classes"),
    made("a value with quotes", named('a"b'), ["--class-by", "name", "--class", 'a"b=1,2,3'], lines=("NAME \"a'b\"", "COLOR 1 2 3")),
    made("no colour", USES, ["--color", "red"], error="is no color", status=2)]


def wavy(points):
    return [[i / 1000, (i * i % 7) / 1000] for i in range(points)]


HOLED = [[[0, 0], [9, 0], [9, 9], [0, 9], [0, 0]], [[3, 3], [3, 6], [6, 6], [6, 3], [3, 3]]]
FRAME = feature("Polygon", HOLED)
COMB = feature("Polygon", [[[0, 0], [8, 0], [8, 1], [2, 1], [2, 2], [8, 2], [8, 3], [0, 3], [0, 0]]])
EXTENTS = [
    made("a hole", [FRAME], lines=("6 6",)),
    made("cut at the extent, with a margin", [FRAME, *TWO], ["--extent=1,1,5,5", "--width", "5", "--outline", "1,2,3"], lines=("0.945312 0.945312", "5.054688 3", "3 5.054688", "1 1"), absent=("9 9", "6 6"),
         notes=()),
    made("nothing in the extent", [FRAME], ["--extent=20,20,30,30"], error=r"--extent holds none of the data: they reach over 0,0,9,9"),
    made("the extent in a hole", [FRAME], ["--extent=4,4,5,5"], error=r"--extent holds none of the data: they reach over 0,0,9,9"),
    made("the extent within a polygon", [FRAME], ["--extent=7,7,8,8"], lines=("6.99414 6.99414", "8.00586 8.00586")),
    made("one layer of two in the extent", [FRAME, feature("Point", [20, 20])], ["--extent=0,0,9,9"], notes=("left out: layer made_point: all 1 features, outside of --extent",), lines=('NAME "made_point"',), absent=("20 20",)),
    made("some features outside", [*TWO, feature("Point", [20, 20])], ["--extent=0,0,4,4"], notes=("left out: layer made: 1 features outside of --extent",), absent=("20 20",)),
    made("a line that leaves and comes back", [feature("LineString", [[1, 1], [9, 2], [1, 3]])], ["--extent=0,0,4,4"], lines=("4.023438 1.37793", "4.023438 2.62207"), absent=("9 2",)),
    made("a comb in two pieces", [COMB], ["--extent=4,-1,7,4"], lines=("3.970703 0", "3.970703 2", "3.970703 3"), absent=("2 1", "8 0")),
    made("a preview without a program", TWO, ["--preview", "p.png", "--program", "./nix"], error=r"--program ./nix: .*No such file")]

LIMITS = [
    made("too many features", [feature("Point", [i % 50, i // 50], n=i) for i in range(2001)], ["--items", "n"], error=r"2,001 features, over the limit of 2,000: write --fit"),
    made("too many points", [feature("LineString", wavy(20001))], error=r"20,001 points, over the limit of 20,000: write --fit"),
    made("too many bytes", [feature("LineString", wavy(8000))], error=r"bytes of canonical text, over the limit of 65,536: write --fit"),
    made("too many bytes, fitted", [feature("LineString", wavy(8000))], ["--fit"], notes=(r"simplified by .* m on the ground, .* pixels",)),
    made("too many points, by a distance", [feature("LineString", wavy(20001))], ["--simplify", "3000"], notes=("simplified by 3,000 m",)),
    made("points that can't fit", [feature("Point", [i % 50, i // 50], n=f"n{i}") for i in range(2001)], ["--label", "n", "--fit"],
         error=r"even with the simplest shapes the map has 2,001 features"),
    Case("too many layers", ["--name", "a", *(word for i in range(65) for word in ("--layer", f"{i}.geojson"))],
         {f"{i}.geojson": collection(*TWO) for i in range(65)}, error=r"65 layers, over the limit of 64")]


def two_tables(folder):
    for table in ("one", "two"):
        write_table(folder / "a.gpkg", [feature("Point", [7, 47], name="a"), feature("Point", [8, 46], name="b")], table, 4326)


def shapefile(folder, beside=(".prj", ".cpg")):
    write_table(folder / "a.shp", [feature("LineString", [[2600000, 1200000], [2700000, 1250000]], name="Genève")], **LATIN)
    for ending in {".prj", ".cpg"} - set(beside):
        (folder / f"a{ending}").unlink(missing_ok=True)


def invalid_polygon(folder):
    bow = [[0, 0], [2, 2], [2, 0], [0, 2], [0, 0]]
    write_table(folder / "a.gpkg", [feature("Polygon", [ring]) for ring in (bow, [[0, 0], [2, 0], [1, 1], [0, 0]])], epsg=4326)


def cut_shapefile(folder):
    shapefile(folder)
    (folder / "a.shp").write_bytes((folder / "a.shp").read_bytes()[:110])


def odd_rows(folder, path="a.gpkg"):
    """A polygon with a hole and heights, then one without a geometry."""
    high = [[[x, y, 7] for x, y in ring] for ring in HOLED]
    write_table(folder / path, [feature("Polygon", high, name="Zürich"), feature(None, [], name="nowhere")], epsg=4326)


OSM = """<?xml version="1.0"?><osm version="0.6">
<node id="1" lat="47" lon="7" version="1"/><node id="2" lat="47.1" lon="7.2" version="1"/>
<way id="9" version="1"><nd ref="1"/><nd ref="2"/><tag k="highway" v="primary"/><tag k="name" v="Ring"/></way></osm>"""
GPKG = ["--name", "a", "--layer", "a.gpkg"]
SHP = ["--name", "a", "--layer", "a.shp"]
FORMATS = [
    Case("two tables", GPKG, make=two_tables, error=r"a.gpkg: it has several tables: write --table and one of one, two"),
    Case("one of two tables", [*GPKG, "--table", "two", "--label", "name"], make=two_tables, lines=('NAME "two"', 'TEXT "b"')),
    Case("no such table", [*GPKG, "--table", "three"], make=two_tables, error=r"it has no table three"),
    Case("no such attribute in --where", [*GPKG, "--table", "two", "--where", "nix = 3"], make=two_tables, error=r"a.gpkg: --where 'nix = 3' isn't understood: .*: it has name"),
    Case("nothing meets --where", [*GPKG, "--table", "two", "--where", "name = 'q'"], make=two_tables, error=r"a.gpkg: table two: no feature meets --where \"name = 'q'\""),
    Case("a hole, heights, no geometry in a GeoPackage", [*GPKG, "--label", "name", "--skip", "--color", "1,2,3"], make=odd_rows, lines=("6 6", 'TEXT "Zürich"'),
         notes=("heights were left out", "left out .a.gpkg: feature 2: it has no geometry")),
    Case("a hole, heights, no geometry in a shapefile", [*SHP, "--skip"], make=lambda folder: odd_rows(folder, "a.shp"), lines=("6 6",),
         notes=("heights were left out", "left out .a.shp: feature 2: it has no geometry")),
    Case("a shapefile in Latin-1", [*SHP, "--label", "name"], make=shapefile, lines=('TEXT "Genève"', "7.438632 46.951083")),
    Case("a shapefile that names no encoding", [*SHP, "--label", "name"], make=lambda folder: shapefile(folder, beside=(".prj",)),
         error=r"a.shp: feature 1: attribute name isn't UTF-8: write its --encoding"),
    Case("a shapefile by --encoding", [*SHP, "--label", "name", "--encoding", "ISO-8859-1"], make=lambda folder: shapefile(folder, beside=(".prj",)),
         lines=('TEXT "Genève"',)),
    Case("a shapefile without .prj", SHP, make=lambda folder: shapefile(folder, beside=()), error=r"a.shp: the data name no system: write --source EPSG:"),
    Case("a shapefile by --source", [*SHP, "--source", "EPSG:2056"], make=lambda folder: shapefile(folder, beside=()), lines=("7.438632 46.951083",)),
    Case("a cut shapefile", SHP, make=cut_shapefile, error=r"a.shp: "),
    Case("OpenStreetMap", ["--name", "a", "--layer", "a.osm", "--table", "lines", "--where", "highway = 'primary'", "--label", "name"], {"a.osm": OSM},
         lines=('TEXT "Ring"', "7.2 47.1")),
    Case("a curve", ["--name", "a", "--layer", "a.csv", "--source", "EPSG:4326"], {"a.csv": 'n,WKT\n1,"CIRCULARSTRING (0 0, 1 1, 2 0)"\n'},
         notes=("curves became straight lines",)),
    Case("a polygon that crosses itself", GPKG, make=invalid_polygon, lines=("EXTENT 0 0 2 2",)),
    Case("a polygon that crosses itself, simplified", [*GPKG, "--simplify", "1000"], make=invalid_polygon)]

CASES = GEOMETRY + FILES + TEXTS + CLASSES + EXTENTS + LIMITS + FORMATS
