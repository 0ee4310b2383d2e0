"""Odd inputs of tools/import_mapfile.py, each with the error or map that is wanted."""

from . import agency
from .case import Case

HEAD = 'MAP NAME a EXTENT 0 0 10 10 PROJECTION "init=epsg:4326" END SYMBOL NAME dot TYPE ELLIPSE FILLED TRUE POINTS 1 1 END END\n'
SQUARE = 'FEATURE POINTS 1 1 5 1 5 5 1 5 1 1 END ITEMS "{}" TEXT "x" END'
FILL = "CLASS STYLE COLOR 10 20 30 END END"


def layer(content, name="p", kind="POLYGON"):
    return f"LAYER NAME {name} TYPE {kind} STATUS ON {content} END\n"


def inline(classes, *items, names="kind", others="", name="p"):
    """A layer of squares, one for each of the items, whose names are given."""
    return layer(f'PROCESSING "ITEMS={names}" {others} ' + " ".join([*(SQUARE.format(item) for item in items), classes]), name)


def mapped(case_name, content, words=(), head=HEAD, **wanted):
    return Case(case_name, [*words, "a.map"], {"a.map": head + content + "END\n"}, **wanted)


FILES = [
    Case("no mapfile", ["a.map"], error=r"a.map: MapServer can't read it"),
    Case("an empty mapfile", ["a.map"], {"a.map": ""}, error=r"a.map: MapServer can't read it"),
    mapped("an unknown keyword", "LAYER FOO END", error=r"a.map: MapServer can't read it: .*FOO.*line 2"),
    mapped("a mapfile that is cut", "LAYER NAME", head="MAP ", error=r"a.map: MapServer can't read it"),
    mapped("an INCLUDE that isn't there", 'INCLUDE "b.map"', error=r"a.map: MapServer can't read it: .*b.map"),
    mapped("data that aren't there", layer(f'DATA "nix.shp" {FILL}'), error=r"layer p: MapServer can't open its data: .*nix.*--layers"),
    mapped("a table that isn't there", layer(f'CONNECTIONTYPE OGR CONNECTION "nix.gpkg" DATA "t" {FILL}'), error=r"layer p: MapServer can't"),
    mapped("no layers", "", error=r"a.map: nothing is drawn"),
    mapped("a layer that isn't there", inline(FILL, "a"), ["--layers", "q"], error=r"a.map: it has no layer 'q': it has p")]

SYSTEMS = [
    mapped("no system", inline(FILL, "a"), ["--crs", "4326"], head="MAP NAME a EXTENT 0 0 10 10\n", error=r"it has no PROJECTION, and the map has none: write --source"),
    mapped("no system but --source", inline(FILL, "a"), ["--crs", "4326", "--source", "EPSG:4326"], head="MAP NAME a EXTENT 0 0 10 10\n", lines=("5 5",)),
    mapped("a national system", inline(FILL, "a"), head='MAP NAME a EXTENT 0 0 10 10 PROJECTION "init=epsg:2056" END\n', error=r"a.map: its system is .*2056: write --crs 3857"),
    mapped("an unknown system", inline(FILL, "a"), ["--crs", "4326"], head='MAP NAME a EXTENT 0 0 10 10 PROJECTION "init=epsg:99999" END\n', error=r"a.map"),
    mapped("no extent", inline(FILL, "a"), head='MAP NAME a PROJECTION "init=epsg:4326" END\n', error=r"a.map: it has no EXTENT: write --extent"),
    mapped("no extent but --extent", inline(FILL, "a"), ["--extent=0,0,6,6"], head='MAP NAME a PROJECTION "init=epsg:4326" END\n', lines=("EXTENT 0 0 6 6",)),
    mapped("degrees as metres", inline(FILL, "a"), ["--crs", "3857"], lines=("556597.5 557305.3",)),
    mapped("an extent that isn't on earth", inline(FILL, "a"), head='MAP NAME a EXTENT 0 0 9999 9999 PROJECTION "init=epsg:4326" END\n', error=r"a.map: EXTENT: the point"),
    mapped("data that aren't on earth", layer(f"FEATURE POINTS 1 1 900 1 9 9 1 1 END END {FILL}"), error=r"layer p: shape 1: the point 900 1 lies outside"),
    mapped("a shape across 180 degrees", layer(f"FEATURE POINTS 170 1 -170 1 -170 9 170 1 END END {FILL}"), head=HEAD.replace("0 0 10 10", "-180 0 180 10"), error=r"layer p: shape 1: it crosses 180")]

CLASSES = [
    mapped("regular expressions", inline('CLASSITEM kind CLASS NAME f EXPRESSION /^wo/ STYLE COLOR 1 2 3 END END CLASS NAME g EXPRESSION /x/i STYLE COLOR 4 5 6 END END', "wood", "aXb", "c"),
           lines=("COLOR 1 2 3", "COLOR 4 5 6", 'ITEMS "2"'), notes=("layer p: left out: shapes in no CLASS",)),
    mapped("numbers and lists", inline('CLASSITEM kind CLASS NAME f EXPRESSION ([n] > 5) STYLE COLOR 1 2 3 END END CLASS EXPRESSION {b,c} STYLE COLOR 4 5 6 END END', "a;9", "b;1", "c;2", names="kind,n"),
           lines=("COLOR 1 2 3", 'ITEMS "2"')),
    mapped("a class group", inline('CLASSGROUP "two" CLASS NAME f GROUP "one" STYLE COLOR 1 2 3 END END CLASS NAME g GROUP "two" STYLE COLOR 4 5 6 END END', "a"), lines=("COLOR 4 5 6",), absent=("COLOR 1 2 3",)),
    mapped("a class that is off", inline('CLASSITEM kind CLASS NAME f STATUS OFF EXPRESSION "a" STYLE COLOR 1 2 3 END END CLASS NAME g STYLE COLOR 4 5 6 END END', "a", "b"), lines=("COLOR 4 5 6",), absent=("COLOR 1 2 3",), notes=("shapes of CLASS f, whose STATUS is OFF",)),
    mapped("colours of an attribute", inline("CLASS STYLE COLOR [kind] END END", "#0102ff", "7 8 9"), lines=("COLOR 1 2 255", "COLOR 7 8 9")),
    mapped("no colour in an attribute", inline("CLASS STYLE COLOR [kind] END END", "red"), error=r"layer p: attribute kind is 'red', and a colour is"),
    mapped("a width that is no number", inline("CLASS STYLE OUTLINECOLOR 1 2 3 WIDTH [kind] END END", "wide"), error=r"layer p: attribute kind is 'wide', and a size is a number"),
    mapped("many classes", inline("CLASS STYLE COLOR [kind] END END", *(f"{i} 0 0" for i in range(20))), notes=("its 20 classes became layers of 16 each",), lines=('NAME "p_2"',)),
    mapped("a layer without classes", inline("", "a") + inline(FILL, "a", name="q"), notes=("layer p: left out: all of it: it has no CLASS",)),
    mapped("a layer of another scale", inline(FILL, "a", others="MAXSCALEDENOM 1000") + inline(FILL, "a", name="q"), notes=("layer p: left out: all of it: it isn't drawn at 1:",)),
    mapped("a scale", inline(FILL, "a", others="MAXSCALEDENOM 1000"), ["--scale", "500"], lines=('NAME "p"',)),
    mapped("a class of another scale", inline("CLASS MAXSCALEDENOM 1000 STYLE COLOR 1 2 3 END END CLASS STYLE COLOR 4 5 6 END END", "a"), lines=("COLOR 4 5 6",), absent=("COLOR 1 2 3",)),
    mapped("a class that is substituted", inline('VALIDATION "default_use" "b" "use" "." END CLASSITEM kind CLASS EXPRESSION "%use%" STYLE COLOR 1 2 3 END END', "a", "b"), ["--keep", "kind"], lines=('ITEMS "b"',), absent=('ITEMS "a"',))]

LABELS = [
    mapped("a label by an item", inline("LABELITEM kind CLASS STYLE COLOR 1 2 3 END LABEL SIZE TINY END END", "a"), lines=('TEXT "a"', "SIZE TINY")),
    mapped("a label by a text", inline('CLASS LABEL TEXT "[kind] [n]" SIZE MEDIUM POSITION UR END END', "a;9", names="kind,n"), lines=('TEXT "a 9"', "POSITION UR")),
    mapped("a label by an expression", inline('CLASS LABEL TEXT (upper("[kind]") + tostring([n]/2, "%.1f")) END END', "a;9", names="kind,n"), lines=('TEXT "A4.5"',)),
    mapped("a label that isn't understood", inline('CLASS STYLE COLOR 1 2 3 END LABEL TEXT (javascript("[kind]")) END END', "a"), notes=("a label by TEXT .*isn't understood",)),
    mapped("an unknown attribute in a label", inline('CLASS STYLE COLOR 1 2 3 END LABEL TEXT "[nix]" END END', "a"), error=r"layer p: it has no attribute 'nix': it has"),
    mapped("a label with quotes", inline("LABELITEM kind CLASS LABEL END END", "it's 5`"), lines=("TEXT \"it's 5`\"",)),
    mapped("letters that are boxes", inline("LABELITEM kind CLASS LABEL END END", "Genève"), notes=("drawn as boxes; --ascii .*Genève",)),
    mapped("two labels", inline('LABELITEM kind CLASS LABEL END LABEL TEXT "b" END END', "a"), notes=("left out: LABEL, since a class has one",), lines=('TEXT "a"',)),
    mapped("a mapfile in Latin-1", inline("CLASS NAME \"For\udceat\" STYLE COLOR 1 2 3 END END", "a"), lines=('NAME "Forêt"',), notes=("read as ISO-8859-1",)),
    mapped("quotes in titles", inline("METADATA \"wms_title\" 'a \"b\" c' END " + FILL, "a"), lines=("\"wms_title\" \"a 'b' c\"",), notes=("double quotes became",))]

THIN = layer("FEATURE POINTS 1 1 5 5 END END CLASS STYLE COLOR 1 2 3 WIDTH 1.5 END END", kind="LINE")
ADDRESS = 'WEB METADATA "wms_onlineresource" "http://old/?" END END '
POINTS = " ".join(f'FEATURE POINTS {x} {x} END ITEMS "{name}" END' for x, name in ((1, "a"), (1.01, "b"), (5, "c")))
LOST = [
    *(mapped(f"a layer of type {kind}", inline(FILL, "a") + layer(f"{SQUARE.format('a')} {FILL}", "r", kind),
             notes=("layer r: left out: all of it: it isn't of points",), absent=('NAME "r"',))
      for kind in ("RASTER", "CHART", "QUERY", "TILEINDEX")),
    mapped("another server's picture", inline(FILL, "a") + layer('CONNECTIONTYPE WMS CONNECTION "http://localhost/?"', "r", "RASTER"), notes=("layer r: left out: all of it",)),
    mapped("a wide line", layer("FEATURE POINTS 1 1 5 5 END END CLASS STYLE COLOR 1 2 3 WIDTH 40 END END", kind="LINE"), notes=("changed: WIDTH 40 of STYLE became 16",), lines=("WIDTH 16",)),
    mapped("an outlined line", layer("FEATURE POINTS 1 1 5 5 END END CLASS STYLE COLOR 1 2 3 WIDTH 3 OUTLINECOLOR 9 9 9 OUTLINEWIDTH 2 END END", kind="LINE"), lines=("WIDTH 7", "WIDTH 3")),
    mapped("a symbol", layer('FEATURE POINTS 1 1 5 5 END END CLASS STYLE COLOR 1 2 3 SYMBOL "dot" SIZE 9 END END', kind="POINT"), notes=("changed: SYMBOL dot of STYLE: it is a square",), lines=("SIZE 9",)),
    mapped("sizes of the ground", layer('SIZEUNITS KILOMETERS FEATURE POINTS 1 1 5 5 END END CLASS STYLE COLOR 1 2 3 WIDTH 5 END END', kind="LINE"), lines=("WIDTH 5",)),
    mapped("names twice, with commas, and none", inline(FILL, "a") + inline(FILL, "a") + inline(FILL, "a", name='"a,b"') + layer(SQUARE.format("a") + " " + FILL).replace("NAME p", ""), notes=("its name became p_2", "its name became a_b"), lines=('NAME "layer4"',)),
    mapped("strict, a width that is rounded", THIN, ["--strict"], error=r"a.map: something is changed or left out.*--strict", notes=("layer p: changed: WIDTH 1.5 of STYLE became 2 .a.map, line 2",)),
    mapped("strict, a map without a change", inline(FILL, "a"), ["--strict"], lines=("COLOR 10 20 30",)),
    mapped("the count", THIN, notes=(r"of 12 keywords 7 were carried, 1 changed, 0 left out, 4 have no effect here; of 1 shapes 1 were carried, 0 left out$",)),
    mapped("another scale's width", layer("SYMBOLSCALEDENOM 3000000 FEATURE POINTS 1 1 5 5 END END CLASS STYLE COLOR 1 2 3 WIDTH 4 END END", kind="LINE"), notes=("WIDTH 4 of STYLE, at 1:3,079,006 3.897.*, became 4",)),
    mapped("the old server's address", ADDRESS + inline(FILL, "a"), notes=("map: warning: clients are sent to http://old/., the address of the mapfile: write --address",), lines=('"wms_onlineresource" "http://old/?"',)),
    mapped("an own address", ADDRESS + inline(FILL, "a"), ["--address", "http://new/?"], notes=("became http://new/., by --address",), silent=("warning",), lines=('"wms_onlineresource" "http://new/?"',)),
    mapped("no address", inline(FILL, "a"), notes=("map: warning: clients are sent to http://localhost/wms.: write --address",)),
    mapped("metadata of the service", 'WEB METADATA "wms_srs" "EPSG:25832 EPSG:4326 CRS:84" "wms_contactperson" "Jane" END END ' + inline(FILL, "a"), notes=("map: changed: METADATA wms_srs .*: a farm doesn't answer in EPSG:25832 ", 'map: left out: METADATA wms_contactperson "Jane"')),
    mapped("systems that a farm has", 'WEB METADATA "wms_srs" "EPSG:4326" END END ' + inline(FILL, "a"), silent=("wms_srs",)),
    mapped("labels of clusters", layer('PROCESSING "ITEMS=n" CLUSTER MAXDISTANCE 20 REGION "ellipse" END ' + POINTS + ' CLASS EXPRESSION ("[Cluster_FeatureCount]" != "1") STYLE SYMBOL dot COLOR 1 2 3 SIZE 5 END '
           'LABEL TEXT "[Cluster_FeatureCount]" END END CLASS LABEL TEXT "[n]" END END', kind="POINT"), lines=('TEXT "2"', 'TEXT "c"'), notes=("layer p: changed: CLUSTER: as at 1:",)),
    mapped("pixels instead of places", inline(FILL, "a") + layer(f"TRANSFORM FALSE {SQUARE.format('a')} {FILL}", "q"), notes=("layer q: left out: all of it: its coordinates are pixels",), absent=('NAME "q"',)),
    mapped("a line of an outline's colour", layer("FEATURE POINTS 1 1 5 5 END END CLASS STYLE OUTLINECOLOR 1 2 3 WIDTH 3 END END", kind="LINE"), lines=("COLOR 1 2 3", "WIDTH 3"), silent=("changed: ", "left out: ")),
    mapped("the end of a line", layer("FEATURE POINTS 1 1 5 5 END END CLASS STYLE COLOR 1 2 3 END STYLE GEOMTRANSFORM 'end' SYMBOL dot COLOR 4 5 6 END END", kind="LINE"), absent=("COLOR 4 5 6",), notes=("layer p: left out: STYLE with GEOMTRANSFORM",)),
    mapped("a picture as a symbol", inline(FILL, "a") + 'SYMBOL NAME pic TYPE PIXMAP IMAGE "a.png" END ' + layer("FEATURE POINTS 1 1 END END CLASS STYLE SYMBOL pic END END", "q", "POINT"), notes=("layer q: left out: STYLE of a point without a COLOR", "layer q: left out: shapes that nothing here draws"), absent=('NAME "q"',)),
    mapped("letters of --ascii", inline("LABELITEM kind CLASS LABEL END END", "Genève"), ["--ascii"], lines=('TEXT "Geneve"',), notes=("layer p: changed: a label is in other letters, by --ascii",)),
    mapped("one resolution for two", inline("CLASS STYLE OUTLINECOLOR 1 2 3 WIDTH 2 END END", "a"), head=HEAD + "RESOLUTION 144 DEFRESOLUTION 72\n", lines=("WIDTH 4",)),
    mapped("a part of it", inline(FILL, "a"), ["--extent=0,0,2,2"], lines=("EXTENT 0 0 2 2", "2.011719 1"), absent=("5 5",)),
    mapped("a part with nothing", inline(FILL, "a"), ["--extent=8,8,9,9"], error=r"a.map: nothing is drawn: layer p: left out: shapes outside of the extent"),
    Case("a comment and an included file", ["a.map"], {"b.inc": "\nANGLE 30\n", "a.map": HEAD + "/* LAYER\n OPACITY */ # OPACITY\n" + 'INCLUDE "b.inc"\n' + inline(FILL, "a") + "END"}, notes=("map: left out: ANGLE 30 .b.inc, line 2",), silent=("OPACITY",)),
    mapped("nine styles", inline("CLASS " + "STYLE COLOR 1 2 3 END " * 9 + "END", "a"), error=r"layer p: class : 9 styles, over the limit of 8: draw it with fewer"),
    mapped("a null shape", layer("FEATURE END " + SQUARE.format("a") + " " + FILL), lines=("5 5",))]


def small(folder):
    agency.write(folder, columns=4, rows=2, depth=3, roads=9, towns=5)


NO_DATUM = 'MAP NAME a EXTENT 2600000 1200000 2700000 1250000 PROJECTION "init=epsg:2056" END LAYER NAME c TYPE POLYGON DATA "communes.shp" '
NET = 'MAP NAME a EXTENT 2600000 1200000 2640000 1230000 PROJECTION "init=epsg:2056" END ' + "".join(
    f"LAYER NAME {name} TYPE LINE {data} CLASS STYLE COLOR 1 2 3 END END END "
    for name, data in (
        ("t", "CONNECTIONTYPE OGR CONNECTION 'net.gpkg' DATA 'roads'"), ("s", "CONNECTIONTYPE OGR CONNECTION 'net.gpkg' DATA \"SELECT * FROM roads WHERE class = 'A'\""),
        ("u", "CONNECTIONTYPE UNION CONNECTION 't,s'"))) + "END"
AGENCY = [
    Case("an agency's map", ["--crs", "3857", "--fit", "--ascii", "agency.map"], make=small, lines=('"wms_title" "Die Gemeinden"', 'TEXT "Geneve 0"', 'NAME "Autobahn"')),
    Case("an agency's map, one layer", ["--crs", "4326", "--layers", "towns", "agency.map"], make=small, lines=('NAME "towns"',), absent=('NAME "roads"',)),
    Case("attributes kept", ["--crs", "4326", "--layers", "communes", "--keep", "USE", "agency.map"], make=small, lines=('PROCESSING "ITEMS=USE,class"', 'ITEMS "Wald;1"')),
    Case("an attribute that isn't there, kept", ["--crs", "4326", "--keep", "NIX", "agency.map"], make=small, error=r"agency.map: no layer has the attribute 'NIX' of --keep"),
    Case("a union of layers", ["--crs", "4326", "--layers", "both", "a.map"], {"a.map": NO_DATUM + "CLASS STYLE COLOR 1 2 3 END END END "
         "LAYER NAME both TYPE POLYGON CONNECTIONTYPE UNION CONNECTION 'c' CLASS STYLE COLOR 4 5 6 END END END END"}, make=small, lines=("COLOR 4 5 6",), absent=("COLOR 1 2 3",)),
    Case("a shapefile in Latin-1 without ENCODING", ["--crs", "4326", "a.map"], {"a.map": NO_DATUM + "LABELITEM 'NAME' CLASS LABEL END END END END"}, make=small, lines=('TEXT "Genève 0"',), notes=("read as ISO-8859-1",)),
    Case("a filter", ["--crs", "4326", "--keep", "USE", "a.map"], {"a.map": NO_DATUM + 'FILTER ("[USE]" = "Wald") CLASS STYLE COLOR 1 2 3 END END END END'}, make=small, lines=('ITEMS "Wald"',), absent=('ITEMS "Fels"',)),
    Case("an expression that can't be read", ["--crs", "4326", "a.map"], {"a.map": NO_DATUM + "CLASS EXPRESSION ([POP] 3 4) STYLE COLOR 1 2 3 END END END END"}, make=small,
         error=r"layer c: shape 1: MapServer can't choose its class: .*repair the EXPRESSION"),
    Case("shapes outside of the extent", ["--crs", "4326", "a.map"], {"a.map": NO_DATUM.replace("2700000 1250000", "2620000 1220000") + "CLASS STYLE COLOR 1 2 3 END END END END"}, make=small,
         notes=("layer c: left out: shapes outside of the extent .7 times", "of 8 shapes 1 were carried, 7 left out")),
    Case("shapes outside of the extent, of other kinds", ["--crs", "4326", "a.map"], {"a.map": NET}, make=small,
         notes=("layer t: left out: shapes outside of the extent .6 times", "layer s: left out: shapes outside of the extent .2 times", "layer u: left out: shapes outside of the extent .8 times"))]

CASES = FILES + SYSTEMS + CLASSES + LABELS + LOST + AGENCY
