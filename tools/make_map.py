#!/usr/bin/env python3
"""Makes a self-contained mapfile for wfarm from data that GDAL reads: GeoJSON, GeoPackage, shapefile, a table
with points.

    python3 tools/make_map.py --name county --title "The county" --fit \\
        --layer communes.gpkg --table communes --class-by use --palette soft --outline 90,90,90 \\
        --label name --layer roads.shp --where "class IN ('A', 'B')" --color 90,130,220 --width 3 > county.map

Each --layer begins a layer; the options after it, up to the next --layer, are that layer's. Layers are drawn
in the order in which a request lists them. Data with more than one kind of geometry become a layer for each
kind (`roads_line`, `roads_point`). The data are reprojected from their own system, or from that of --source,
to longitude and latitude in degrees, or by --crs 3857 to metres of the Mercator projection.

Features have no attributes on the map but those of --items; labels and classes don't need them. Colours by an
attribute: --class-by alone gives each value a colour of the palette, --class VALUE=COLOR colours some values,
and --ranges cuts numbers into classes.

A feature that can't be drawn ends the tool with a line that names it; --skip leaves such features out and
counts them. What is changed, simplified or left out is told on standard error. A map over a limit of wfarm
isn't written: --fit finds the least simplification at which it is within them. Borders that shapes share stay
shared.

The status is 0 where the map is written, 1 after an error, 2 on a bad command line. It needs Debian's
python3-gdal and, for filled polygons and to simplify, python3-shapely.
"""

import argparse
import contextlib
import json
import math
import re
import sys
from bisect import bisect_right
from dataclasses import dataclass
from functools import partial
from itertools import cycle, pairwise
from pathlib import Path

from maps import fitting, options, preview, texts
from maps.cutting import cut
from maps.errors import MapError, Notes, library, saying
from maps.geometry import DIGITS, bounds, checked, longer_side, meet, on_grid, whole_extent, widened
from maps.model import (LABEL_SIZES, LEAST_POINTS, MOST_CLASSES, POSITIONS, Class, Feature, Label, Layer, Map,
                        Style)

KINDS = {"POINT": "POINT", "LINESTRING": "LINE", "POLYGON": "POLYGON"}  # by their names of GDAL
# (of the last three the colours between are mixed)
PALETTES = {
    "soft": "8dd3c7 ffffb3 bebada fb8072 80b1d3 fdb462 b3de69 fccde5 d9d9d9 bc80bd ccebc5 ffed6f a6cee3 "
            "e5c494 cab2d6",
    "bright": "e41a1c 377eb8 4daf4a 984ea3 ff7f00 ffd92f a65628 f781bf 1b9e77 666666 66c2a5 1f78b4 b2df8a "
              "fb9a99 6a3d9a",
    "greens": "f7fcf5 00441b", "blues": "f7fbff 08306b", "heat": "ffffcc fd8d3c 800026"}
LISTED = ("soft", "bright")


# ---- what is asked for

class OfLayer(argparse.Action):
    """An option of the last layer."""

    usual = {}  # what the options of a layer are if left out

    def __call__(self, parser, namespace, value, option=None):
        if not namespace.layers:
            parser.error(f"{option} stands before the first --layer")
        layer = namespace.layers[-1]
        setattr(layer, self.dest, [*layer.classes, value] if self.dest == "classes" else value)


def class_of(text):
    """A class: the value of --class-by, and the color that features with it are drawn in."""
    value, equals, shade = text.rpartition("=")
    if not equals:
        raise argparse.ArgumentTypeError(f"{text!r} is no class: VALUE=R,G,B")
    return value, options.color(shade)


def ranges_of(text):
    with contextlib.suppress(ValueError):
        breaks = [float(piece) for piece in text.split(",")]
        if all(map(math.isfinite, breaks)) and breaks == sorted(set(breaks)):
            return breaks
    raise argparse.ArgumentTypeError(f"{text!r} isn't a list of numbers that rise, as 100,500,1000")


def arguments():
    parser = options.parser_of(__doc__)
    add = parser.add_argument
    add("--name", required=True, help="the map's name")
    add("--title", help="its title (the name)")
    add("--abstract", default="", help="what it shows")
    add("--address", default="http://localhost/wms?", help="the address that clients will use")
    add("--crs", choices=DIGITS, default="4326", help="degrees, or metres of the Mercator projection")
    add("--extent", type=options.extent, metavar="MINX,MINY,MAXX,MAXY",
        help="in the map's units (that of the data); a negative one as --extent=-3,51,-2,52")
    add("--skip", action="store_true", help="leave out features that can't be drawn, and count them")
    options.add_common(parser)
    add("--layer", action="append", dest="layers", metavar="FILE", required=True, help="data that GDAL reads",
        type=lambda path: argparse.Namespace(path=path, **OfLayer.usual))
    group = parser.add_argument_group("options of a layer")

    def of_layer(name, said, default=None, **how):
        action = group.add_argument(name, action=OfLayer, help=said, **how)
        OfLayer.usual[action.dest] = default
        action.default = argparse.SUPPRESS

    of_layer("--table", "the table of the file, where it has several", metavar="NAME")
    of_layer("--where", "which features, as in SQL: \"use = 'forest'\"", metavar="CONDITION")
    of_layer("--source", "the data's system (that which the data name)", metavar="EPSG:N")
    of_layer("--encoding", "of a shapefile's texts, as ISO-8859-1 or CP1252", metavar="NAME")
    of_layer("--layer-name", "its name (the table's, or the file's)", metavar="NAME")
    of_layer("--layer-title", "its title (its name)", metavar="TEXT")
    of_layer("--items", "the attributes to keep (none)", [], type=options.names, metavar="NAME,..")
    of_layer("--label", "the attribute that is written beside a feature", metavar="NAME")
    of_layer("--label-size", "(MEDIUM)", "MEDIUM", choices=LABEL_SIZES)
    of_layer("--label-position", "(CC)", "CC", choices=POSITIONS)
    of_layer("--label-priority", "which label stays where two meet: the higher (1)", 1,
             type=options.whole(1, 10))
    of_layer("--label-color", "(black)", (0, 0, 0), type=options.color, metavar="COLOR")
    of_layer("--color", "R,G,B or #rrggbb", type=options.color)
    of_layer("--outline", "of polygons", type=options.color, metavar="COLOR")
    of_layer("--width", "of lines and outlines, in pixels (1)", 1, type=options.whole(1, 16))
    of_layer("--size", "of points, in pixels (5)", 5, type=options.whole(1, 64))
    of_layer("--class-by", "the attribute that chooses a feature's color", metavar="NAME")
    of_layer("--class", "may be repeated; others have --color", [], dest="classes", type=class_of,
             metavar="VALUE=COLOR")
    of_layer("--ranges", "numbers that classes of --class-by begin at", type=ranges_of, metavar="N,..")
    of_layer("--palette", "of --class-by (soft, and heat with --ranges)", choices=PALETTES)
    return parser.parse_args()


# ---- the data

@dataclass
class Record:
    """A feature of the data: where it comes from, its parts by kind, its attributes' texts by name."""

    place: str
    parts: dict
    values: dict


class Source:
    """The features of one table of a file."""

    def __init__(self, gdal, asked, notes):
        self.gdal, self.asked, self.notes, self.path = gdal, asked, notes, asked.path
        given = [f"ENCODING={asked.encoding}"] if asked.encoding else []
        try:
            self.data = gdal.gdal.OpenEx(asked.path, gdal.gdal.OF_VECTOR, open_options=given)
        except RuntimeError as error:
            raise self.wrong(unread(gdal, asked.path, error)) from error
        self.table = self.chosen()
        definition = self.table.GetLayerDefn()
        self.fields = [definition.GetFieldDefn(i).GetName() for i in range(definition.GetFieldCount())]
        self.wanted = dict.fromkeys([*asked.items, *filter(None, [asked.label, asked.class_by])])
        for wanted in self.wanted:
            if wanted not in self.fields:
                raise self.wrong(f"it has no attribute {wanted!r}: it has {', '.join(self.fields) or 'none'}")

    def wrong(self, what):
        return MapError(f"{self.path}: {what}")

    def chosen(self):
        names = [self.data.GetLayer(i).GetName() for i in range(self.data.GetLayerCount())]
        if not names:
            raise self.wrong("it has no table: is it data with geometry?")
        wanted = names[0] if self.asked.table is None and len(names) == 1 else self.asked.table
        if wanted in names:
            return self.data.GetLayer(names.index(wanted))
        wrong = "it has several tables" if self.asked.table is None else f"it has no table {self.asked.table}"
        raise self.wrong(f"{wrong}: write --table and one of {', '.join(names)}")

    def transformation(self, crs):
        """From the data's system to the map's, None where they are one."""
        osr = self.gdal.osr
        target = osr.SpatialReference()
        target.ImportFromEPSG(int(crs))
        source = self.table.GetSpatialRef()
        if self.asked.source:
            source = osr.SpatialReference()
            with saying(f"{self.path}: {self.asked.source} is no system: write --source EPSG: and a number",
                        RuntimeError):
                source.SetFromUserInput(self.asked.source)
        if source is None:
            raise self.wrong("the data name no system: write --source EPSG: and its number")
        for system in (source, target):
            system.SetAxisMappingStrategy(osr.OAMS_TRADITIONAL_GIS_ORDER)
        return None if source.IsSame(target) else osr.CoordinateTransformation(source, target)

    def records(self, crs, skip):
        change = self.transformation(crs)
        for place, feature in enumerate(self.features(), 1):
            name = f"{self.path}: feature {place}"
            try:
                parts = self.parts_of(feature, change, crs, name)
            except MapError as error:
                if not skip:
                    raise MapError(f"{error}, or write --skip") from error
                self.notes.add("a feature that can't be drawn was left out", str(error))
                continue
            values = {wanted: texts.plain(self.text_of(feature, wanted, name), self.notes, name)
                      for wanted in self.wanted}
            yield Record(name, parts, values)

    def features(self):
        """What of the table meets --where."""
        where = self.asked.where
        try:
            self.table.SetAttributeFilter(where)
            # (no list(): it asks for a length, which OpenStreetMap's has none of)
            rows = [feature for feature in self.table]
        except RuntimeError as error:
            if where and self.is_readable():
                raise self.wrong(f"--where {where!r} isn't understood: {error}: it has "
                                 f"{', '.join(self.fields) or 'no attributes'}") from error
            raise self.wrong(unread(self.gdal, self.path, error)) from error
        if not rows:
            why = "it has no feature to draw: look at --table"
            why = f"no feature meets --where {where!r}" if where else why
            raise self.wrong(f"table {self.table.GetName()}: {why}")
        return rows

    def is_readable(self):
        """Whether the table can be read without --where."""
        with contextlib.suppress(RuntimeError):
            self.table.SetAttributeFilter(None)
            self.table.ResetReading()
            self.table.GetNextFeature()
            return True
        return False

    def parts_of(self, feature, change, crs, place):
        geometry = feature.GetGeometryRef()
        if geometry is None or geometry.IsEmpty():
            raise MapError(f"{place}: it has no geometry: leave it out by --where")
        if geometry.Is3D():
            self.notes.add("heights were left out", place)
        if geometry.HasCurveGeometry():
            geometry = geometry.GetLinearGeometry()
            self.notes.add("curves became straight lines", place)
        parts = {}
        for kind, points in raw_parts(geometry, place):
            if change is not None:
                with saying(f"{place}: it can't be reprojected: @: give the data's own system (--source)",
                            RuntimeError):
                    points = change.TransformPoints([point[:2] for point in points])
            parts.setdefault(kind, []).append(checked(points, crs, kind, place))
        return parts

    def text_of(self, feature, name, place):
        """The attribute as a text, empty where it is missing."""
        ogr = self.gdal.ogr
        index = self.fields.index(name)
        definition = feature.GetFieldDefnRef(index)
        if not feature.IsFieldSetAndNotNull(index):
            return ""
        if definition.GetType() == ogr.OFTBinary:
            raise MapError(f"{place}: attribute {name} is binary: keep another")
        if definition.GetSubType() == ogr.OFSTBoolean:
            return "true" if feature.GetFieldAsInteger(index) else "false"
        if definition.GetTypeName().endswith("List"):
            return ",".join(map(str, feature.GetField(index)))
        with saying(f"{place}: attribute {name} isn't UTF-8: write its --encoding, as ISO-8859-1",
                    UnicodeError, AttributeError):
            text = feature.GetFieldAsString(index)
            text.encode()
            return text


def unread(gdal, path, error):
    """Why a file can't be read, and which feature of GeoJSON is the first that can't."""
    text = str(error).strip()
    if not Path(path).exists() and not re.match("/vsi|[A-Za-z0-9]{2,}:", path):
        return "there is no such file"
    with contextlib.suppress(OSError, ValueError, KeyError, TypeError, AttributeError):
        listed = json.loads(Path(path).read_text(encoding="utf-8-sig"))["features"]
        for place, entry in enumerate(listed, 1):
            shape, made = entry.get("geometry"), None
            with contextlib.suppress(RuntimeError):
                made = gdal.ogr.CreateGeometryFromJson(json.dumps(shape))
            if shape is not None and made is None:
                return f"feature {place}: its geometry is malformed: repair it ({text})"
    return f"GDAL can't read it: {text}"


def raw_parts(geometry, place):
    """The parts of a geometry, each with its kind."""
    name = geometry.GetGeometryName()
    inner = [geometry.GetGeometryRef(i) for i in range(geometry.GetGeometryCount())]
    if name in [f"MULTI{kind}" for kind in KINDS]:
        for member in inner:
            yield from raw_parts(member, place)
    elif name not in KINDS:
        raise MapError(f"{place}: it is a {name}: split it into points, lines and polygons (ogr2ogr "
                       f"-explodecollections -unsetFid)")
    else:
        kind = KINDS[name]
        least = 3 if kind == "POLYGON" else LEAST_POINTS[kind]  # a ring that isn't closed is, later
        for part in inner if kind == "POLYGON" else [geometry]:
            points = part.GetPoints() or ()
            if len(points) < least:
                raise MapError(f"{place}: a {kind.lower()} with {len(points)} points, and it needs {least}: "
                               f"repair it")
            yield kind, points


# ---- classes

def shaded(names, palette):
    """Each name with a colour of a palette."""
    colors = [options.color(f"#{text}") for text in PALETTES[palette].split()]
    if palette in LISTED:
        return list(zip(names, cycle(colors)))
    return [(name, mixed(colors, i / max(1, len(names) - 1))) for i, name in enumerate(names)]


def mixed(colors, share):
    """The colour at a share of the way along the colours."""
    along = share * (len(colors) - 1)
    first = min(int(along), len(colors) - 2)
    return tuple(round(a + (b - a) * (along - first)) for a, b in zip(colors[first], colors[first + 1]))


def range_of(text, breaks):
    """The index of the range that the number is in, or None."""
    with contextlib.suppress(ValueError):
        return None if math.isnan(float(text)) else bisect_right(breaks, float(text))


class Classes:
    """The classes of a layer: names, colours, and which one a feature is in. The last is for all others."""

    def __init__(self, asked, records, notes):
        self.asked = asked
        values = {record.values.get(asked.class_by, "") for record in records}
        self.named = []  # (name, colour) of each
        if asked.class_by is None and (asked.classes or asked.ranges or asked.palette):
            raise MapError(f"{asked.path}: --class, --ranges and --palette need --class-by and an attribute")
        if asked.ranges:
            between = [f"{a:g} to {b:g}" for a, b in pairwise(asked.ranges)]
            names = [f"under {asked.ranges[0]:g}", *between, f"{asked.ranges[-1]:g} and more"]
            self.named = shaded(names, asked.palette or "heat")
        elif asked.classes:
            self.named = [(texts.plain(name, notes, "--class"), shade) for name, shade in asked.classes]
            for name, _ in self.named:
                if name not in values:
                    notes.add(f"{asked.path}: no feature has {asked.class_by} {name!r}")
        elif asked.class_by is not None:
            names = sorted(values - {""})
            if len(names) >= MOST_CLASSES:
                raise MapError(f"{asked.path}: attribute {asked.class_by} has {len(names)} values, and "
                               f"a layer at most {MOST_CLASSES - 1} classes by value: name the most "
                               "important by --class, or cut numbers by --ranges")
            self.named = shaded(names, asked.palette or "soft")
        self.index = {name: i for i, (name, _) in enumerate(self.named)}
        self.others = [record for record in records if self.of(record) == len(self.named)]
        if asked.class_by is not None and self.others:
            notes.add(f"{asked.path}: features in no class of {asked.class_by} have --color",
                      self.others[0].place, len(self.others))

    def of(self, record):
        """The index of the record's class, that behind the last for all others."""
        text = record.values.get(self.asked.class_by)
        index = range_of(text, self.asked.ranges) if self.asked.ranges else self.index.get(text)
        return len(self.named) if index is None else index

    def drawn(self, kind, layer_name):
        asked, label = self.asked, None
        if asked.label is not None:
            label = Label(asked.label_color, asked.label_size, asked.label_position, asked.label_priority)
        rest = [("other" if self.named else layer_name, None)] if self.others or not self.named else []
        return [Class(name, [style_of(kind, asked, shade)], label) for name, shade in [*self.named, *rest]]


def style_of(kind, asked, shade):
    """How a class is drawn in the color of a class, or else in that of the layer."""
    fill = shade or asked.color
    if kind == "LINE":
        return Style(color=fill or (60, 60, 60), width=asked.width)
    if kind == "POINT":
        return Style(color=fill or (200, 40, 40), size=asked.size)
    if fill is None and asked.outline is None:
        return Style(color=(220, 220, 205), outline=(110, 110, 100), width=asked.width)
    return Style(color=fill, outline=asked.outline, width=asked.width)


# ---- the map

def layers_of(gdal, asked, common, notes):
    """The layers of one --layer, one for each kind of geometry."""
    records = list(Source(gdal, asked, notes).records(common.crs, common.skip))
    if not records:
        raise MapError(f"{asked.path}: no feature is left to draw: --skip left out all of them")
    classes = Classes(asked, records, notes)
    name = asked.layer_name or (Path(asked.path).stem if asked.table is None else asked.table)
    name = texts.name(name, notes, "a layer's name")
    kinds = [kind for kind in KINDS.values() if any(kind in record.parts for record in records)]
    for kind in kinds:
        own = name if len(kinds) == 1 else f"{name}_{kind.lower()}"
        title = texts.plain(asked.layer_title or own, notes, "a layer's title")
        items = [texts.name(item, notes, "an attribute's name") for item in asked.items]
        yield Layer(own, title, kind, classes.drawn(kind, own),
                    features_of(kind, records, classes, common, notes), items)


def features_of(kind, records, classes, common, notes):
    asked = classes.asked
    box = [side * 10**common.last_digit for side in common.extent or ()]
    near = box and widened(box, longer_side(box) / 7)  # the margin, by which it is cut later, is less
    features = []
    for record in records:
        parts = record.parts.get(kind)
        if parts is None:
            continue
        grid = on_grid(parts, kind, common.last_digit)
        if len(grid) < len(parts):
            notes.add("a part is smaller than the last digit and was left out", record.place,
                      len(parts) - len(grid))
        if grid:
            told = notes if not near or meet(bounds(grid), near) else Notes()
            text = record.values.get(asked.label, "")
            text = texts.label(text, common.ascii, told, record.place)
            values = [texts.value(record.values[item], told, record.place) for item in asked.items]
            features.append(Feature(grid, classes.of(record), values, text))
    return features


def the_map(common, notes):
    gdal = library("osgeo", "python3-gdal")
    for part in ("gdal", "ogr", "osr"):
        library(f"osgeo.{part}", "python3-gdal").UseExceptions()
    gdal.gdal.PushErrorHandler("CPLQuietErrorHandler")
    common.last_digit = DIGITS[common.crs] if common.digits is None else common.digits
    layers = [layer for asked in common.layers for layer in layers_of(gdal, asked, common, notes)]
    said = common.name, common.title or common.name, common.abstract, common.address
    own_texts = [texts.plain(text, notes, "the map's texts") for text in said]
    made = Map(*own_texts, common.crs, common.last_digit, (), layers)
    if common.extent is None and not made.parts():
        raise MapError("nothing is left to draw: write more --digits, or look at --where")
    sides = common.extent or [side / 10**common.last_digit for side in bounds(made.parts())]
    made.extent = whole_extent(sides, common.last_digit)
    return cut(made, notes) if common.extent else made


def main():
    common = arguments()
    notes = Notes()
    try:
        made = the_map(common, notes)
        written = fitting.finished(made, common, notes)
        if common.query is not None:
            common.query.write_text(preview.picture_query(made, common.side) + "\n", encoding="ascii")
        if common.preview is not None:
            painter = preview.Painter(common.program, common.side)
            whole = fitting.Fitting(made, argparse.Namespace(apart=True, by_class=False))
            preview.write(common.preview, painter, made, written, partial(painter.source, whole))
    except (MapError, OSError) as error:
        sys.exit(f"error: {error}")
    fitting.tell(written, notes)
    sys.stdout.buffer.write(written.text.encode())


if __name__ == "__main__":
    main()
