#!/usr/bin/env python3
"""Makes a self-contained mapfile for wfarm from a MapServer mapfile with its data outside.

    python3 tools/import_mapfile.py --crs 3857 --fit --ascii agency.map > own.map

MapServer's own library reads the mapfile and its data: INCLUDE, shapefiles, tile indexes, OGR with SQL,
UNION, FILTER, EXPRESSION of every kind, ENCODING, projections. Each layer comes out as it is drawn at one
scale (--scale, else that of the whole extent on 1,024 pixels). A class that draws something becomes a class
here, chosen by an attribute `class` that the importer makes; a layer with more than 16 becomes several. The
map is written in its own system if that is EPSG:4326 or EPSG:3857, else in that of --crs.

Symbols, hatches, fonts, halos, dashes, opacity, joins and raster layers are lost. Every keyword that is
changed or left out is a line on standard error, and in the file of --report, with its layer and its place;
the last line counts keywords and shapes. With --strict a change ends the tool with status 1, and no map is
written. --fit finds the least simplification at which the map is within the limits of wfarm. Borders that
shapes share stay shared.

It needs Debian's python3-mapscript and python3-shapely.
"""

import contextlib
import itertools
import os
import sys
from dataclasses import replace
from pathlib import Path

from maps import account, fitting, mapfile, options, preview, texts
from maps.account import Teller, drop_block
from maps.cutting import cut
from maps.errors import MapError, Notes, library, saying
from maps.geometry import DIGITS, checked, on_grid, whole_extent
from maps.model import LEAST_POINTS, MOST_CLASSES, MOST_PIXELS, Feature, Layer, Map
from maps.symbology import Symbology, has_scale

OWN = {"4326": "init=epsg:4326", "3857": "init=epsg:3857"}
OFFERED = {"4326": {"CRS:84", "EPSG:4326"}, "3857": {"EPSG:3857"}}  # the systems in which a farm answers
ANYWHERE = 1e8  # half a side of a box around the data of a layer that doesn't tell its extent
READ_BY_LIBRARY = ("ITEMS=", "NATIVE_FILTER=", "CLOSE_CONNECTION=")  # of PROCESSING


def arguments():
    parser = options.parser_of(__doc__)
    add = parser.add_argument
    add("mapfile", help="the mapfile, beside which its data are")
    add("--crs", choices=OWN, help="degrees (4326), or metres of the Mercator projection (3857)")
    add("--source", metavar="EPSG:N", help="the system of a map or layer that names none")
    add("--scale", type=options.whole(1, 999_999_999), metavar="N",
        help="draw it as at 1:N (the whole extent on 1,024 pixels)")
    add("--extent", type=options.extent, metavar="MINX,MINY,MAXX,MAXY",
        help="in the units of --crs (that of the map); a negative one as --extent=-3,51,-2,52")
    add("--layers", type=options.names, metavar="NAME,..", help="these layers alone")
    add("--keep", type=options.names, default=[], metavar="ITEM,..", help="attributes to keep (none)")
    add("--address", metavar="URL",
        help="the address that clients will use (the map's wms_onlineresource, with a warning)")
    add("--report", type=Path, metavar="FILE", help="where to write, too, what was changed and left out")
    add("--strict", action="store_true", help="status 1, and no map, if anything was changed or left out")
    options.add_common(parser)
    return parser.parse_args()


class Importer:
    """Reads one mapfile by MapServer's library."""

    def __init__(self, asked, notes):
        self.asked, self.notes = asked, notes
        self.script = library("mapscript", "python3-mapscript")
        self.errors = (OSError, EOFError, TypeError, MemoryError, self.script.MapServerError,
                       self.script.MapServerChildError)
        with saying(f"{asked.mapfile}: MapServer can't read it: @", *self.errors):
            self.map = self.script.mapObj(asked.mapfile)
            self.map.applyDefaultSubstitutions()
        self.written = mapfile.written(asked.mapfile)
        self.teller = Teller(notes, "map")
        self.shapes_read = self.shapes_drawn = 0
        self.own = self.map.getProjection()
        self.crs = asked.crs or crs_of(self.own)
        if self.crs is None:
            raise self.wrong(f"its system is {self.own or 'not named'}: write --crs 3857 or --crs 4326")
        self.target = self.script.projectionObj(OWN[self.crs])
        self.digits = DIGITS[self.crs] if asked.digits is None else asked.digits
        self.extent = self.sides()
        self.width, self.scale = self.width_and_scale()
        self.map.scaledenom = self.scale
        self.kept = {}  # the attributes that a layer keeps, by its name
        self.kinds = {getattr(self.script, f"MS_LAYER_{kind}"): kind for kind in LEAST_POINTS}

    def wrong(self, what):
        return MapError(f"{self.asked.mapfile}: {what}")

    def system(self, text, what):
        """The system of a map or layer, that of --source if it names none; None where it is the map's own."""
        if crs_of(text) == self.crs:
            return None
        text = text or (f"init={self.asked.source.lower()}" if self.asked.source else "")
        if not text:
            raise MapError(f"{what}: it has no PROJECTION, and the map has none: "
                           "write --source EPSG: and its number")
        with saying(f"{what}: the system {text} isn't known: @", *self.errors):
            return self.script.projectionObj(text)

    def sides(self):
        """The extent of the map that is written, in its units."""
        if self.asked.extent:
            return self.asked.extent
        box = self.map.extent
        if box.minx >= box.maxx or box.miny >= box.maxy:
            raise self.wrong("it has no EXTENT: write --extent")
        system = self.system(self.own, self.asked.mapfile)
        box = self.reprojected((box.minx, box.miny, box.maxx, box.maxy), system, self.target)
        sides = box.minx, box.miny, box.maxx, box.maxy
        checked([sides[:2], sides[2:]], self.crs, "POINT", f"{self.asked.mapfile}: EXTENT")
        return sides

    def reprojected(self, sides, source, target):
        """The box with these sides in another system, or as it is where either is None."""
        box, name = self.script.rectObj(*sides), self.asked.mapfile
        if source is not None and target is not None:
            with saying(f"{name}: its extent can't be reprojected: @: write --extent", *self.errors):
                box.project(source, target)
        return box

    def width_and_scale(self):
        """The width of the extent in the map's own units, and the scale: --scale, or that of the whole."""
        system = self.system(self.own, self.asked.mapfile)
        box = self.reprojected(self.extent, self.target, system)
        width, height = box.maxx - box.minx, box.maxy - box.miny
        self.map.units = (system or self.target).getUnits()
        self.map.setSize(*(max(2, round(MOST_PIXELS * it / max(width, height))) for it in (width, height)))
        self.map.setExtent(box.minx, box.miny, box.maxx, box.maxy)
        return width, self.asked.scale or self.map.scaledenom

    def imported(self):
        self.tell_of_map()
        layers = [made for entry in self.chosen_layers() for made in self.layers_of(*entry)]
        if not layers:
            why = [line for line in self.notes.lines() if line.startswith("layer ")]
            raise self.wrong(f"nothing is drawn: {'; '.join(why) or 'it has no layers'}")
        for item in self.asked.keep:
            if not any(item in items for items in self.kept.values()):
                raise self.wrong(f"no layer has the attribute {item!r} of --keep")
        name, metadata = self.map.name or "map", self.map.web.metadata
        title, abstract, address = (first_of(metadata, it) for it in ("title", "abstract", "onlineresource"))
        said = (name, title or name, abstract, self.asked.address or address or "http://localhost/wms?")
        own_texts = [texts.plain(text, self.teller, "the map's texts") for text in said]
        whole = Map(*own_texts, self.crs, self.digits, whole_extent(self.extent, self.digits),
                    with_own_names(layers, self.notes))
        if not self.asked.extent:
            return whole
        result = cut(whole, self.teller)
        self.shapes_drawn -= len(whole.features()) - len(result.features())
        return result

    def chosen_layers(self):
        """(name, layer, its block) of the layers that are asked for; the others aren't counted."""
        layers, blocks = [self.map.getLayer(i) for i in range(self.map.numlayers)], self.written.all("LAYER")
        if [layer.numclasses for layer in layers] != [len(block.all("CLASS")) for block in blocks]:
            raise self.wrong("its LAYER and CLASS blocks aren't those that MapServer reads")
        names = [layer.name or f"layer{place}" for place, layer in enumerate(layers, 1)]
        wanted = names if self.asked.layers is None else self.asked.layers
        for name in wanted:
            if name not in names:
                raise self.wrong(f"it has no layer {name!r}: it has {', '.join(names)}")
        others = [block for name, block in zip(names, blocks) if name not in wanted]
        self.written.blocks = [block for block in self.written.blocks if block not in others]
        return [entry for entry in zip(names, layers, blocks) if entry[0] in wanted]

    def tell_of_map(self):
        """Tells of all that isn't of a layer."""
        color = self.map.imagecolor
        if (color.red, color.green, color.blue) not in ((255, 255, 255), (-1, -1, -1)):
            self.teller.drop(self.written.keyword("IMAGECOLOR"), ": the background is white")
        if crs_of(self.own) != self.crs:
            self.teller.change(self.written.keyword("PROJECTION"),
                               f": a farm answers in {' and '.join(sorted(OFFERED[self.crs]))}")
        metadata = {keyword.name.lower(): keyword for web in self.written.all("WEB")
                    for block in web.all("METADATA") for keyword in block.keywords}
        self.tell_of_address(metadata)
        for keyword in filter(None, map(metadata.get, ("wms_srs", "ows_srs"))):
            others = sorted(set(keyword.words[0].upper().split()) - OFFERED[self.crs])
            if others:
                self.teller.change(keyword, f": a farm doesn't answer in {', '.join(others)}")
            self.teller.told.add((keyword, None))
        account.tell(self.written, self.teller, self.scale)

    def tell_of_address(self, metadata):
        keyword = first_of(metadata, "onlineresource")
        if keyword and self.asked.address:
            self.notes.add(f"map: {keyword} became {self.asked.address}, by --address", keyword.place)
        elif keyword:
            self.notes.add(f"map: warning: clients are sent to {keyword.words[0]}, the address of the "
                           f"mapfile: write --address", keyword.place)
        elif not self.asked.address:
            self.notes.add("map: warning: clients are sent to http://localhost/wms?: write --address")

    def why_not_drawn(self, layer):
        """Why nothing of the layer is imported, or None."""
        is_other_width = self.width < layer.mingeowidth or 0 < layer.maxgeowidth < self.width
        is_other_kind = layer.type not in self.kinds
        whys = {
            "it isn't of points, lines or polygons (raster, chart, query or tile index)": is_other_kind,
            "its coordinates are pixels (TRANSFORM)": layer.transform != self.script.MS_TRUE,
            "it is another server's picture": layer.connectiontype == self.script.MS_WMS,
            f"it isn't drawn at 1:{self.scale:,.0f} (--scale)": not has_scale(layer, self.scale),
            f"it isn't drawn on a picture {self.width:g} wide (GEOWIDTH)": is_other_width,
            "it has no CLASS, and STYLEITEM isn't supported": layer.numclasses == 0 and layer.styleitem,
            "it has no CLASS": layer.numclasses == 0}
        return next((why for why, is_so in whys.items() if is_so), None)

    def layers_of(self, name, layer, block):
        """What the layer draws, as one layer, or as several where it has too many classes."""
        teller = Teller(self.notes, f"layer {name}")
        drawn, why = [], self.why_not_drawn(layer)
        if why is None:
            if not layer.name:
                teller.add(f"it has no NAME, and became {name}", block.place)
            classes = self.chosen_classes(layer, block, teller)
            drawn = self.drawn_features(layer, block, classes, name, teller)
            self.tell_of_layer(layer, block, classes, {index for index, _, _ in drawn}, teller)
            why = f"nothing is drawn in the extent at 1:{self.scale:,.0f}"
        if not drawn:
            teller.lost(f"all of it: {why}", block.place)
            account.mark(block.whole(), account.LEFT_OUT)
            return []
        title = first_of(layer.metadata, "title") or name
        return list(self.in_sixteens(name, title, self.kinds[layer.type], drawn, teller))

    def tell_of_layer(self, layer, block, classes, used, teller):
        for index, group in enumerate(classes):
            if index not in used:
                drop_block(group, teller, ": no shape is drawn by it")
        if layer.styleitem:
            teller.drop(block.keyword("STYLEITEM"))
        system = block.keyword("PROJECTION")
        if system is not None and [word.upper() for word in system.words] == ["AUTO"]:
            teller.change(system, ": its datum is left out, since MapServer takes none; name the system "
                          "to be exact")
        if layer.status == self.script.MS_DEFAULT:
            teller.change(block.keyword("STATUS"), ": it is drawn where a request lists it")
        for keyword in block.keywords:
            if keyword.name == "PROCESSING" and not keyword.words[0].upper().startswith(READ_BY_LIBRARY):
                teller.drop(keyword)
            elif keyword.name == "LABELITEM" and not any(group.all("LABEL") for group in classes):
                account.mark([keyword], account.IDLE)
        for inner in block.blocks:
            if inner.name in ("CLUSTER", "GRID", "SCALETOKEN"):
                teller.told.add(inner)
                teller.add(f"{inner}: as at 1:{self.scale:,.0f}", inner.place)
                account.mark(inner.whole(), account.CHANGED)
        account.tell(block, teller, self.scale)

    def chosen_classes(self, layer, block, teller):
        """The blocks of the layer's classes, without those of another CLASSGROUP."""
        classes = block.all("CLASS")
        for i in reversed(range(layer.numclasses)):
            if layer.classgroup and layer.getClass(i).group != layer.classgroup:
                layer.removeClass(i)
                drop_block(classes.pop(i), teller, f", which isn't in CLASSGROUP {layer.classgroup}")
        return classes

    def drawn_features(self, layer, block, classes, name, teller):
        """(index of its class, class as it is drawn, feature), in order."""
        self.open(layer, name)
        items = [] if layer.cluster.region else item_names(layer)  # a CLUSTER has those of its data later
        system = self.system(layer.getProjection() or self.own, f"layer {name}")
        box, read = self.reprojected(self.extent, self.target, system), self.shapes_read
        count = self.count_all(layer, block, name, box)
        shapes = list(self.drawn_shapes(layer, name, box, teller))
        outside = count - (self.shapes_read - read)
        if outside > 0:
            teller.lost("shapes outside of the extent", count=outside)
            self.shapes_read += outside
        kind, items = self.kinds[layer.type], items or item_names(layer)
        symbology = Symbology(layer, kind, self.scale, classes, items, teller)
        self.kept[name] = [item for item in self.asked.keep if item in symbology.items]
        change = system and self.script.reprojectionObj(system, self.target)
        result = []
        for place, index, shape in shapes:
            how = symbology.drawn(index, shape)
            feature = self.feature(symbology, index, shape, change, self.kept[name], place)
            if feature is not None and not how.styles and not feature.text:
                teller.lost("shapes that nothing here draws", place)
            elif feature is not None:
                self.shapes_drawn += 1
                result.append((index, how, feature))
        layer.close()
        return result

    def drawn_shapes(self, layer, name, box, teller):
        """(where, index of its class, shape) of the shapes that are drawn, in order."""
        drawn = 0
        for place, shape in enumerate(self.shapes(layer, name, box), 1):
            self.shapes_read += 1
            where = f"layer {name}: shape {place}"
            with saying(f"{where}: MapServer can't choose its class: @: repair the EXPRESSION", *self.errors):
                index = layer.getClassIndex(self.map, shape, None, 0)
            group = layer.getClass(index)
            if index < 0:
                teller.lost("shapes in no CLASS, which MapServer doesn't draw", where)
            elif group.status == self.script.MS_OFF:
                teller.lost(f"shapes of CLASS {group.name or index}, whose STATUS is OFF", where)
            elif 0 <= layer.maxfeatures <= drawn:
                teller.lost("shapes beyond MAXFEATURES", where)
            else:
                drawn += 1
                yield where, index, shape

    def count_all(self, layer, block, name, box):
        """How many shapes the layer has, 0 where all lie in the extent."""
        if layer.cluster.region:
            return 0
        if layer.connectiontype == self.script.MS_INLINE:
            return sum(feature.keyword("POINTS") is not None or feature.keyword("WKT") is not None
                       for feature in block.all("FEATURE"))
        whole = self.script.rectObj(-ANYWHERE, -ANYWHERE, ANYWHERE, ANYWHERE)
        with contextlib.suppress(*self.errors):
            if layer.connectiontype != self.script.MS_UNION:  # whose extent is made up
                whole = layer.getExtent()
        is_within = box.minx <= whole.minx and box.miny <= whole.miny
        if is_within and whole.maxx <= box.maxx and whole.maxy <= box.maxy:
            return 0
        count = sum(1 for _ in self.shapes(layer, name, whole))
        layer.close()
        self.open(layer, name)
        return count

    def open(self, layer, name):
        remedy = "look at DATA and CONNECTION, or choose --layers"
        with saying(f"layer {name}: MapServer can't open its data: @: {remedy}", *self.errors):
            layer.open()

    def shapes(self, layer, name, box):
        remedy = "repair them, or choose --layers"
        with saying(f"layer {name}: MapServer can't read its data: @: {remedy}", *self.errors):
            layer.whichShapes(box)
            yield from iter(layer.nextShape, None)

    def feature(self, symbology, index, shape, change, kept, place):
        """The shape in the map's system, by the change if any; None if nothing of it can be drawn."""
        lines, kind = [shape.get(i) for i in range(shape.numlines)], symbology.kind
        if change is not None and any(line.project(change) != self.script.MS_SUCCESS for line in lines):
            raise MapError(f"{place}: it can't be reprojected to EPSG:{self.crs}: "
                           f"leave it out by FILTER, or write another --crs")
        parts = [[(point.x, point.y) for point in map(line.get, range(line.numpoints))] for line in lines]
        parts = [checked(part, self.crs, kind, place) for part in parts if part]
        grid = on_grid(parts, kind, self.digits)
        if len(grid) < len(parts) or not parts:
            symbology.teller.lost("parts without a place, or smaller than the last digit", place,
                                  max(1, len(parts) - len(grid)))
        if not grid:
            return None
        values = [texts.value(symbology.value(shape, item), symbology.teller, place) for item in kept]
        text = texts.label(symbology.text(index, shape), self.asked.ascii, symbology.teller, place)
        return Feature(grid, 0, values, text)

    def in_sixteens(self, name, title, kind, drawn, teller):
        """The layer, its classes in the mapfile's order; several layers if it has more than 16 classes."""
        classes = []
        for _, how, _ in sorted(drawn, key=lambda entry: entry[0]):
            if how not in classes:
                classes.append(how)
        if (count := len(classes)) > MOST_CLASSES:
            teller.add(f"its {count} classes became layers of {MOST_CLASSES} each ({name}, {name}_2, ..)")
        items = [texts.name(item, teller, "an attribute's name") for item in self.kept[name]]
        for start in range(0, len(classes), MOST_CLASSES):
            some = classes[start : start + MOST_CLASSES]
            own = name if start == 0 else f"{name}_{start // MOST_CLASSES + 1}"
            features = [replace(feature, group=some.index(how)) for _, how, feature in drawn if how in some]
            named = [replace(how, name=texts.plain(how.name, teller, f"layer {name}: the name of a class"))
                     for how in some]
            yield Layer(own, title, kind, named, features, items)


def crs_of(system):
    """The number of the system, where it is one of OWN."""
    return next((crs for crs, own in OWN.items() if system.lower().lstrip("+") == own), None)


def item_names(layer):
    return [layer.getItem(i) for i in range(layer.numitems)]


def first_of(metadata, word):
    """What it tells of WMS, or else of every service; an empty text where it tells neither."""
    return metadata.get(f"wms_{word}", None) or metadata.get(f"ows_{word}", None) or ""


def with_own_names(layers, notes):
    """The layers with names that a request can list: without commas, each unlike the others."""
    taken = set()
    for layer in layers:
        teller = Teller(notes, f"layer {layer.name}")
        name = texts.name(layer.name, teller, "a layer's name")
        others = (f"{layer.name}_{number}" for number in itertools.count(2))
        name = next(name for name in itertools.chain([name], others) if name not in taken)
        if name != layer.name:
            teller.add(f"its name became {name}")
        layer.name = name
        layer.title = texts.plain(layer.title, teller, "a layer's title")
        taken.add(name)
    return layers


def silenced_output():
    """Standard output, kept for the map alone: MapServer's library prints some expressions there."""
    kept = os.fdopen(os.dup(sys.stdout.fileno()), "wb")
    os.dup2(os.open(os.devnull, os.O_WRONLY), sys.stdout.fileno())
    return kept


def made(asked, notes):
    """The map's text, after all notes were told; an error where --strict forbids a change."""
    importer = Importer(asked, notes)
    the_map = importer.imported()
    written = fitting.finished(the_map, asked, importer.teller)
    if asked.query is not None:
        asked.query.write_text(preview.picture_query(the_map, asked.side) + "\n", encoding="ascii")
    tell(written, importer, notes, sys.stderr)
    if asked.preview is not None:
        painter = preview.Painter(asked.program, asked.side)
        seen = asked.mapfile, asked.layers, importer.crs, importer.scale, asked.side
        preview.write(asked.preview, painter, the_map, written,
                      lambda extent: preview.pixels_of(preview.drawn_by_mapserver(*seen, extent)))
    if asked.report is not None:
        with asked.report.open("w", encoding="utf-8", errors="backslashreplace") as report:
            tell(written, importer, notes, report)
    if asked.strict and notes.changes:
        raise importer.wrong("something is changed or left out, as the notes say: no map is written, "
                             "by --strict")
    return written.text


def tell(written, importer, notes, stream):
    """Writes the notes and the map's size, and at the end how much was carried, changed and left out."""
    if idle := account.idle(importer.written):
        print(f"note: without effect on a farm's answers: {idle}", file=stream)
    fitting.tell(written, notes, stream)
    read, drawn = importer.shapes_read, importer.shapes_drawn - len(written.lost_features)
    print(f"note: {account.counted(importer.written)}; "
          f"of {read:,} shapes {drawn:,} were carried, {read - drawn:,} left out", file=stream)


def main():
    asked = arguments()
    output = silenced_output()
    try:
        text = made(asked, Notes())
    except (MapError, OSError) as error:
        sys.exit(f"error: {error}")
    with output:
        output.write(text.encode())


if __name__ == "__main__":
    main()
