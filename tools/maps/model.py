"""A map as plain values, its canonical text, and the limits of both (docs/MAPFILES.md)."""

from collections import Counter
from dataclasses import dataclass, field

from .errors import MapError
from .texts import number, quoted

MOST_BYTES = 65_536  # of the canonical text; a mapfile may have twice as many
MOST_LAYERS = 64
MOST_CLASSES = 16  # of a layer
MOST_STYLES = 8  # of a class
MOST_FEATURES = 2_000
MOST_POINTS = 20_000
MOST_ITEMS = 994  # bytes of a layer's list of attribute names
MOST_WIDTH = 16
MOST_SIZE = 64
MOST_PRIORITY = 10
MOST_BUFFER = 64
MOST_PIXELS = 1_024  # of a side of a picture
EXTENT_DIGITS = 6  # the extent's coordinates are whole numbers of 10^-6 of a unit

LEAST_POINTS = {"POINT": 1, "LINE": 2, "POLYGON": 4}  # a ring ends with its first point
LABEL_SIZES = ["TINY", "SMALL", "MEDIUM", "LARGE", "GIANT"]
POSITIONS = ["UL", "UC", "UR", "CL", "CC", "CR", "LL", "LC", "LR"]


@dataclass
class Style:
    """Colours are (red, green, blue) or None; width and size are pixels."""

    color: tuple = None
    outline: tuple = None
    width: int = 1
    size: int = 1


@dataclass
class Label:
    color: tuple = (0, 0, 0)
    size: str = "MEDIUM"
    position: str = "CC"
    priority: int = 1
    force: bool = False
    buffer: int = 0


@dataclass
class Class:
    """How the features of one class of a layer are drawn."""

    name: str
    styles: list
    label: Label = None


@dataclass
class Feature:
    """Its parts are lists of points, a ring with its first point again at its end; its class is an index."""

    parts: list
    group: int = 0
    values: list = field(default_factory=list)
    text: str = ""


@dataclass
class Layer:
    name: str
    title: str
    kind: str  # POINT, LINE or POLYGON
    classes: list
    features: list
    items: list = field(default_factory=list)

    def parts(self):
        return [part for feature in self.features for part in feature.parts]


@dataclass
class Map:
    """The coordinates of all points are whole numbers of 10^-digits of a unit of the system, those of the extent of 10^-6."""

    name: str
    title: str
    abstract: str
    address: str
    crs: str  # 4326 or 3857
    digits: int
    extent: tuple
    layers: list

    def features(self):
        return [feature for layer in self.layers for feature in layer.features]

    def parts(self):
        return [part for layer in self.layers for part in layer.parts()]


def class_lines(layer, index):
    """A class; where a layer has several, each is chosen by its number."""
    group = layer.classes[index]
    what = f"layer {layer.name}: class {group.name}"
    if len(group.styles) > MOST_STYLES:
        raise MapError(f"{what}: {len(group.styles)} styles, over the limit of {MOST_STYLES}: draw it with fewer")
    lines = ["CLASS", f"NAME {quoted(group.name, what)}"]
    lines += [f'EXPRESSION "{index + 1}"'] if len(layer.classes) > 1 else []
    for style in group.styles:
        colors = {"COLOR": style.color, "OUTLINECOLOR": style.outline}
        spelled = ["{} {} {} {}".format(word, *color) for word, color in colors.items() if color is not None]
        lines += ["STYLE", *spelled, f"WIDTH {style.width}", f"SIZE {style.size}", "END"]
    if label := group.label:
        lines += ["LABEL", "COLOR {} {} {}".format(*label.color), f"SIZE {label.size}",
                  f"POSITION {label.position}", f"PRIORITY {label.priority}",
                  f"FORCE {str(label.force).upper()}", f"BUFFER {label.buffer}", "END"]
    return lines + ["END"]


def feature_lines(layer, place, feature, digits):
    what = f"layer {layer.name}: feature {place}"
    values = feature.values + ([str(feature.group + 1)] if len(layer.classes) > 1 else [])
    lines = ["FEATURE", f"ITEMS {quoted(';'.join(values), what)}", f"TEXT {quoted(feature.text, what)}"]
    for part in feature.parts:
        lines += ["POINTS", *(f"{number(x, digits)} {number(y, digits)}" for x, y in part), "END"]
    return lines + ["END"]


def layer_lines(layer, digits):
    what = f"layer {layer.name}"
    if layer.name == "" or "," in layer.name:
        raise MapError(f"{what}: a name is neither empty nor has a comma: rename it")
    if len(layer.classes) > MOST_CLASSES:
        raise MapError(f"{what}: {len(layer.classes)} classes, over the limit of {MOST_CLASSES}: use fewer")
    item = "class" if len(layer.classes) > 1 else ""  # the attribute that holds a feature's class
    while item and item in layer.items:
        item += "_"
    items = ",".join(layer.items + ([item] if item else []))
    if len(items.encode()) > MOST_ITEMS:
        raise MapError(f"{what}: its attribute names have {len(items.encode())} bytes, over the limit of {MOST_ITEMS}: keep fewer")
    lines = ["LAYER", f"NAME {quoted(layer.name, what)}", f"TYPE {layer.kind}", f'CLASSITEM "{item}"', 'LABELITEM ""']
    lines += [f"PROCESSING {quoted('ITEMS=' + items, what)}", "METADATA", f'"wms_title" {quoted(layer.title, what)}', "END"]
    for index in range(len(layer.classes)):
        lines += class_lines(layer, index)
    for place, feature in enumerate(layer.features, 1):
        lines += feature_lines(layer, place, feature, digits)
    return lines + ["END"]


def canonical_text(the_map):
    """The map's canonical text, as `wfarm canon` writes it, of any length."""
    if len(the_map.layers) > MOST_LAYERS:
        raise MapError(f"{len(the_map.layers)} layers, over the limit of {MOST_LAYERS}: make two maps")
    for name, count in Counter(layer.name for layer in the_map.layers).items():
        if count > 1:
            raise MapError(f"two layers have the name {name}: rename one")
    minx, miny, maxx, maxy = the_map.extent
    extent = " ".join(number(side, EXTENT_DIGITS) for side in the_map.extent)
    if minx >= maxx or miny >= maxy:
        raise MapError(f"the extent {extent} is empty: give one by --extent")
    lines = ["MAP", f"NAME {quoted(the_map.name, 'the name')}", f"EXTENT {extent}"]
    lines += ["PROJECTION", f'"init=epsg:{the_map.crs}"', "END", "WEB", "METADATA"]
    lines += [f'"wms_title" {quoted(the_map.title, "the title")}', f'"wms_abstract" {quoted(the_map.abstract, "the abstract")}']
    lines += [f'"wms_onlineresource" {quoted(the_map.address, "the address")}', "END", "END"]
    for layer in the_map.layers:
        lines += layer_lines(layer, the_map.digits)
    return "\n".join(lines + ["END", ""])
