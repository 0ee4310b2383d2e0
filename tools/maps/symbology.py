"""How MapServer's styles and labels are drawn here, at one scale, and what of them is changed or left out."""

import re

from .account import IDLE, drop_block, mark
from .errors import MapError, library
from .expressions import Unknown, text_of
from .model import (LABEL_SIZES, MOST_BUFFER, MOST_PRIORITY, MOST_SIZE, MOST_WIDTH, POSITIONS, Class, Label,
                    Style)

LETTER = 0.55  # the width of a letter of most fonts, in heights
BITMAP_SIZES = (5, 7, 10, 13, 16)  # of MapServer's own font, TINY to GIANT, in pixels
INCHES = {"INCHES": 1, "FEET": 12, "MILES": 63_360, "METERS": 39.3701, "KILOMETERS": 39_370.1,
          "DD": 4_374_754, "NAUTICALMILES": 72_913.3858}  # of a unit
# what styles and labels can take from an item
STYLE_WORDS = ("COLOR", "OUTLINECOLOR", "WIDTH", "SIZE")
LABEL_WORDS = ("COLOR", "SIZE", "PRIORITY")


class Symbology:
    """The drawing of one layer's classes. The blocks are its CLASS blocks as they are written, in the same order, which the
    teller tells of; the items are the names of those that the data have; the scale is a denominator."""

    def __init__(self, layer, kind, scale, blocks, items, teller):
        self.mapscript = library("mapscript", "python3-mapscript")
        self.layer, self.kind, self.scale, self.blocks, self.teller = layer, kind, scale, blocks, teller
        self.factor = size_factor(self.mapscript, layer, scale)
        self.positions = {getattr(self.mapscript, f"MS_{name}"): name for name in POSITIONS}
        self.items = {layer.getItem(i): i for i in range(layer.numitems) if layer.getItem(i) in items}
        self.known = {}  # classes as drawn, by their index and the values that they are bound to
        self.bound = [self.bound_items(layer.getClass(i)) for i in range(layer.numclasses)]

    def item(self, thing, word):
        """The name of the item that a style or label takes a value from, if any."""
        kind = "STYLE" if isinstance(thing, self.mapscript.styleObj) else "LABEL"
        return thing.getBinding(getattr(self.mapscript, f"MS_{kind}_BINDING_{word}"))

    def bound_items(self, group):
        """The names of the items that styles and labels of the class take values from."""
        names = [self.item(style, word) for style in styles_of(group) for word in STYLE_WORDS]
        names += [self.item(label, word) for label in labels_of(group) for word in LABEL_WORDS]
        return list(dict.fromkeys(filter(None, names)))

    def value(self, shape, item):
        if item not in self.items:
            raise MapError(f"layer {self.layer.name}: it has no attribute {item!r}: it has {', '.join(self.items) or 'none'}")
        return shape.getValue(self.items[item]) or ""

    def drawn(self, index, shape):
        """The shape's class as it is drawn."""
        values = {item: self.value(shape, item) for item in self.bound[index]}
        key = index, *values.values()
        if key not in self.known:
            self.known[key] = self.made(self.layer.getClass(index), self.blocks[index], values)
        return self.known[key]

    def made(self, group, block, values):
        styles = [pair for pair in zip(styles_of(group), block.all("STYLE")) if self.is_drawn(*pair)]
        has_fill = any(style.symbol == 0 and is_color(style.color) for style, _ in styles)
        drawn = [one for style, block in styles for one in self.style(style, block, values, has_fill)]
        return Class(group.name or "", drawn, self.label(group, block, values))

    def is_drawn(self, style, block):
        """Whether something of the style can be drawn at this scale."""
        is_here = has_scale(style, self.scale)
        if is_here and block.keyword("GEOMTRANSFORM") is None:
            return True
        drop_block(block, self.teller, " with GEOMTRANSFORM" if is_here else ", which isn't drawn at this scale")
        return False

    def style(self, style, block, values, has_fill):
        color, outline = (self.color(style, word, values, block) for word in ("COLOR", "OUTLINECOLOR"))
        width, size = (self.pixels(style, word, values) for word in ("WIDTH", "SIZE"))
        if self.kind == "POLYGON":
            return self.polygon(style, block, color, outline, width, has_fill)
        if self.kind == "LINE":
            return self.line(style, block, color, outline, width, size)
        return self.point(style, block, color, outline, size)

    def polygon(self, style, block, color, outline, width, has_fill):
        self.drop_words(block, "OUTLINEWIDTH", False)
        self.drop_words(block, "SIZE MINSIZE MAXSIZE", style.symbol != 0)
        symbol = block.keyword("SYMBOL")
        if style.symbol != 0 and has_fill and color is not None:
            self.teller.drop(symbol, ", since another style fills the polygon")
            self.teller.drop(block.keyword("COLOR"), ", of that symbol")
            color = None
        elif symbol is not None:
            self.teller.change(symbol, ": the polygon is filled with one colour")
        if color is None and outline is None:
            return []
        if outline is None:
            self.drop_words(block, "WIDTH MINWIDTH MAXWIDTH", style.symbol != 0)
            return [Style(color)]
        return [Style(color, outline, self.most(width, MOST_WIDTH, block.keyword("WIDTH")))]

    def line(self, style, block, color, outline, width, size):
        """A line, and below it the line of its outline, if any."""
        result, keyword = [], block.keyword("WIDTH")
        if style.symbol != 0:
            self.teller.change(block.keyword("SYMBOL"), ": it is a line of one colour")
            keyword, width = (block.keyword("SIZE"), size) if size > width else (keyword, width)
        else:
            self.drop_words(block, "SIZE MINSIZE MAXSIZE", False)
        if outline is not None and style.outlinewidth > 0:
            whole = width + 2 * style.outlinewidth * self.factor
            result.append(Style(color=outline, width=self.most(whole, MOST_WIDTH, block.keyword("OUTLINEWIDTH"), f", and so a width of {whole:g},")))
        elif color is None:
            color = outline
        if color is not None:
            result.append(Style(color=color, width=self.most(width, MOST_WIDTH, keyword)))
        return result

    def point(self, style, block, color, outline, size):
        if color is None and outline is None:
            if style.symbol != 0:
                drop_block(block, self.teller, " of a point without a COLOR")
            return []
        self.drop_words(block, "WIDTH MINWIDTH MAXWIDTH OUTLINEWIDTH", style.symbol != 0)
        if style.symbol == 0:
            self.teller.change(block.keyword("COLOR") or block.keyword("OUTLINECOLOR"), ": it is a square, and MapServer draws no point without SYMBOL")
        else:
            self.teller.change(block.keyword("SYMBOL"), ": it is a square")
        if color is not None:
            self.teller.drop(block.keyword("OUTLINECOLOR"))
        if size <= 0:
            symbol = self.layer.map.symbolset.getSymbol(style.symbol)
            size = symbol.sizey if symbol is not None and symbol.sizey > 0 else 1
        return [Style(color=color or outline, size=self.most(size, MOST_SIZE, block.keyword("SIZE")))]

    def drop_words(self, block, names, are_seen):
        """Tells of keywords by which this kind of layer isn't drawn here; whether MapServer's picture shows them."""
        for keyword in filter(None, map(block.keyword, names.split())):
            if are_seen:
                self.teller.drop(keyword)
            else:
                mark([keyword], IDLE)

    def color(self, thing, word, values, block):
        """Red, green and blue, or None where nothing is drawn. That OPACITY is left out, which alters colours, is told by itself."""
        color, item = getattr(thing, word.lower()), self.item(thing, word)
        if item:
            found, is_opaque = color_of(values[item], self.layer.name, item), not re.fullmatch("#.{8}", values[item].strip())
        elif is_color(color):
            found, is_opaque = (color.red, color.green, color.blue), color.alpha == 255 or block.keyword("OPACITY") is not None
        else:
            return None
        if not is_opaque:
            self.teller.change(block.keyword(word), ": it is opaque")
        return found

    def pixels(self, thing, word, values):
        """A width or size in pixels at this scale, within the limits that the style gives."""
        item = self.item(thing, word)
        size, least, most = (getattr(thing, limit + word.lower(), 0) for limit in ("", "min", "max"))
        if item:
            try:
                size = float(values[item])
            except ValueError as error:
                raise MapError(f"layer {self.layer.name}: attribute {item} is {values[item]!r}, and a size is a number") from error
        size *= self.factor
        if self.factor != 1 or item:
            size = max(size, least) if least > 0 else size
            size = min(size, most) if most > 0 else size
        return size

    def most(self, size, limit, keyword, why=""):
        """The size as a whole number within the limit."""
        whole = min(max(int(size + 0.5), 1), limit)
        if whole != size:
            scaled = f", at 1:{self.scale:,.0f} {size:g}," if keyword and not why and self.factor != 1 else why
            self.teller.change(keyword, f"{scaled} became {whole}" if keyword else f"a size of {size:g} became {whole}")
        return whole

    def is_label_drawn(self, label):
        return has_scale(self.layer, self.scale, "label") and has_scale(label, self.scale)

    def label(self, group, block, values):
        """The first of the class's labels that are drawn, or None. The others are told of."""
        drawn = []
        for label, inner in zip(labels_of(group), block.all("LABEL")):
            if self.is_label_drawn(label):
                drawn.append((label, inner))
            else:
                drop_block(inner, self.teller, ", which isn't drawn at this scale")
        for _, inner in drawn[1:]:
            drop_block(inner, self.teller, ", since a class has one")
        return self.label_as(*drawn[0], values) if drawn else None

    def label_as(self, label, block, values):
        size, position, force = map(block.keyword, ("SIZE", "POSITION", "FORCE"))
        color = self.color(label, "COLOR", values, block) or (0, 0, 0)
        named = label_size(self.pixels(label, "SIZE", values), label.font)
        if size is not None and size.words[0].upper() != named:
            self.teller.change(size, f" became {named}")
        buffer = self.most(label.buffer * self.factor, MOST_BUFFER, block.keyword("BUFFER")) if label.buffer > 0 else 0
        if position is not None and label.position not in self.positions:
            self.teller.change(position, " became CC")
        priority = label.priority
        if self.item(label, "PRIORITY"):
            priority = int(self.pixels(label, "PRIORITY", values) / self.factor)
        within = min(max(priority, 1), MOST_PRIORITY)
        if within != priority:
            self.teller.change(block.keyword("PRIORITY"), f": {priority} became {within}")
        forced = force.words[0].upper() if force is not None else "FALSE"
        if forced == "GROUP":
            self.teller.change(force, " became TRUE")
        return Label(color, named, self.positions.get(label.position, "CC"), within, forced in ("TRUE", "GROUP"), buffer)

    def text(self, index, shape):
        """The text of the shape's label, before it is fitted to what a text may hold."""
        group = self.layer.getClass(index)
        label = next(filter(self.is_label_drawn, labels_of(group)), None)
        if label is None:
            return ""
        expression = label.getTextString() or group.getTextString()
        if expression is None:
            return self.value(shape, self.layer.labelitem) if self.layer.labelitem in self.items else shape.text or ""
        try:
            return text_of(expression, lambda item: self.value(shape, item))
        except Unknown as error:
            self.teller.lost(f"a label by TEXT {expression}, which isn't understood ({error})")
            return ""


def styles_of(group):
    return [group.getStyle(i) for i in range(group.numstyles)]


def labels_of(group):
    return [group.getLabel(i) for i in range(group.numlabels)]


def has_scale(thing, scale, of=""):
    """Whether a layer, its labels, a style or a label are drawn at the scale."""
    least, most = (getattr(thing, f"{of}{end}scaledenom") for end in ("min", "max"))
    return scale >= least and not 0 < most <= scale


def is_color(color):
    return min(color.red, color.green, color.blue) >= 0


def color_of(text, layer, item):
    """A colour that an attribute spells: #rrggbb, or three numbers."""
    if re.fullmatch("#[0-9A-Fa-f]{6}([0-9A-Fa-f]{2})?", text.strip()):
        return tuple(int(text.strip()[i : i + 2], 16) for i in (1, 3, 5))
    numbers = re.fullmatch(r"\s*(\d{1,3})[\s,]+(\d{1,3})[\s,]+(\d{1,3})\s*", text)
    if numbers and all(int(value) < 256 for value in numbers.groups()):
        return tuple(map(int, numbers.groups()))
    raise MapError(f"layer {layer}: attribute {item} is {text!r}, and a colour is #rrggbb, or three numbers from 0 to 255")


def label_size(pixels, font):
    """The size whose letters are as large: by name in MapServer's own font, else by the width of a letter (4 pixels a step)."""
    if not font and round(pixels) in BITMAP_SIZES:
        return LABEL_SIZES[BITMAP_SIZES.index(round(pixels))]
    return LABEL_SIZES[min(max(round(pixels * LETTER / 4), 1), 5) - 1]


def size_factor(mapscript, layer, scale):
    """By how much sizes grow at this scale (SIZEUNITS, SYMBOLSCALEDENOM)."""
    inches = {getattr(mapscript, f"MS_{unit}"): length for unit, length in INCHES.items()}
    if layer.sizeunits in inches:
        return inches[layer.sizeunits] * layer.map.resolution / scale
    dots = layer.map.resolution / layer.map.defresolution
    return dots * layer.symbolscaledenom / scale if layer.symbolscaledenom > 0 else dots
