"""A picture of the source and the map side by side at one scale, and below it the surroundings of the largest displacement.

The map is drawn by the program, as every node will draw it. Data are drawn by it too, in pieces that are within the
limits, one over another; a mapfile is drawn by MapServer.
"""

import shutil
import subprocess
import tempfile
from dataclasses import replace
from pathlib import Path
from urllib.parse import quote

from pixmap_to_png import png

from .errors import MapError, library, saying
from .geometry import bounds, longer_side, meet, widened
from .model import EXTENT_DIGITS, Class, Feature, Label, Layer, Map, canonical_text
from .texts import ascii_letters, number

BUILT = Path(__file__).resolve().parents[2] / "crates/wfarm/out/wfarm"
MOST_PIECE = 4_000  # points of a piece, so that it is within all limits
MOST_FEATURES = 1_000  # of a piece
UNSEEN = 0.1  # of a pixel
CLOSER = 8  # times the scale below
GAP = 8  # pixels between pictures
CAPTION = 16  # pixels of a caption's height
RED = (220, 0, 0)
GREY = 190
WHITE = 0xFFFFFF


def size_of(extent, side):
    """The width and height of a picture, the longer one of them the side, in the proportions of the extent."""
    minx, miny, maxx, maxy = extent
    scale = side / longer_side(extent)
    return max(1, round((maxx - minx) * scale)), max(1, round((maxy - miny) * scale))


def picture_query(the_map, side, extent=None):
    """The WMS query of a picture of all layers, of the map's extent or of another (in millionths of a unit)."""
    extent = extent or the_map.extent
    width, height = size_of(extent, side)
    names = [quote(layer.name, safe="") for layer in the_map.layers]
    box = ",".join(number(value, EXTENT_DIGITS) for value in extent)
    crs = "CRS:84" if the_map.crs == "4326" else "EPSG:3857"
    return (f"SERVICE=WMS&VERSION=1.3.0&REQUEST=GetMap&LAYERS={','.join(names)}&STYLES={',' * (len(names) - 1)}"
            f"&CRS={crs}&BBOX={box}&WIDTH={width}&HEIGHT={height}&FORMAT=image/x-portable-pixmap")


class Painter:
    """Draws maps by the program, as arrays of numpy of height, width and 3."""

    def __init__(self, program, side):
        self.program = program or shutil.which("wfarm") or (str(BUILT) if BUILT.exists() else None)
        if self.program is None:
            raise MapError("--preview draws by the program: write --program and where wfarm is")
        self.side = side
        self.numpy = library("numpy", "python3-numpy")

    def drawn(self, the_map, text, extent, side=None):
        """The text, which is that of the map or of a simpler one."""
        query = picture_query(the_map, side or self.side, extent)
        try:
            done = subprocess.run([self.program, "draw", query], input=text.encode(), capture_output=True)
        except OSError as error:
            raise MapError(f"--program {self.program}: {error}") from error
        if done.returncode != 0 or not done.stdout.startswith(b"P6"):
            raise MapError(f"{self.program} draw doesn't draw the map: {(done.stderr or done.stdout).decode().strip()}")
        return pixels_of(done.stdout)

    def source(self, fitting, extent):
        """A map of any size, the points of which that no picture shows are left out: its shapes in pieces, then its labels.
        Each piece has colours of its own, so that what it paints is known, white too."""
        codes = {}
        picture = self.numpy.zeros(size_of(extent, self.side)[::-1], int)
        the_map = seen(fitting, extent, self.side)
        for piece in [*pieces(the_map, extent), *labels(the_map)]:
            for layer in piece.layers:
                layer.classes = [coded_class(group, codes) for group in layer.classes]
            drawn = self.drawn(piece, canonical_text(piece), extent) @ (1 << 16, 1 << 8, 1)
            picture = self.numpy.where(drawn == WHITE, picture, drawn)
        return self.numpy.array([(255, 255, 255), *codes], "uint8")[picture]

    def caption(self, text, width):
        """A line of letters that labels have."""
        text = ascii_letters(text.replace(",", ""))
        label = Class("", [], Label(size="TINY", position="CR"))
        line = Layer("a", "a", "POINT", [label], [Feature([[(0, CAPTION // 2)]], 0, [], text)])
        size = tuple(side * 10**EXTENT_DIGITS for side in (0, 0, width, CAPTION))
        the_map = Map("a", "a", "", "", "3857", 0, size, [line])
        return self.drawn(the_map, canonical_text(the_map), size, width)


def pixels_of(pixmap):
    """A P6 pixmap as an array of numpy of height, width and 3."""
    _, size, _, pixels = pixmap.split(b"\n", 3)
    width, height = map(int, size.split())
    return library("numpy", "python3-numpy").frombuffer(bytearray(pixels), "uint8").reshape(height, width, 3)


def coded_class(group, codes):
    """The class in colours that stand for its own: 1, 2, 3, .."""

    def coded(color):
        return color and tuple(codes.setdefault(color, len(codes) + 1).to_bytes(3, "big"))

    styles = [replace(style, color=coded(style.color), outline=coded(style.outline)) for style in group.styles]
    return replace(group, styles=styles, label=group.label and replace(group.label, color=coded(group.label.color)))


def seen(fitting, extent, side):
    """The map with points as far apart as a picture of the extent shows, at least, and no shape with more than a piece has."""
    tolerance = UNSEEN * longer_side(extent) / side / 10 ** (EXTENT_DIGITS - fitting.map.digits)
    while True:
        the_map = fitting.map_at(tolerance)[0]
        polygons = [feature for layer in the_map.layers if layer.kind == "POLYGON" for feature in layer.features]
        if all(sum(map(len, feature.parts)) <= MOST_PIECE for feature in polygons):
            return the_map
        tolerance *= 2


def pieces(the_map, extent):
    """Maps of some of the features each, without their labels, that paint the extent one after another."""
    near = widened(extent, longer_side(extent) // 8)
    unit = 10 ** (EXTENT_DIGITS - the_map.digits)
    for layer in the_map.layers:
        plain = replace(layer, items=[], classes=[replace(group, label=None) for group in layer.classes])
        runs, points = [], 0
        for feature in layer.features:
            if not meet([side * unit for side in bounds(feature.parts)], near):
                continue
            count = sum(map(len, feature.parts))
            if not runs or points + count > MOST_PIECE or len(runs[-1]) == MOST_FEATURES:
                runs.append([])
                points = 0
            runs[-1].append(replace(feature, values=[], text=""))
            points += count
        yield from (replace(the_map, layers=[replace(plain, features=some)]) for some in runs)


def labels(the_map):
    """A map of all labels: at the middle of the box around a feature's first part, as they stand in the map."""
    layers = []
    for layer in the_map.layers:
        classes = [replace(group, styles=[]) for group in layer.classes]
        features = []
        for feature in (feature for feature in layer.features if feature.text):
            left, low, right, high = bounds(feature.parts[:1])
            features.append(replace(feature, parts=[[((left + right) // 2, (low + high) // 2)]], values=[]))
        layers.append(replace(layer, kind="POINT", items=[], classes=classes, features=features))
    whole = replace(the_map, layers=layers)
    if len(whole.features()) <= 2 * MOST_FEATURES and len(canonical_text(whole)) <= 131_072:
        yield whole


def drawn_by_mapserver(path, names, crs, scale, side, extent):
    """A P6 pixmap of a mapfile's layers, of these names or all, by MapServer's library, in the system of the map that is made
    of it. The extent is in millionths of a unit. Layers are on or off, and symbols as large, as at the scale."""
    script = library("mapscript", "python3-mapscript")
    with saying(f"{path}: MapServer can't draw it for --preview: @",
                OSError, script.MapServerError, script.MapServerChildError):
        the_map = script.mapObj(str(path))
        the_map.applyDefaultSubstitutions()
        for layer in map(the_map.getLayer, range(the_map.numlayers)):
            is_on = names is None or layer.name in names
            layer.status = script.MS_ON if is_on else script.MS_OFF
            if not layer.getProjection():
                layer.setProjection(the_map.getProjection())
        the_map.setProjection(f"init=epsg:{crs}")
        the_map.units = script.projectionObj(f"init=epsg:{crs}").getUnits()
        width, height = size_of(extent, side)
        minx, miny, maxx, maxy = (side / 10**EXTENT_DIGITS for side in extent)
        half, half_up = (maxx - minx) / width / 2, (maxy - miny) / height / 2  # its extent ends in a pixel's middle
        the_map.setSize(width, height)
        the_map.setExtent(minx + half, miny + half_up, maxx - half, maxy - half_up)
        if scale:
            dots = scale / the_map.scaledenom
            the_map.resolution, the_map.defresolution = the_map.resolution * dots, the_map.defresolution * dots
        image = script.outputFormatObj("GDAL/PNM", "pixmap")
        image.imagemode, image.transparent = script.MS_IMAGEMODE_RGB, script.MS_OFF
        the_map.appendOutputFormat(image)
        the_map.selectOutputFormat("pixmap")
        with tempfile.NamedTemporaryFile(suffix=".ppm") as file:
            the_map.draw().save(file.name)
            return Path(file.name).read_bytes()


def write(path, painter, the_map, written, source):
    """Writes the preview. The source is a function of an extent, in millionths of a unit, to pixels."""
    numpy = painter.numpy

    def beside(left, right):
        gap = numpy.full((left.shape[0], GAP, 3), GREY, "uint8")
        return numpy.concatenate([left, gap, right], axis=1)

    pictures = [source(the_map.extent), painter.drawn(the_map, written.text, the_map.extent)]
    closer = []
    if written.place is not None:
        near = surroundings(the_map.extent, written.place)
        for picture in pictures:
            frame(picture, the_map.extent, near)
        closer = [beside(source(near), painter.drawn(the_map, written.text, near))]
    width = pictures[0].shape[1]
    heads = [painter.caption(text, width) for text in ("SOURCE", "MAP")]
    below = painter.caption(f"LARGEST DISPLACEMENT {written.largest}".upper(), 2 * width + GAP)
    whole = numpy.concatenate([beside(*heads), beside(*pictures), below, *closer])
    pixmap = b"P6\n%d %d\n255\n" % (whole.shape[1], whole.shape[0]) + whole.tobytes()
    path.write_bytes(png(pixmap))


def surroundings(extent, place):
    """The part of the extent around the place, in its proportions."""
    sides = []
    for low, high, at in zip(extent[:2], extent[2:], place):
        width = (high - low) // CLOSER
        start = min(max(at - width // 2, low), high - width)
        sides.append((start, start + width))
    (left, right), (bottom, top) = sides
    return left, bottom, right, top


def frame(picture, extent, near):
    """Draws the sides of the part into the picture of the extent."""
    height, width = picture.shape[:2]
    left, right = (min(width - 1, (x - extent[0]) * width // (extent[2] - extent[0])) for x in (near[0], near[2]))
    top, bottom = (min(height - 1, (extent[3] - y) * height // (extent[3] - extent[1])) for y in (near[3], near[1]))
    picture[top, left : right + 1] = picture[bottom, left : right + 1] = RED
    picture[top : bottom + 1, left] = picture[top : bottom + 1, right] = RED
