"""Points of the two systems that wfarm draws: EPSG:4326 in degrees, longitude first, and EPSG:3857 in metres."""

import math
import warnings
from itertools import groupby

from .errors import MapError, library
from .model import EXTENT_DIGITS, LEAST_POINTS

EARTH_RADIUS = 6_378_137.0  # metres, of the sphere of EPSG:3857
DIGITS = {"4326": 6, "3857": 1}  # after the point, unless asked otherwise
WORLD = {"4326": (180.0, 90.0), "3857": (math.pi * EARTH_RADIUS, 20_048_966.2)}  # half its width and height
ROUNDING = 1e-9  # of the world's half, by which a point at its edge may lie outside
CURES = {
    "4326": "give the data's own system (--source), or cut the data (ogr2ogr -wrapdateline)",
    "3857": "give the data's own system (--source), cut the data at 85.06 degrees, or write --crs 4326"}


def checked(points, crs, kind, place):
    """The points, or an error if one isn't in the system's world or a side leaps over its edge."""
    half_width, half_height = WORLD[crs]
    for x, y, *_ in points:
        if not (math.isfinite(x) and math.isfinite(y)):
            raise MapError(f"{place}: a point without a place in EPSG:{crs} ({x:g} {y:g}): {CURES[crs]}")
        if abs(x) > half_width * (1 + ROUNDING) or abs(y) > half_height * (1 + ROUNDING):
            raise MapError(f"{place}: the point {x:g} {y:g} lies outside of EPSG:{crs}: {CURES[crs]}")
    if kind != "POINT":
        for (x, *_), (then, *_) in zip(points, points[1:]):
            if half_width < abs(then - x) < 2 * half_width * (1 - ROUNDING):
                raise MapError(f"{place}: it crosses 180 degrees ({x:g} to {then:g}): cut it there (ogr2ogr -wrapdateline)")
    return points


def bounds(parts):
    """The box of the parts: their least and greatest coordinates."""
    xs, ys = zip(*(point for part in parts for point in part))
    return min(xs), min(ys), max(xs), max(ys)


def longer_side(box):
    return max(box[2] - box[0], box[3] - box[1])


def widened(box, margin):
    return box[0] - margin, box[1] - margin, box[2] + margin, box[3] + margin


def meet(one, other):
    """Whether two boxes have a point in common."""
    return one[0] <= other[2] and one[2] >= other[0] and one[1] <= other[3] and one[3] >= other[1]


def whole_extent(sides, digits):
    """The sides of an extent, rounded to the digits, as a map has them."""
    return tuple(round(side * 10**digits) * 10 ** (EXTENT_DIGITS - digits) for side in sides)


def on_grid(parts, kind, digits):
    """The parts with coordinates as whole numbers of 10^-digits, rings closed, points that fall together once, the
    greatest part first (a label stands at its middle). Those that become too small are left out."""
    scale = 10**digits
    result = []
    for part in parts:
        points = [(round(point[0] * scale), round(point[1] * scale)) for point in part]
        if kind != "POINT":
            points = once(points)
        if kind == "POLYGON" and points and points[0] != points[-1]:
            points.append(points[0])
        if len(points) >= LEAST_POINTS[kind]:
            result.append(points)
    return greatest_first(result, kind)


def once(points):
    """The points, those that follow their like left out."""
    return [point for point, _ in groupby(points)]


def greatest_first(parts, kind):
    if kind == "POINT" or len(parts) < 2:
        return parts
    greatest = max(parts, key=ring_area if kind == "POLYGON" else lambda line: sum(map(math.dist, line, line[1:])))
    return [greatest] + [part for part in parts if part is not greatest]


def ring_area(ring):
    """Twice the area inside of a closed ring."""
    return abs(sum(x * next_y - next_x * y for (x, y), (next_x, next_y) in zip(ring, ring[1:])))


def metres_a_unit(crs, extent):
    """How many metres on the ground a unit of the system is, upwards from the middle of the extent (in units)."""
    if crs == "4326":
        return math.radians(1) * EARTH_RADIUS
    return 1 / math.cosh((extent[1] + extent[3]) / 2 / EARTH_RADIUS)


def meetings(shapes):
    """The pairs of indices, the lesser first, of shapely's shapes whose boxes meet."""
    with warnings.catch_warnings():
        warnings.simplefilter("ignore")  # shapely 1.8 warns of shapely 2, which is provided for below
        tree = library("shapely.strtree", "python3-shapely").STRtree(shapes)
    places = {id(shape): i for i, shape in enumerate(shapes)}
    for i, shape in enumerate(shapes):
        for found in tree.query(shape):
            j = places[id(found)] if hasattr(found, "geom_type") else int(found)  # shapely 1.8, or 2
            if i < j:
                yield i, j
