"""Features as one shape, where no picture can tell: each one costs bytes, and counts.

Features that are drawn alike, have the same attributes and no label become one. A feature joins one before it only if
none of another class stands between them, since the later is drawn over the earlier. Lines and points that lie over one
another look the same either way. The insides of two polygons don't: where both are, one shape has a hole. So filled
polygons become one only if their boxes lie apart, or if they are neighbours, with points in common, whose insides lie
apart; and none that is filled and outlined, or drawn by several styles. A border between two of them is left out: a side
that is there twice counts for nothing where a shape is filled (even-odd).
"""

from collections import defaultdict
from itertools import groupby, repeat

from .errors import library
from .geometry import bounds, meetings
from .model import Feature


def merged(layer):
    """The layer's features, with those that can be one as one."""
    result = []
    for group, run in groupby(layer.features, key=lambda feature: feature.group):
        how = layer.classes[group]
        run = list(run)
        result += run if how.label is not None else alike(layer.kind, how.styles, run)
    return result


def alike(kind, styles, run):
    """The run of features of one class without labels, with those that can be one as one, in the order of the first."""
    if kind == "LINE":
        return joined(run)
    if len(styles) != 1 or (styles[0].color is not None and styles[0].outline is not None):
        return run
    is_filled = kind == "POLYGON" and styles[0].color is not None
    shapes = joined(run, turns(run)) if is_filled else joined(run)
    for shape in shapes:
        if is_filled:
            shape.parts = dissolved(shape.parts)
        elif kind == "POINT":
            shape.parts = [[point for part in shape.parts for point in part]]
    return shapes


def joined(run, numbers=repeat(0)):
    """One feature for those with the same attributes and the same number."""
    shapes = {}
    for feature, number in zip(run, numbers):
        key = (tuple(feature.values), number)
        shapes.setdefault(key, Feature([], feature.group, feature.values)).parts += feature.parts
    return list(shapes.values())


def turns(run):
    """Numbers for polygons, such that those with the same number lie apart."""
    geometry = library("shapely.geometry", "python3-shapely")
    before = [[] for _ in run]  # the earlier ones that a polygon can't be one with
    points = [{point for part in feature.parts for point in part} for feature in run]
    insides = [geometry.Polygon(feature.parts[0]) if len(feature.parts) == 1 else None for feature in run]
    for i, j in meetings([geometry.box(*bounds(feature.parts)) for feature in run]):
        if points[i].isdisjoint(points[j]) or not lie_apart(insides[i], insides[j]):
            before[j].append(i)
    numbers = []
    for others in before:
        taken = {numbers[i] for i in others}
        numbers.append(min({*range(len(taken) + 1)} - taken))
    return numbers


def lie_apart(one, other):
    """Whether the insides of two polygons have nothing in common; False where either isn't a plain polygon."""
    are_plain = one is not None and other is not None and one.is_valid and other.is_valid
    return are_plain and one.relate_pattern(other, "F********")


def dissolved(rings, may_go=lambda side: True):
    """Rings of the sides that are there once, and of those that may not go. Sides in both directions are one."""
    sides = [(min(side), max(side)) for ring in rings for side in zip(ring, ring[1:])]
    left = {}
    for place, side in enumerate(sides):
        key = side, None if may_go(side) else place
        if left.pop(key, None) is None:
            left[key] = side
    if len(left) == len(sides):
        return rings
    ends = defaultdict(list)
    for one, other in left.values():
        ends[one].append(other)
        ends[other].append(one)
    result = []
    for start in list(ends):
        while ends[start]:
            ring = [start]
            while len(ring) == 1 or ring[-1] != start:  # each point has an even number of sides
                after = ends[ring[-1]].pop()
                ends[after].remove(ring[-1])
                ring.append(after)
            result.append(ring)
    return result
