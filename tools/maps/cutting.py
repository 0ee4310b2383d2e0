"""Cuts a map's shapes at an extent, with a margin in which the cut edges and their outlines lie unseen.

A side is cut at the same point whichever way it runs, so borders that shapes share stay shared. What a ring has twice along
the edge of the cut is left out, so a shape that leaves the extent and comes back has its parts apart.
"""

import math
from dataclasses import replace
from functools import partial
from itertools import groupby, pairwise

from .errors import MapError
from .geometry import bounds, greatest_first, longer_side, once, widened
from .merging import dissolved
from .model import EXTENT_DIGITS, LEAST_POINTS
from .texts import number

LEAST_PICTURE = 256  # pixels of the longer side of a picture in which no cut edge shows


def cut(the_map, notes):
    """The map with its shapes cut at its extent and margin, and without those outside."""
    box = box_of(the_map)
    layers = [replace(layer, features=list(cut_features(layer, box))) for layer in the_map.layers]
    if not any(layer.features for layer in layers):
        reach = (number(side, the_map.digits) for side in bounds(the_map.parts() or [[(0, 0)]]))
        raise MapError(f"--extent holds none of the data: they reach over {','.join(reach)}")
    for before, layer in zip(the_map.layers, layers):
        if outside := len(before.features) - len(layer.features):
            some = f"{outside} features" if layer.features else f"all {outside} features,"
            notes.lost(f"layer {layer.name}: {some} outside of --extent")
    return replace(the_map, layers=layers)


def box_of(the_map):
    """The extent and its margin, in units of the coordinates."""
    extent = [side / 10 ** (EXTENT_DIGITS - the_map.digits) for side in the_map.extent]
    styles = [style for layer in the_map.layers for group in layer.classes for style in group.styles]
    widest = max((max(style.width, style.size) for style in styles), default=1)
    minx, miny, maxx, maxy = widened(extent, (widest / 2 + 1) * longer_side(extent) / LEAST_PICTURE)
    return math.floor(minx), math.floor(miny), math.ceil(maxx), math.ceil(maxy)


def cut_features(layer, box):
    way = {"POINT": cut_points, "LINE": cut_line, "POLYGON": cut_ring}[layer.kind]
    for feature in layer.features:
        if all(is_inside(part, box) for part in feature.parts):
            yield feature
            continue
        parts = [piece for part in feature.parts for piece in ([part] if is_inside(part, box) else way(part, box))]
        if layer.kind == "POLYGON":
            parts = without_twice(parts, box)
        parts = [part for part in parts if len(part) >= LEAST_POINTS[layer.kind]]
        if parts:
            yield replace(feature, parts=greatest_first(parts, layer.kind))


def is_inside(part, box):
    minx, miny, maxx, maxy = bounds([part])
    return box[0] <= minx and box[1] <= miny and maxx <= box[2] and maxy <= box[3]


def sides_of(box):
    """(axis, where, whether what is greater is kept) of each side."""
    return (0, box[0], True), (0, box[2], False), (1, box[1], True), (1, box[3], False)


def is_kept(point, side):
    axis, where, greater = side
    return point[axis] >= where if greater else point[axis] <= where


def crossing(one, other, side):
    """The point, in whole numbers, where the line between two points meets the side; the same both ways."""
    axis, where, _ = side
    first, last = sorted((one, other), key=lambda point: point[axis])
    rise, run = last[1 - axis] - first[1 - axis], last[axis] - first[axis]
    across = first[1 - axis] + (2 * rise * (where - first[axis]) + run) // (2 * run)
    return (where, across) if axis == 0 else (across, where)


def cut_points(part, box):
    return [[point for point in part if is_inside([point], box)]]


def cut_at(part, side):
    """The points of the part behind its first, those where it crosses the side too."""
    for before, point in pairwise(part):
        if is_kept(before, side) != is_kept(point, side):
            yield crossing(before, point, side)
        yield point


def cut_line(line, box):
    lines = [line]
    for side in sides_of(box):
        whole = [[one[0], *cut_at(one, side)] for one in lines]
        lines = [once(run) for one in whole for kept, run in groupby(one, partial(is_kept, side=side)) if kept]
    return lines


def cut_ring(ring, box):
    """The ring within the box, by Sutherland and Hodgman's method: parts of it hang together along the edges."""
    for side in sides_of(box):
        piece = once(point for point in cut_at(ring, side) if is_kept(point, side))
        if len(piece) < 3:
            return []
        ring = piece if piece[0] == piece[-1] else [*piece, piece[0]]
    return [ring]


def without_twice(rings, box):
    """The rings of a polygon without what they have twice along the edges of the box."""
    points = {point for ring in rings for point in ring}
    on_edges = [(axis, where, [point for point in points if point[axis] == where]) for axis, where, _ in sides_of(box)]
    whole = [along_edges(ring, on_edges) for ring in rings]
    return dissolved(whole, lambda side: any(side[0][axis] == where == side[1][axis] for axis, where, _ in sides_of(box)))


def along_edges(ring, on_edges):
    """The ring with each of its sides along an edge cut where another point lies on it."""
    result = ring[:1]
    for before, point in zip(ring, ring[1:]):
        for axis, where, points in on_edges:
            if before[axis] == where == point[axis]:
                low, high = sorted((before, point))
                result += sorted((other for other in points if low < other < high), reverse=point < before)
        result.append(point)
    return result
