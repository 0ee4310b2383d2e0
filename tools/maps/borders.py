"""Simplification that keeps shared borders: a line that two shapes share is simplified once.

All rings and lines of a map are cut into arcs where shapes meet or part (as TopoJSON does), each arc is simplified by
Douglas and Peucker's method, and the shapes are put together from the simplified arcs. Neighbours have the same arc
between them, so no gap and no overlap opens. An arc that would cross another, where neither did before, keeps more points.

Coordinates are whole numbers, so that equal points are equal.
"""

import math
from functools import cache, cached_property

from .errors import library
from .geometry import meetings

MOST_REFINEMENTS = 8  # of an arc's distance, each to a half; then it keeps all of its points
APART = "FF*F*****"  # two lines share nothing but ends (DE-9IM)


def distance(point, first, last):
    """How far the point lies from the segment."""
    dx, dy = last[0] - first[0], last[1] - first[1]
    span = dx * dx + dy * dy or 1  # (of a loop, which begins where it ends)
    along = ((point[0] - first[0]) * dx + (point[1] - first[1]) * dy) / span
    along = 0.0 if along < 0 else 1.0 if along > 1 else along
    return math.hypot(point[0] - first[0] - along * dx, point[1] - first[1] - along * dy)


def weights(points):
    """For each point the greatest distance of simplification at which it is still left out. The ends are always kept."""
    result = [0.0] * len(points)
    result[0] = result[-1] = math.inf
    spans = [(0, len(points) - 1, math.inf)]
    while spans:
        first, last, bound = spans.pop()
        if last - first < 2:
            continue
        a, b = points[first], points[last]
        far, place = max((distance(points[i], a, b), i) for i in range(first + 1, last))
        result[place] = min(far, bound)
        spans += [(first, place, result[place]), (place, last, result[place])]
    return result


class Arc:
    """A line between two places where shapes meet, or a whole ring that meets no other."""

    def __init__(self, points):
        self.points = points
        self.halvings = 0
        self.is_border = False  # of a polygon

    @cached_property
    def weights(self):
        return weights(self.points)

    def places(self, tolerance):
        """The indices of the points that are left at the distance (None: all of them)."""
        if tolerance is None or self.halvings > MOST_REFINEMENTS:
            return range(len(self.points))
        least = tolerance / 2**self.halvings
        return [i for i, weight in enumerate(self.weights) if weight > least]

    def kept(self, tolerance):
        """The points that are left at the distance."""
        return [self.points[i] for i in self.places(tolerance)]

    def displacements(self, tolerance):
        """(how far it lies from the line that is left, point) of each point that isn't left at the distance."""
        places = self.places(tolerance)
        for first, last in zip(places, places[1:]):
            for point in self.points[first + 1 : last]:
                yield distance(point, self.points[first], self.points[last]), point


class Borders:
    """The arcs of shapes. A shape is a part with at least two points; a ring ends with its first point. Each part is given
    with whether it is the border of a polygon."""

    def __init__(self, parts):
        self.arcs = {}  # by their points
        self.neighbours = {}  # the points beside a point, or None where shapes meet
        for part, _ in parts:
            if part[0] == part[-1]:
                part = [part[-2], *part]
            else:
                self.neighbours[part[0]] = self.neighbours[part[-1]] = None
            for before, point, after in zip(part, part[1:], part[2:]):
                pair = min(before, after), max(before, after)
                if self.neighbours.setdefault(point, pair) != pair:
                    self.neighbours[point] = None
        self.cuts = {id(part): self.cut(part, is_border) for part, is_border in parts}

    def cut(self, part, is_border):
        """The part as arcs: (arc, whether it runs backwards) in order. A ring is cut where shapes meet, else at its least
        point, so that equal rings are equal."""
        if part[0] == part[-1]:
            ring = part[:-1]
            meeting = (i for i, point in enumerate(ring) if self.neighbours[point] is None)
            start = next(meeting, ring.index(min(ring)))
            part = ring[start:] + ring[: start + 1]
        places = [0] + [i for i in range(1, len(part) - 1) if self.neighbours[part[i]] is None] + [len(part) - 1]
        if len(places) == 2 and part[0] == part[-1] and self.neighbours[part[0]] is None:
            # A loop that meets others at one point: two arcs, so that each has ends.
            places.insert(1, max(range(1, len(part) - 1), key=lambda i: (math.dist(part[0], part[i]), part[i])))
        return [self.arc_of(part[first : last + 1], is_border) for first, last in zip(places, places[1:])]

    def arc_of(self, points, is_border):
        backwards = points[::-1] < points
        key = tuple(points[::-1] if backwards else points)
        arc = self.arcs.setdefault(key, Arc(key))
        arc.is_border |= is_border
        return arc, backwards

    def distances(self):
        """All distances at which something changes, ascending."""
        return sorted({weight for arc in self.arcs.values() for weight in arc.weights if weight < math.inf})

    def displacement(self, tolerance):
        """The largest one at the distance, and its point; 0 and None where nothing is displaced."""
        found = (one for arc in self.arcs.values() for one in arc.displacements(tolerance))
        return max(found, default=(0.0, None))

    def refine(self, tolerance):
        """Has borders that would cross at this distance keep more points."""
        self.line_of = library("shapely.geometry", "python3-shapely").LineString
        for arc in self.arcs.values():
            arc.halvings = 0
        for _ in range(MOST_REFINEMENTS + 1):
            crossing = self.crossing(tolerance)
            if not crossing:
                return
            for arc in crossing:
                arc.halvings += 1

    def crossing(self, tolerance):
        """The borders that cross another at this distance, or themselves, and don't where nothing is left out."""
        kept = [(arc, arc.kept(tolerance)) for arc in self.arcs.values() if arc.is_border]
        left = [(arc, self.line_of(points)) for arc, points in kept if points[0] != points[-1] or len(points) > 3]
        found = {arc for arc, line in left if not line.is_simple and self.were_apart(arc)}
        for i, j in meetings([line for _, line in left]):
            (one, its_line), (other, others_line) = left[i], left[j]
            if not its_line.relate_pattern(others_line, APART) and self.were_apart(one, other):
                found |= {one, other}
        return found

    @cache
    def were_apart(self, *arcs):
        """Whether one arc didn't cross itself, or two not one another, before anything was left out."""
        one, *others = (self.line_of(arc.points) for arc in arcs)
        return one.relate_pattern(others[0], APART) if others else one.is_simple

    def simplified(self, part, tolerance):
        """The part that its arcs make at this distance."""
        points = []
        for arc, backwards in self.cuts[id(part)]:
            kept = arc.kept(tolerance)[:: -1 if backwards else 1]
            points += kept[1:] if points else kept
        return points
