"""A map's text at a distance of simplification, and the least distance at which it is within the limits."""

import math
import sys
from bisect import bisect_left
from dataclasses import dataclass, replace

from .borders import Borders
from .errors import MapError
from .geometry import longer_side, metres_a_unit, on_grid
from .merging import merged
from .model import (EXTENT_DIGITS, LEAST_POINTS, MOST_BYTES, MOST_FEATURES, MOST_PIXELS, MOST_POINTS,
                    canonical_text)

ROUNDING = math.sqrt(0.5)  # of the last digit, by which rounding displaces a point at most
STEP = 1.03  # by which a distance grows where borders that would cross kept too many points


@dataclass
class Written:
    """A map's text, how large it is, and what became too small to draw. The largest displacement is in words, its place in
    millionths of a unit."""

    text: str
    features: int
    points: int
    lost_parts: int
    lost_features: list
    largest: str = ""
    place: tuple = None

    def excess(self):
        """Which limit the map is over, or None."""
        counts = ((self.features, MOST_FEATURES, "features"), (self.points, MOST_POINTS, "points"),
                  (len(self.text.encode()), MOST_BYTES, "bytes of canonical text"))
        over = (f"{count:,} {what}, over the limit of {most:,}" for count, most, what in counts if count > most)
        return next(over, None)


class Fitting:
    """A map whose lines and rings are arcs. Its features are joined where no picture can tell."""

    def __init__(self, the_map, options):
        layers = []
        for layer in the_map.layers:
            if options.by_class:
                layer = replace(layer, features=sorted(layer.features, key=lambda feature: feature.group))
            layers.append(layer if options.apart else replace(layer, features=merged(layer)))
        self.map = replace(the_map, layers=layers)
        self.unit = 10**the_map.digits
        self.extent = [side / 10**EXTENT_DIGITS for side in the_map.extent]
        self.metres = metres_a_unit(the_map.crs, self.extent)
        lined = [layer for layer in layers if layer.kind != "POINT"]
        self.borders = Borders([(part, layer.kind == "POLYGON") for layer in lined for part in layer.parts()])

    def written(self, tolerance):
        """The map at the distance, in units of its coordinates (None: as it is), as text."""
        simpler, lost = self.map_at(tolerance)
        parts = simpler.parts()
        return Written(canonical_text(simpler), len(simpler.features()), sum(map(len, parts)),
                       len(self.map.parts()) - len(parts), [feature for some in lost for feature in some])

    def map_at(self, tolerance):
        """The map at the distance, and the features of each layer that are too small to draw."""
        def parts_at(kind, feature):
            if kind == "POINT" or tolerance is None:
                return feature.parts
            parts = [self.borders.simplified(part, tolerance) for part in feature.parts]
            return [part for part in parts if len(part) >= LEAST_POINTS[kind]
                    and not (kind == "LINE" and len(part) == 2 and part[0] == part[1])]

        return reshaped(self.map, parts_at)

    def simplified(self, tolerance):
        """The map at the distance, with borders that don't cross."""
        self.borders.refine(tolerance)
        return self.written(tolerance)

    def fitted(self):
        """The least distance at which the map is within the limits (None: as it is), and the map at it."""
        whole = self.written(None)
        if whole.excess() is None:
            return None, whole
        distances = self.borders.distances()
        excess = (self.written(distances[-1]) if distances else whole).excess()
        if excess is not None:
            raise MapError(f"even with the simplest shapes the map has {excess}: take a part by --extent, leave out layers or "
                           "small features, write --by-class or fewer labels, or make two maps (docs/MAPFILES.md, \"Two maps\")")
        least = bisect_left(distances, True, hi=len(distances) - 1, key=lambda it: self.written(it).excess() is None)
        tolerance = distances[least]
        while (excess := (written := self.simplified(tolerance)).excess()) is not None:
            if tolerance > distances[-1]:
                raise MapError(f"with borders that don't cross the map has {excess}: make two maps (docs/MAPFILES.md)")
            tolerance *= STEP
        return tolerance, written

    def pixels(self, distance):
        """A distance on the largest picture of the extent."""
        return distance / self.unit * MOST_PIXELS / longer_side(self.extent)

    def largest(self, tolerance):
        """The largest displacement, rounding included, and where it is; None where points were rounded alone."""
        distance, point = self.borders.displacement(tolerance)
        whole = distance + ROUNDING
        metres = whole / self.unit * self.metres
        spelled = f"{metres:,.0f}" if metres >= 100 else f"{metres:.3g}"
        place = point and tuple(side * 10**EXTENT_DIGITS // self.unit for side in point)
        return f"{spelled} m, {self.pixels(whole):.2g} pixels of {MOST_PIXELS:,}", place


def rounded(the_map, digits, notes):
    """The map with fewer digits."""
    coarser, lost = reshaped(the_map, lambda kind, feature: on_grid(feature.parts, kind, digits - the_map.digits))
    for layer, features in zip(the_map.layers, lost):
        tell_lost(features, f"layer {layer.name}: ", notes)
    notes.add(f"coordinates have {digits} digits after the point")
    return replace(coarser, digits=digits)


def reshaped(the_map, parts_of):
    """The map with the parts that a function of a kind and a feature gives, and the features of each layer with none."""
    layers, lost = [], []
    for layer in the_map.layers:
        features = [replace(feature, parts=parts_of(layer.kind, feature)) for feature in layer.features]
        layers.append(replace(layer, features=[feature for feature in features if feature.parts]))
        lost.append([feature for feature in features if not feature.parts])
    return replace(the_map, layers=layers), lost


def tell_lost(features, place, notes):
    """Notes the features that became too small to draw, and their labels."""
    if features:
        labels = [feature.text for feature in features if feature.text]
        named = f", {len(labels)} of them with a label ({', '.join(labels[:5])}{', ..' if len(labels) > 5 else ''})" if labels else ""
        notes.lost(f"{place}{len(features)} features that became too small to draw{named}")


def fitted(the_map, options, notes):
    """The map at the least distance at which it is within the limits. Unless --digits says how many, digits that mean
    less than a tenth of the distance are left out, which leaves room for more points."""
    fitting = Fitting(the_map, options)
    tolerance, written = fitting.fitted()
    spare = 0 if tolerance is None or options.digits is not None else int(math.log10(max(1, tolerance / 10)))
    digits = max(0, the_map.digits - spare)
    if digits < the_map.digits:
        fitting = Fitting(rounded(the_map, digits, notes), options)
        tolerance, written = fitting.fitted()
    return fitting, tolerance, written


def finished(the_map, options, notes):
    """The map's text within the limits, by --fit or --simplify, or an error that says which limit and what to do."""
    if options.fit:
        fitting, tolerance, written = fitted(the_map, options, notes)
    else:
        fitting = Fitting(the_map, options)
        tolerance = options.simplify / fitting.metres * fitting.unit if options.simplify else None
        written = fitting.written(None) if tolerance is None else fitting.simplified(tolerance)
    excess = written.excess()
    if excess is not None:
        remedy = "write --fit" if not options.simplify else "simplify more, or write --fit"
        raise MapError(f"the map has {excess}: {remedy}, take a part by --extent, leave out layers or features, or make two maps (docs/MAPFILES.md)")
    written.largest, written.place = fitting.largest(tolerance)
    if tolerance is not None:
        notes.add(f"simplified by {tolerance / fitting.unit * fitting.metres:,.4g} m on the ground, "
                  f"{fitting.pixels(tolerance):.2g} pixels of a picture {MOST_PIXELS:,} pixels wide")
    if written.lost_parts:
        notes.lost(f"{written.lost_parts} parts of shapes that became too small to draw")
    tell_lost(written.lost_features, "", notes)
    return written


def tell(written, notes, stream=sys.stderr):
    """Notes and the map's size, a line each."""
    for line in notes.lines():
        print(f"note: {line}", file=stream)
    print(f"note: {len(written.text.encode()):,} bytes, {written.features:,} features, {written.points:,} points; "
          f"the largest displacement is {written.largest}", file=stream)
