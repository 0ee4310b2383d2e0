"""Data as an agency has them, made anew: communes, roads and towns in EPSG:2056, as shapefile and GeoPackage, and mapfiles."""

import json
import math
import random
from itertools import product
from pathlib import Path
from string import Template

from osgeo import gdal

gdal.UseExceptions()

WEST, SOUTH, WIDTH, HEIGHT = 2_600_000, 1_200_000, 100_000, 50_000  # metres of EPSG:2056
USES = ("Wald", "Wiese", "Stadt", "Fels")
LATIN = {"layerCreationOptions": ["ENCODING=ISO-8859-1"]}  # of a shapefile


def crooked(first, last, depth, random_source):
    """A crooked line between two points, without its last point: 2^depth points."""
    if depth == 0:
        return [first]
    dx, dy = last[0] - first[0], last[1] - first[1]
    push = random_source.uniform(-0.15, 0.15)
    middle = ((first[0] + last[0]) / 2 - dy * push, (first[1] + last[1]) / 2 + dx * push)
    return crooked(first, middle, depth - 1, random_source) + crooked(middle, last, depth - 1, random_source)


def coverage(columns, rows, depth):
    """Rings of polygons that fill the area without gap or overlap: neighbours share crooked borders, point by point."""
    source = random.Random(73)
    step_x, step_y = WIDTH / columns, HEIGHT / rows

    def pushed(place, count, step):
        """Where a corner lies, pushed aside where it isn't at the edge."""
        return place * step + (0 < place < count) * source.uniform(-0.25, 0.25) * step

    corners = {(c, r): (WEST + pushed(c, columns, step_x), SOUTH + pushed(r, rows, step_y))
               for c in range(columns + 1) for r in range(rows + 1)}
    across = {(c, r): crooked(corners[c, r], corners[c + 1, r], depth, source) for c in range(columns) for r in range(rows + 1)}
    upward = {(c, r): crooked(corners[c, r], corners[c, r + 1], depth, source) for c in range(columns + 1) for r in range(rows)}
    rings = []
    for row, column in product(range(rows), range(columns)):
        top = [*across[column, row + 1], corners[column + 1, row + 1]]
        left = [*upward[column, row], corners[column, row + 1]]
        ring = across[column, row] + upward[column + 1, row] + top[:0:-1] + left[:0:-1]
        rings.append(ring + ring[:1])
    return rings


def feature(kind, coordinates, **properties):
    """A feature of GeoJSON, without a geometry if its kind is None."""
    shape = kind and {"type": kind, "coordinates": coordinates}
    return {"type": "Feature", "properties": properties, "geometry": shape}


def collection(*features, **members):
    return json.dumps({"type": "FeatureCollection", **members, "features": features})


def write_table(path, features, table=None, epsg=2056, **how):
    """A shapefile, or a table of a GeoPackage, which may have others, of features in the system."""
    gdal.VectorTranslate(str(path), collection(*features), accessMode="append", layerName=table or path.stem,
                         dstSRS=f"EPSG:{epsg}", reproject=False, **how)


def write_data(folder, columns=20, rows=10, depth=5, roads=300, towns=60):
    """communes.shp in Latin-1, and net.gpkg with the tables roads and towns."""
    source = random.Random(37)
    names = ("Genève", "Zürich", "Neuchâtel", "Bülach", "Fribourg", "Aigle")
    write_table(folder / "communes.shp", [
        feature("Polygon", [ring], NAME=f"{names[i % 6]} {i}", USE=USES[i * 7 % 4], POP=i * 37 % 5000, NR=i + 1)
        for i, ring in enumerate(coverage(columns, rows, depth))], **LATIN)
    ways = []
    for i in range(roads):
        start = WEST + source.uniform(0, WIDTH), SOUTH + source.uniform(0, HEIGHT)
        angle, far = source.uniform(0, 2 * math.pi), source.uniform(2_000, 9_000)
        end = (min(max(start[0] + far * math.cos(angle), WEST), WEST + WIDTH), min(max(start[1] + far * math.sin(angle), SOUTH), SOUTH + HEIGHT))
        own = {"class": "AHNK"[i % 4], "number": f"{'AHNK'[i % 4]}{i}", "lanes": i % 3}
        ways.append(feature("LineString", [*crooked(start, end, 4, source), end], **own))
    write_table(folder / "net.gpkg", ways, "roads")
    write_table(folder / "net.gpkg", [
        feature("Point", [WEST + source.uniform(0, WIDTH), SOUTH + source.uniform(0, HEIGHT)],
                name=f"Stadt-{i}", people=source.randrange(200, 90_000)) for i in range(towns)], "towns")


LABEL = 'LABEL COLOR 40 40 40 SIZE TINY POSITION CC END'


def write(folder, labels=True, **sizes):
    """The data, and beside them agency.map with its two included files."""
    write_data(folder, **sizes)
    values = {"west": WEST, "south": SOUTH, "east": WEST + WIDTH, "north": SOUTH + HEIGHT,
              "labels": '  LABELITEM "NAME"' if labels else "", "label": LABEL if labels else ""}
    for form in (Path(__file__).parent / "agency_files").iterdir():
        (folder / form.name).write_text(Template(form.read_text()).substitute(values))
