"""Pictures of a map by wfarm, and of a mapfile by MapServer, as pixmaps and as arrays of height, width and 3, and how alike
they are."""

import re
import threading

import numpy
from osgeo import gdal

from maps import preview
from maps.model import EXTENT_DIGITS, Layer, Map

from .case import answer

ONE_AT_A_TIME = threading.Lock()  # MapServer's library isn't made for threads


def map_of(text):
    """What of a map, by its canonical text, a query of its picture tells: system, extent, and the names of its layers."""
    crs = "3857" if '"init=epsg:3857"' in text else "4326"
    sides = re.search(r"^EXTENT (.*)$", text, re.MULTILINE)[1].split()
    extent = [round(float(side) * 10**EXTENT_DIGITS) for side in sides]
    names = re.findall(r'^LAYER\nNAME "(.*)"$', text, re.MULTILINE)
    return Map("", "", "", "", crs, EXTENT_DIGITS, extent, [Layer(name, name, "", [], []) for name in names])


def drawn_by_wfarm(program, text, side):
    """The pixmap of all layers."""
    return answer(program, text.encode(), "draw", preview.picture_query(map_of(text), side)).stdout


def drawn_by_mapserver(path, text, side, layers=None):
    """The pixmap of the mapfile in the system and extent of the map that was made of it."""
    the_map = map_of(text)
    with ONE_AT_A_TIME:
        return preview.drawn_by_mapserver(path, layers, the_map.crs, None, side, the_map.extent)


def pixels_of_png(path):
    return gdal.Open(str(path)).ReadAsArray()[:3].transpose(1, 2, 0)


def share_equal(one, other):
    return (one == other).all(axis=2).mean() if one.shape == other.shape else 0.0


def nearest(pixels, colors):
    """The picture with each pixel as the nearest of the colours: what a smoothed border would be unsmoothed."""
    known, places = numpy.unique(pixels.reshape(-1, 3), axis=0, return_inverse=True)
    distances = ((known[:, None].astype(int) - colors) ** 2).sum(axis=2)
    return colors[distances.argmin(axis=1)][places].reshape(pixels.shape)
