"""What both tools take on their command lines."""

import argparse
import math
import re
from pathlib import Path

from .model import MOST_PIXELS


def color(text):
    """Red, green and blue, from R,G,B or #rrggbb."""
    if re.fullmatch(r"#[0-9a-fA-F]{6}", text):
        return tuple(int(text[i : i + 2], 16) for i in (1, 3, 5))
    parts = text.split(",")
    if len(parts) == 3 and all(re.fullmatch(r"[0-9]{1,3}", part) and int(part) < 256 for part in parts):
        return tuple(map(int, parts))
    raise argparse.ArgumentTypeError(f"{text!r} is no color: R,G,B or #rrggbb")


def whole(least, most):
    """A reader of whole numbers in a range."""

    def read(text):
        if re.fullmatch(r"[0-9]{1,9}", text) and least <= int(text) <= most:
            return int(text)
        raise argparse.ArgumentTypeError(f"{text!r} isn't a whole number from {least} to {most}")

    return read


def extent(text):
    """The least and greatest coordinates."""
    try:
        minx, miny, maxx, maxy = (float(piece) for piece in text.split(","))
    except ValueError as error:
        raise argparse.ArgumentTypeError(f"{text!r} is no extent: MINX,MINY,MAXX,MAXY") from error
    if not all(map(math.isfinite, (minx, miny, maxx, maxy))) or minx >= maxx or miny >= maxy:
        raise argparse.ArgumentTypeError(f"{text!r} is an empty extent: MINX,MINY,MAXX,MAXY, the minima below the maxima")
    return minx, miny, maxx, maxy


def names(text):
    return text.split(",")


def distance(text):
    """A distance in metres."""
    if re.fullmatch(r"[0-9]{1,8}(\.[0-9]{1,6})?", text):
        return float(text)
    raise argparse.ArgumentTypeError(f"{text!r} isn't a distance in metres")


def parser_of(document):
    """A parser whose help is the tool's docstring."""
    return argparse.ArgumentParser(description=document, formatter_class=argparse.RawDescriptionHelpFormatter)


def add_common(parser):
    """Adds the options of the map that both tools have."""
    parser.add_argument("--digits", type=whole(0, 6), help="digits after the point of a coordinate (6 in degrees, 1 in metres)")
    parser.add_argument("--fit", action="store_true", help="simplify by the least distance at which the map is within all limits")
    parser.add_argument("--simplify", type=distance, metavar="METRES", help="simplify by this distance on the ground; borders stay shared")
    parser.add_argument("--by-class", action="store_true", help="write each layer class by class: fewer bytes; where two classes cross, the later is on top")
    parser.add_argument("--apart", action="store_true", help="write each feature by itself, also where several could be one shape")
    parser.add_argument("--ascii", action="store_true", help="write labels in letters that are drawn (é as e, ß as ss, ø as o)")
    parser.add_argument("--query", type=Path, metavar="FILE", help="where to write the query of a picture of the whole map")
    parser.add_argument("--preview", type=Path, metavar="FILE.png", help="where to draw the source beside the map, at one scale, with the largest displacement")
    parser.add_argument("--program", metavar="WFARM", help="the program that draws the preview (wfarm)")
    parser.add_argument("--side", type=whole(1, MOST_PIXELS), default=400, metavar="PIXELS", help="the longer side of these pictures (400)")
