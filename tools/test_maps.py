#!/usr/bin/env python3
"""Tries tools/make_map.py and tools/import_mapfile.py, by hand and before a change of either.

Odd inputs, each with the line that rejects it or the map that is wanted, whose canonical text by PROGRAM has to be the
map itself; borders after simplification, by area; features as one shape, by their picture; and an agency's map beside
MapServer's own picture of the original. NAME chooses the cases whose name has it. --keep leaves the pictures in a folder.

It needs Debian's python3-gdal, python3-mapscript and python3-shapely.
"""

import os
import sys
import tempfile
from concurrent.futures import ThreadPoolExecutor
from functools import partial
from pathlib import Path

from farmkit.command import of_debian, program_parser
from maps.errors import MapError


def tried(asked):
    """Tries the cases and tells what is wrong. The status."""
    from maps_test import checks, constructs, odd_data, odd_mapfiles
    from maps_test.case import fault

    cases = {"make_map.py": odd_data.CASES, "import_mapfile.py": odd_mapfiles.CASES + constructs.CASES}
    ways = [(case.name, partial(fault, tool, case)) for tool, some in cases.items() for case in some]
    ways = [(name, way) for name, way in [*ways, *checks.CHECKS.items()]
            if not asked.names or any(wanted in name for wanted in asked.names)]

    def wrong(entry):
        name, way = entry
        with tempfile.TemporaryDirectory() as folder:
            try:
                what = way(Path(folder), asked.program, asked.keep)
            except MapError as error:
                what = str(error)
        return what and f"{name}: {what}"

    with ThreadPoolExecutor(os.cpu_count()) as workers:
        found = list(filter(None, workers.map(wrong, ways)))
    print(*found, f"{len(ways)} tried, {len(found)} wrong", sep="\n")
    return int(bool(found))


def main():
    words = program_parser(__doc__)
    words.add_argument("--keep", type=Path, metavar="FOLDER", help="a folder for the pictures")
    words.add_argument("names", nargs="*", metavar="NAME", help="cases whose name has this (all)")
    asked = words.parse_args()
    for name in ("osgeo", "mapscript", "shapely"):
        of_debian(name)
    if asked.keep:
        asked.keep.mkdir(parents=True, exist_ok=True)
    return tried(asked)


if __name__ == "__main__":
    sys.exit(main())
