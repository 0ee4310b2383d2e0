"""Errors in one line, notes on what was changed, and the libraries of Debian that the tools need."""

import contextlib
import importlib
import sys


class MapError(Exception):
    """Why no map is written: one line that says where, what, and what to do."""

    def __init__(self, message):
        super().__init__(" ".join(str(message).split()))


@contextlib.contextmanager
def saying(words, *errors):
    """Has these errors of a library end the tool, in one line: the words, with what it says in the place of @."""
    try:
        yield
    except errors as error:
        raise MapError(words.replace("@", str(error))) from error


class Notes:
    """What was changed or left out, each kind counted, with the first place where it happened."""

    def __init__(self):
        self.told = {}  # (how often, first place) of each
        self.changes = 0  # by which a map differs from its mapfile, as an importer counts them

    def add(self, what, place="", count=1):
        before, first = self.told.get(what, (0, place))
        self.told[what] = before + count, first

    def lost(self, what, place="", count=1):
        self.add(f"left out: {what}", place, count)

    def lines(self):
        for what, (count, place) in self.told.items():
            where = f"{count} times{', first in ' + place if place else ''}" if count > 1 else place
            yield f"{what} ({where})" if where else what


def library(name, package):
    """The module, or an error that names its Debian package."""
    try:
        return importlib.import_module(name)
    except ImportError as error:
        raise MapError(
            f"Python's {name} isn't there: apt-get install {package}, and run this tool by Debian's Python, "
            f"/usr/bin/python3 (this is {sys.executable})") from error
