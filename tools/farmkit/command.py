"""Command lines of the scripts: their help, the program that they try, and what they say is missing."""

import argparse
import importlib
import os
import pathlib
import shutil
import sys
import textwrap
from collections.abc import Callable, Iterable
from typing import Any

from farmkit.repository import PROGRAM

STATUSES = """Exit status: 0 where all is as it should be, 1 where it isn't, 2 for a bad command line or where
something that it wants is missing."""
GROWTH = "Exit status: 0 where twice the input costs at most three times as much, each time, else 1."


def parser(document: str | None, statuses: str = STATUSES) -> argparse.ArgumentParser:
    """A parser whose help is the script's docstring, with what its statuses say."""
    return argparse.ArgumentParser(description=document, epilog=statuses,
                                   formatter_class=argparse.RawDescriptionHelpFormatter)


def add_program(to: argparse.ArgumentParser, default: pathlib.Path = PROGRAM,
                name: str = "--program") -> None:
    """The built program, by an option."""
    said = f"the built program ({default.relative_to(default.parents[3])})"
    to.add_argument(name, type=program_at, default=str(default), metavar="PROGRAM", help=said)


def program_parser(document: str | None) -> argparse.ArgumentParser:
    made = parser(document)
    add_program(made)
    return made


def add_slack(to: argparse.ArgumentParser) -> None:
    """Seconds for a machine that has other work."""
    to.add_argument("--slack", type=float, default=0, metavar="SECONDS",
                    help="what is added to each limit, on a machine with other work (0)")


def program_at(path: str) -> str:
    """The path of a program that is there, from wherever it is used later."""
    if not os.access(path, os.X_OK):
        raise argparse.ArgumentTypeError(f"no program is at {path}; `rt ci` makes the proved one")
    return os.path.abspath(path)


def add_cases(to: argparse.ArgumentParser, names: Iterable[str], metavar: str = "CASE") -> None:
    """The cases that are tried, all of them where none is named."""
    to.add_argument("cases", nargs="*", metavar=metavar, choices=[[], *names],
                    help="one of those above; all of them if left out")


def listed(document: str | None, cases: Iterable[Callable[..., Any]], title: str = "Cases") -> str:
    """A docstring with a line for each case behind it: its name, and what its own docstring says."""
    lines = [textwrap.fill(" ".join((case.__doc__ or "").split()), 110, subsequent_indent=" " * 16,
                           initial_indent=f"    {case.__name__:<11} ") for case in cases]
    return "\n".join([f"{document}\n{title}:", *lines])


def numbers(text: str) -> list[int]:
    return [int(word) for word in text.split(",")]


def lacks(*programs: str, root: bool = False) -> list[str]:
    """Those of these programs that aren't here, and root where it is wanted."""
    wanted = ["root"] if root and os.geteuid() != 0 else []
    return wanted + [name for name in programs if shutil.which(name) is None]


def of_debian(name: str) -> Any:
    """A module that Debian packages for its own Python. Ends the script where it isn't there."""
    try:
        return importlib.import_module(name)
    except ImportError:
        sys.exit(tell_missing([f"Python's {name.partition('.')[0]}, which /usr/bin/python3 of Debian has"]))


def need(*programs: str, root: bool = False) -> None:
    """Ends the script where one of these programs isn't here, or root where it is wanted."""
    if lacking := lacks(*programs, root=root):
        sys.exit(tell_missing(lacking))


def tell_missing(things: Iterable[str]) -> int:
    """Says what is missing: the status for it."""
    print("missing: " + ", ".join(things), file=sys.stderr)
    return 2
