#!/usr/bin/env python3
"""Checks the Python beside the program: that it compiles, the tests of the tools, flake8, and the types of
farmkit by mypy; and by tools of it the documents and crates.txt.

    python3 tools/check_python.py

What is wanted stands in pyproject.toml. A linter that isn't there, or is of another version than is named
there, is left out, with a line that says so: it is no failure. So nothing here needs a network, git or a
package. The last line counts; the status is 0 where nothing failed.
"""

import os
import pathlib
import re
import subprocess
import sys
import unittest
from collections.abc import Iterator

from farmkit.command import parser
from farmkit.documents import paths
from farmkit.repository import TOP

HERE = TOP / "tools"
OLDEST = (3, 11)
# tools that say whether what stands elsewhere is so
CHECKS = (("links.py",), ("definitions.py", "--check"), ("crates.py", "--check"))


def scripts() -> list[pathlib.Path]:
    """The files of Python in the repository, those without a suffix too."""
    return [TOP / "demo", HERE / "wfarmctl", *(TOP / part / path for part in ("tools", "bench")
                                               for path in sorted(paths(TOP / part)) if path.endswith(".py"))]


def tell(what: str, wrong: str) -> bool:
    """A line for a check; whether it passed."""
    print(f"{what}: {'FAILED' if wrong else 'ok'}", flush=True)
    if wrong:
        print(wrong.rstrip(), flush=True)
    return not wrong


def uncompiled() -> str:
    wrong = []
    for path in scripts():
        try:
            compile(path.read_text(encoding="utf-8"), str(path), "exec")
        except (SyntaxError, ValueError) as error:
            wrong.append(f"{path.relative_to(TOP)}: {error}")
    return "\n".join(wrong)


def untested() -> tuple[int, int]:
    """How many of the tools' tests passed, and how many didn't."""
    suite = unittest.defaultTestLoader.discover(str(HERE / "tests"), top_level_dir=str(HERE / "tests"))
    result = unittest.TextTestRunner(stream=sys.stdout, verbosity=0).run(suite)
    failed = len(result.failures) + len(result.errors)
    return result.testsRun - failed, failed


def why_not(name: str, wanted: object) -> str:
    """Why a linter isn't run; nothing where it is."""
    try:
        ran = subprocess.run([name, "--version"], capture_output=True, text=True, timeout=60)
    except (OSError, subprocess.TimeoutExpired):
        return f"{name} is missing"
    this = next(iter(re.findall(r"\d+\.\d+", ran.stdout)), "another one")
    return "" if this == wanted else f"{name} {wanted} is wanted, and this is {this}"


def flake8_words(of: dict[str, object]) -> list[str]:
    words = ["flake8", "--isolated"]
    for name, value in of.items():
        words += [f"--{name}", ",".join(value) if isinstance(value, list) else str(value)]
    return [*words, *(str(path.relative_to(TOP)) for path in scripts())]


def checked() -> Iterator[tuple[str, str]]:
    """Each linter that is there, and each tool of CHECKS, with what it finds."""
    import tomllib
    of = tomllib.loads((TOP / "pyproject.toml").read_text(encoding="utf-8"))["tool"]
    commands = {"flake8": flake8_words(of["flake8"]), "mypy": ["mypy", "--cache-dir", os.devnull]}
    for name in [*commands]:
        if why := why_not(name, of["check_python"][name]):
            print(f"python checks not run: {why}", flush=True)
            del commands[name]
    commands |= {f"tools/{name}": [sys.executable, "-B", str(HERE / name), *words] for name, *words in CHECKS}
    for name, words in commands.items():
        ran = subprocess.run(words, cwd=TOP, capture_output=True, text=True)
        yield name, ran.stdout + ran.stderr if ran.returncode else ""


def main() -> int:
    parser(__doc__, "").parse_args()
    sys.dont_write_bytecode = True
    if sys.version_info < OLDEST:
        print(f"python checks not run: Python {'.'.join(map(str, OLDEST))} is wanted")
        print("0 passed, 0 failed")
        return 0
    done = [tell(f"{len(scripts())} files compile", uncompiled())]
    passed, failed = untested()
    done += [tell(name, wrong) for name, wrong in [*checked()]]
    passed, failed = passed + done.count(True), failed + done.count(False)
    print(f"{passed} passed, {failed} failed")
    return 1 if failed else 0


if __name__ == "__main__":
    sys.exit(main())
