"""One run of a tool in a folder of its own, and what is wanted of it."""

import re
import subprocess
import sys
from dataclasses import dataclass, field
from pathlib import Path

from maps.errors import MapError

TOOLS = Path(__file__).resolve().parent.parent


@dataclass
class Case:
    """`error` is a pattern of the one line, behind notes if some are wanted, with which the tool ends; else a map is wanted. `notes` and `silent` are
    patterns of notes that it writes and doesn't, `lines` and `absent` lines that its map has and hasn't."""

    name: str
    words: list
    files: dict = field(default_factory=dict)
    make: object = None  # a function of the folder, where texts aren't enough
    error: str = None
    status: int = 1
    notes: tuple = ()
    silent: tuple = ()
    lines: tuple = ()
    absent: tuple = ()


def run(tool, words, folder):
    return subprocess.run([sys.executable, str(TOOLS / tool), *words], cwd=folder, capture_output=True)


def made(tool, words, folder):
    """The map that a tool has to make, and what it says."""
    done = run(tool, words, folder)
    if done.returncode != 0:
        raise MapError(done.stderr.decode().strip() or f"{tool} ended with status {done.returncode}")
    return done.stdout.decode(), done.stderr.decode().strip()


def answer(program, text, *words):
    """What the program says of a mapfile."""
    return subprocess.run([program, *words], input=text, capture_output=True)


def fault(tool, case, folder, program, keep):
    """The first that is wrong with the run, or None."""
    for name, content in case.files.items():
        (folder / name).write_bytes(content.encode("utf-8", "surrogateescape"))
    if case.make is not None:
        case.make(folder)
    return next(faults(case, run(tool, case.words, folder), program), None)


def faults(case, done, program):
    said = done.stderr.decode()
    lines = said.strip().splitlines()
    if "Traceback" in said:
        yield f"a traceback: {lines[-1]}"
    yield from wrong_map(case, done, lines, program) if case.error is None else wrong_error(case, done, lines)
    for notes, is_wanted in ((case.notes, True), (case.silent, False)):
        for note in notes:
            if is_wanted != any(re.match(f"note: .*{note}", line) for line in lines):
                yield f"{'no' if is_wanted else 'a'} note {note!r}: {said.strip()}"


def wrong_error(case, done, lines):
    if done.returncode != case.status or done.stdout:
        yield f"status {done.returncode}, {len(done.stdout)} bytes written: {lines}"
    errors = [line for line in lines if not (case.notes and line.startswith("note: "))]
    if case.status == 1 and (len(errors) != 1 or not errors[0].startswith("error: ")):
        yield f"more than a line: {lines}"
    if not re.search(case.error, lines[-1]):
        yield f"another error: {lines[-1]}"


def wrong_map(case, done, lines, program):
    if done.returncode != 0:
        yield f"status {done.returncode}: {lines}"
    own = answer(program, done.stdout, "canon")
    if own.stdout != done.stdout:
        yield f"wfarm canon has another text: {own.stderr.decode().strip()}"
    present = done.stdout.decode().splitlines()
    yield from (f"no line {line!r}" for line in case.lines if line not in present)
    yield from (f"a line {line!r}" for line in case.absent if line in present)
