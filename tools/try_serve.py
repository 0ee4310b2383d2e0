#!/usr/bin/env python3
"""Tries the built program's `serve`: three nodes, two publishes, equal answers, old maps by MAPSEQ, refusals
of which the client hears though it is still sending, answers that come whole though the client has sent more
than its request, and a new start on the same folder. Then starts that are rejected, and leave every file as
it was: of another number of nodes, and with a tape of another farm; the file `farm` of a new folder, and of
one that is taken over; lines of the log; and files that may not grow. The other causes of a rejected start,
and what `wfarm tape` lists, are cases of `crates/wf_test_commands`; clients that stay or trickle are
`tools/hostile.py`'s.
"""

import pathlib
import re
import shutil
import signal
import subprocess
import sys
import tempfile

from farmkit.command import program_parser
from farmkit.folder import contents
from farmkit.mapfiles import GET_MAP, PIXEL, map_of, picture_of
from farmkit.processes import UNSIGNALLED, Farm, limited, serve_words
from farmkit.trial import Trial
from farmkit.web import CAPABILITIES

NEWEST = PIXEL.removesuffix("&MAPSEQ=%d")


def three_nodes(seen, program, folder):
    farm = Farm(program, 20, folder)
    seen.same("a publish", farm.ask("/publish", map_of(7)), (202, b"accepted for 1\n"))
    for node, proposal in ((1, "none"), (2, "none"), (0, "published 1")):
        wanted = "node %d published 1 proposal %s\n" % (node, proposal)
        seen.same("node %d" % node, farm.ask("/status"), (200, wanted.encode()))
    documents = [farm.ask(CAPABILITIES) for _ in range(3)]
    seen.same("equal capabilities", documents.count(documents[0]), 3)
    seen.same("the sequence in them", b'updateSequence="1"' in documents[0][1], True)
    seen.same("equal pictures", [farm.ask(NEWEST) for _ in range(3)], [(200, picture_of(7))] * 3)
    seen.same("a second publish", farm.ask("/publish", map_of(8)), (202, b"accepted for 2\n"))
    seen.same("the old map", farm.ask(PIXEL % 1), (200, picture_of(7)))
    seen.same("the new map", farm.ask(NEWEST), (200, picture_of(8)))
    seen.same("no map", farm.ask("/publish", b'MAP INCLUDE "x" END'), (400, b"M5 4\n"))
    seen.same("no such path", farm.ask("/x")[0], 404)
    seen.same("a publish by GET", farm.ask("/publish")[0], 405)
    seen.same("a map over the limit", farm.ask("/publish", b" " * 131_073)[0], 413)
    seen.same("one far over it", farm.ask("/publish", b" " * 200_000)[0], 413)
    for more in (0, 20_000):
        told = farm.ask_with_more(GET_MAP.format(200) % 2, more)
        seen.same("a picture, %d bytes after the head" % more, len(told.partition(b"\r\n\r\n")[2]), 120_015)
    farm.end()
    again = Farm(program, 3, folder)
    for node in range(3):
        seen.same("node %d again" % node, again.ask("/status"),
                  (200, b"node %d published 2 proposal none\n" % node))
    again.end()


def start(program, folder, nodes=3, log=False):
    """A start that serves no connection: its status, what it prints and its error lines."""
    words = serve_words(program, 0, folder, nodes=nodes, log=log)
    ended = subprocess.run(words, capture_output=True, text=True, timeout=20)
    return ended.returncode, ended.stdout, ended.stderr


def farm_with(program, folder, *numbers):
    """A folder of three nodes with the maps of these numbers."""
    folder.mkdir()
    farm = Farm(program, 3 * len(numbers), folder)
    for number in numbers:
        farm.ask("/publish", map_of(number))
        farm.ask("/status")
        farm.ask("/status")
    farm.end()


def rejections(seen, program, folder):
    """Starts that are rejected for a cause, which the log names."""
    farm_with(program, folder, 7, 8)
    other = folder.parent / "other"
    farm_with(program, other, 9)
    copy = shutil.copytree(folder, folder.parent / "foreign")
    shutil.copy(other / "node-1.tape", copy / "node-1.tape")
    differ = f'cause="tapes differ" file="{copy}/node-0.tape" other="{copy}/node-1.tape" sequence=1'
    for place, nodes, cause in ((folder, 5, "one of 3 nodes"), (copy, 3, differ)):
        before = contents(place)
        status, printed, lines = start(program, place, nodes, log=True)
        told = [line for line in lines.splitlines() if " error fault cause=" in line]
        seen.same(cause, (status, printed, lines.splitlines()[-1:], cause in "".join(told), len(told)),
                  (1, "", ["serve fault"], True, 1))
        seen.same("the files", contents(place), before)


def beginnings(seen, program, folder):
    text = (folder / "farm").read_text()
    form = r"wfarm folder 1\nkind serve\nbegan %s\nnodes 03\nmark [0-9a-f]{32}\n"
    seen.same("the file of a new folder", bool(re.fullmatch(form % "empty", text)), True)
    empty = folder.parent / "empty"
    empty.mkdir()
    (empty / "node-0.tape").write_bytes(b"")
    seen.same("a folder of one tape without a byte", start(program, empty)[0], 0)
    seen.same("its file", bool(re.fullmatch(form % "empty", (empty / "farm").read_text())), True)
    seen.same("two folders, two marks", (empty / "farm").read_text() != text, True)
    copy = shutil.copytree(folder, folder.parent / "found")
    (copy / "farm").unlink()
    seen.same("a folder that is taken over", start(program, copy)[0], 0)
    seen.same("its file", bool(re.fullmatch(form % "found", (copy / "farm").read_text())), True)
    seen.same("a start on it", start(program, copy)[0], 0)


def log(seen, program, folder):
    with tempfile.TemporaryFile("w+") as lines:
        farm = Farm(program, 3, folder, log=True, stderr=lines)
        answers = [farm.ask("/publish", body).status for body in (map_of(5), b"MAP", map_of(5))]
        farm.end()
        lines.seek(0)
        log = [line.rstrip("\n").partition(" ")[2] for line in lines]
    seen.same("answers", answers, [202, 400, 202])
    for wanted in ("info listening port=%d" % farm.port, 'info folder path="%s" nodes=3 began=empty' % folder,
                   "info caught-up node=2 published=2", 'info proposed node=0 answer="accepted for 3"',
                   "info published node=0 sequence=3", 'warn rejected node=1 status=400 answer="M6 3"',
                   "info published node=2 sequence=4", "info end connections=3"):
        seen.same("log: %s" % wanted, wanted in log, True)
    tape = [line for line in log if line.startswith('info tape file="%s/node-1.tape" before=' % folder)]
    seen.same("log: a tape", len(tape), 1)


def files_that_cannot_grow(seen, program, folder):
    """The signal ends the program; without the signal a publish is answered 503."""
    copy = shutil.copytree(folder, folder.parent / "limited")
    start(program, copy)  # shortens the tapes
    most = max(map(len, contents(copy).values())) + 20
    farm = Farm(program, 3, copy, preexec_fn=limited(most))
    farm.ask("/publish", map_of(6))
    seen.same("the signal ends the program", farm.process.wait(timeout=20), -signal.SIGXFSZ)
    farm = Farm(program, 6, copy, before=UNSIGNALLED, preexec_fn=limited(most))
    answers = [farm.ask("/publish", map_of(6)).status for _ in range(6)]
    seen.same("without the signal it is 503 in the end", answers[-1], 503)
    farm.end()
    more = Farm(program, 2, copy)
    seen.same("with more room what was published is there", more.ask(PIXEL % 1), (200, picture_of(7)))
    seen.same("and a publish is taken", more.ask("/publish", map_of(6)).status, 202)
    more.end()


def main():
    program, seen = program_parser(__doc__).parse_args().program, Trial()
    with tempfile.TemporaryDirectory() as folder:
        three_nodes(seen, program, pathlib.Path(folder))
    with tempfile.TemporaryDirectory() as place:
        for part in (rejections, beginnings, log, files_that_cannot_grow):
            part(seen, program, pathlib.Path(place) / "farm")
    return seen.conclude()


if __name__ == "__main__":
    sys.exit(main())
