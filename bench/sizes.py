#!/usr/bin/env python3
"""Measures what grows with its input at three sizes, each twice the one before: the instructions where
valgrind is there, else the time; in one case the memory.

Cases, all of them where none is named:
    canon     `wfarm canon` of a mapfile of 131,072 bytes, the longest there is
    features, labels, pixels   `wfarm draw` of 400 squares, 400 labels, 1,000 by 500 pixels
    script    `wfarm run` of a script of 10,000 lines with 100,000 deliveries on 5 nodes
    tape      a node opens on a tape of 4,096 published maps, the longest history
    held      a node opens on a tape of 2,048 maps, before which as many sequences further on get eight
              promises and a vote each
    start     `wfarm serve` with one node starts on a tape of 4,096 maps of 2 KB, and shortens it: the time
    promise, accept, published   1,024 messages to an acceptor with 4,096 votes, the most there are: a
              Promise, an Accept that replaces a vote, a published sequence, whose vote goes
    memory    the heap's peak, counted by valgrind, of `wfarm draw` of 1,024 by 1,024 pixels with 2,000 labels

Of each but `memory` the cost of the least input is taken off. From `tape` on, but for `start` and `memory`,
the built program of cases (wf_test_map) is asked; what the same tape takes with a bad first byte,
or the votes alone, is taken off.
"""

import pathlib
import re
import subprocess
import sys
import tempfile
from functools import partial

from farmkit.command import GROWTH, add_cases, add_program, need, parser
from farmkit.measure import grows_well, instructions, most_held, ran, ratios, shortest, timed
from farmkit.processes import Farm
from farmkit.repository import TOP, built
from farmkit.tapes import ACCEPTED, PROMISED, PUBLISHED, record, tape_of

RUNS = 7
TABLE = TOP / "crates" / "wf_test_map" / "stdin"
ENDING, UNEXPECTED = b"1 cases, 0 differ, 0 faults", b"1 cases, 1 differ, 0 faults"
LONGEST = 131_072
HEAD = b'MAP NAME "bench" EXTENT 0 0 4 4 PROJECTION "init=epsg:4326" END LAYER NAME p TYPE LINE\n'
TAIL = b"END END\n"
# ten points with every digit that a number may have, so that the canonical text is much shorter than the file
POINTS = b" ".join(b"%d.25%023d %d.5%024d" % (n, 0, n + 1, 0) for n in range(10))
FEATURE = b"FEATURE POINTS %s END END\n" % POINTS
NODES = 5
# a proposal that each node hears: Prepare, a Promise of each, Accept, an Accepted of each, Chosen; the next
# three of the same node need no promises
MESSAGES, LED = 2 * NODES + 3, NODES + 2
MAP = 'MAP NAME "a" EXTENT 0 0 4 4 PROJECTION "init=epsg:4326" END END'
PROMISES = 8
MESSAGES_SENT = 1_024
QUERY = ("VERSION=1.3.0&REQUEST=GetMap&LAYERS=a&STYLES=&CRS=EPSG:3857&BBOX=0,0,100,100&WIDTH={}&HEIGHT={}"
         "&FORMAT=image/x-portable-pixmap")
STYLE = "STYLE COLOR 200 220 180 OUTLINECOLOR 90 120 60 WIDTH 2 END"


def blocks(pattern):
    """The blocks of the table of cases in which a line is as this pattern says."""
    every = TABLE.read_text(encoding="utf-8").split("\n\n")
    return [it for it in every if re.search(f"(?m)^({pattern})$", it)]


def mapfile(size):
    room = size - len(HEAD) - len(TAIL)
    count = room // len(FEATURE)
    return HEAD + FEATURE * count + b" " * (room - count * len(FEATURE)) + TAIL


def cost_of(*runs):
    """What a run costs more than another one, each given by its words, its input and what it writes: the
    milliseconds, and the instructions, with their units."""
    spent = [shortest(lambda: ran(*each), RUNS) for each in runs]
    counted = [instructions(*each) for each in runs]
    costs = [(spent[0] - sum(spent[1:]), "ms")]
    if all(counted):
        costs.append(((counted[0] - sum(counted[1:])) / 1e6, "million instructions"))
    return costs


def canon(options, size):
    words = [options.program, "canon"]
    return cost_of((words, mapfile(size)), (words, mapfile(len(HEAD) + len(TAIL))))


def map_of(kind, styling, features):
    return (f'MAP NAME "sizes" EXTENT 0 0 100 100 PROJECTION "init=epsg:3857" END LAYER NAME a TYPE {kind}\n'
            f"CLASS {styling} END\n{''.join(features)}END END\n").encode()


def draw(options, kind, styling, features, width=512, height=512):
    """What a picture costs more than one of a pixel."""
    text = map_of(kind, styling, features)
    words = [[options.program, "draw", QUERY.format(*sides)] for sides in ((width, height), (1, 1))]
    return cost_of((words[0], text), (words[1], text))


def squares(count):
    """Squares beside one another, of a size that doesn't depend on their number."""
    places = [(k % 20 * 5, k // 20 * 5) for k in range(count)]
    return [f"FEATURE POINTS {x} {y} {x + 4} {y} {x + 4} {y + 4} {x} {y + 4} END END\n" for x, y in places]


def features(options, count):
    return draw(options, "POLYGON", STYLE, squares(count))


def labels(options, count):
    places = [f"{k % 10 * 10 + 5} {k // 4 + 0.25}" for k in range(count)]
    names = [f'FEATURE TEXT "N{k:03}" POINTS {place} END END\n' for k, place in enumerate(places)]
    return draw(options, "POINT", "LABEL SIZE TINY END", names)


def pixels(options, width, height):
    return draw(options, "POLYGON", STYLE, squares(100), width, height)


def memory(options, height):
    need("valgrind")
    names = [f'FEATURE TEXT "{k % 100}" POINTS {k % 50 * 2 + 0.5} {k // 50 * 2.5 + 0.5} END END\n'
             for k in range(2_000)]
    text = map_of("POINT", "LABEL SIZE TINY END", names)
    return [(most_held([options.program, "draw", QUERY.format(1_024, height)], text) / 1e6, "million bytes")]


def script(options, lines):
    """What a script of so many lines costs, with ten deliveries for each."""
    rounds, more = 0, 10 * lines
    while more >= (needed := NODES * (LED if rounds % 4 else MESSAGES)):
        rounds, more = rounds + 1, more - needed
    text = [f"nodes {NODES}", "map a", MAP, "endmap"] + ["propose 0 a", "pump", "published", "sent"] * rounds
    text += ["deliver 0" + f" {MESSAGES - 1}" * more] if more else []
    text += ["# nothing happens here"] * (lines - 1 - len(text)) + ["published", ""]
    written = b"published" + b" %d" % rounds * NODES + b"\n"
    return cost_of(([options.program, "run"], "\n".join(text).encode(), written))


class Tape:
    """A tape as lines of a table, record by record, with the canonical text `a` as its maps."""

    def __init__(self, maps, held):
        block = blocks("text a")[0]
        self.text = block[block.index("text a"):]
        self.text_length = sum(len(it) - 1 for it in re.findall(r"(?m)^< .*", block))
        self.lines, self.length = [], 0
        for slot in range(maps + 1, maps + held + 1):
            for number in range(1, PROMISES + 1):
                self.add(PROMISED, slot, number.to_bytes(4, "big") + b"\0", with_text=False)
            self.add(ACCEPTED, slot, PROMISES.to_bytes(4, "big") + b"\0")
        for slot in range(1, maps + 1):
            self.add(PUBLISHED, slot)

    def add(self, kind, slot, fields=b"", with_text=True):
        text = bytes(with_text * self.text_length)
        whole = record(kind, slot.to_bytes(2, "big") + fields + text)
        self.lines.append("<. " + "".join(f"\\x{it:02x}" for it in whole[:len(whole) - len(text)]))
        self.lines += ["<& a"] if with_text else []
        self.length += len(whole)

    def asked(self, lines, answer):
        """The table that asks what a node opens with on these lines, and its program's last words."""
        case = [self.text, "", "case a node opens", "ask open 0 of 3", *lines, f"> {answer}", ""]
        return "\n".join(case).encode(), ENDING


def tape(options, maps, held=0):
    """What opening a node on a tape takes."""
    its, words = Tape(maps, held), [options.cases_program]
    unread = its.asked(["<. \\x00", *its.lines], f"P2: a bad record at 0, {1 + its.length} bytes")
    whole = its.asked(its.lines, f"published {maps}, {its.length} bytes")
    return cost_of((words, *whole), (words, *unread))


def table_of_votes(votes, messages):
    """The table that gives an acceptor votes, and then messages with a wrong answer, so that each is told."""
    lines = ["case votes", "ask acceptor 1", "<& the maps a and b",
             *(f"< accept {slot} 1 0 a" for slot in range(1, votes + 1)), *messages, "> none"]
    return "\n\n".join([*blocks("text (a|b|the maps a and b)"), "\n".join(lines)]).encode() + b"\n"


def messages(form, options, votes):
    """What messages cost an acceptor that has votes, one at each of so many sequences."""
    places = [1 + it * 2477 % votes for it in range(MESSAGES_SENT)]
    some = [f"< {form.format(spread=at, next=it + 1, round=it + 2)}" for it, at in enumerate(places)]
    tables = table_of_votes(votes, some), table_of_votes(votes, [])
    return cost_of(*(([options.cases_program], table, UNEXPECTED) for table in tables))


def started(program, tape):
    """The milliseconds of a start on a copy of a tape."""
    with tempfile.TemporaryDirectory() as folder:
        (pathlib.Path(folder) / "node-0.tape").write_bytes(tape)
        farm, took = timed(lambda: Farm(program, 0, folder, nodes=1, stderr=subprocess.DEVNULL))
        with farm:
            return took


def start(options, maps):
    with tempfile.NamedTemporaryFile() as file:
        tape_of(options.program, pathlib.Path(file.name), maps)
        whole = pathlib.Path(file.name).read_bytes()
    spent = min(started(options.program, whole) - started(options.program, b"") for _ in range(RUNS))
    return [(spent, "ms")]


# what costs, its sizes in words, and the three of them
CASES = {
    "canon": (canon, "{} bytes", (LONGEST // 4, LONGEST // 2, LONGEST)),
    "features": (features, "{} squares", (100, 200, 400)),
    "labels": (labels, "{} labels", (100, 200, 400)),
    "pixels": (pixels, "{} by {}", ((500, 250), (500, 500), (1000, 500))),
    "script": (script, "{} lines", (2_500, 5_000, 10_000)),
    "tape": (tape, "{} maps", (1024, 2048, 4096)),
    "held": (lambda options, maps: tape(options, maps, held=maps), "{} maps", (512, 1024, 2048)),
    "start": (start, "{} maps", (1024, 2048, 4096)),
    "promise": (partial(messages, "prepare {spread} {round} 0"), "{} votes", (1024, 2048, 4096)),
    "accept": (partial(messages, "accept {spread} {round} 0 b"), "{} votes", (1024, 2048, 4096)),
    "published": (partial(messages, "publish {next} a"), "{} votes", (1024, 2048, 4096)),
    "memory": (memory, "1024 by {}", (256, 512, 1_024)),
}


def measure(name, options):
    """Prints a line a size, and the ratios; whether they are as they should be."""
    cost, words, sizes = CASES[name]
    costs = []
    for size in sizes:
        own = size if isinstance(size, tuple) else (size,)
        told = cost(options, *own)
        amounts = "  ".join(f"{amount:9.3f} {unit}" for amount, unit in told)
        print(f"{name:8} {words.format(*own):>12}  {amounts}", flush=True)
        costs.append(max(told[-1][0], 0))
    print("   ratios {:.2f}, {:.2f}".format(*ratios(costs)))
    return grows_well(costs)


def main():
    words = parser(__doc__, GROWTH)
    add_program(words)
    add_program(words, built("wf_test_map"), "--cases-program")
    add_cases(words, CASES)
    options = words.parse_args()
    return 0 if all([measure(name, options) for name in options.cases or CASES]) else 1


if __name__ == "__main__":
    sys.exit(main())
