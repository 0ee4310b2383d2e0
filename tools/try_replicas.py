#!/usr/bin/env python3
"""Tries replicas of a farm of three voters, over the built program.

Replicas and voters that are killed at random, and replicas that lose their folders, are played by the cases
of `crates/wf_test_simulation`.
"""

import collections
import itertools
import random
import re
import shutil
import subprocess
import sys
import threading
import time

from farmkit.command import add_cases, listed, program_parser
from farmkit.mapfiles import PIXEL, map_of
from farmkit.measure import percentile
from farmkit.nodes import NODES, Nodes
from farmkit.processes import UNSIGNALLED, Replica, free_ports, limited
from farmkit.tapes import MOST_MAPS, tape_of
from farmkit.trial import go_through
from farmkit.wanted import is_so_within, until, want
from farmkit.web import Listener, connect, loopback

PATIENCE = 60


class Farm(Nodes):
    """Voters that run, three of them or so many, perhaps with this tape, and replicas of theirs."""

    def __init__(self, options, top, name, tape=None, farm="tried", voters=NODES):
        super().__init__(options.program, top / name, voters, farm, has_readers=True)
        self.tape, self.replicas = tape, []

    def __enter__(self):
        return self.begin(*(["--from", str(self.tape)] if self.tape else []))

    def __exit__(self, *_):
        for process in self.each + self.replicas:
            process.kill()

    def replica(self, name, sources=None):
        made = Replica(self.program, self.folder / name, "tried", sources or ",".join(self.readers))
        made.start()
        self.replicas.append(made)
        return made

    def some(self, count):
        made = [self.replica(f"replica-{number}") for number in range(count)]
        until(lambda: all(replica.published() is not None for replica in made), PATIENCE)
        return made

    def top(self):
        """The highest sequence that a voter tells."""
        return max(map(self.published, range(self.count)))

    def publish_numbers(self, *numbers):
        """Publishes the maps of these numbers at the first voter."""
        for number in numbers:
            self.publish_whole(0, map_of(number))


def ask_at(replica, sources):
    """Starts a replica anew with other sources and an empty log."""
    replica.kill()
    replica.log.write_bytes(b"")
    replica.words[replica.words.index("--peers") + 1] = ",".join(sources)
    replica.start()


def mislead(farm, other):
    replica = farm.replica("misled")
    until(lambda: (replica.published() or 0) >= 1, PATIENCE)
    ask_at(replica, other.readers)
    until(lambda: replica.ended() is not None, 20)
    return replica.ended(), replica.last_line()


def misled(options, top):
    """a replica that is pointed at another farm of the same name ends with status 1 and one line, whichever
    has published more"""
    with Farm(options, top, "ours") as ours, Farm(options, top, "theirs") as theirs:
        ours.publish_numbers(*range(3))
        theirs.publish_numbers(100)
        fewer = mislead(ours, theirs)
        theirs.publish_numbers(*range(100, 104))
        ours.replicas.pop().kill()
        shutil.rmtree(ours.folder / "misled")
        more = mislead(ours, theirs)
    print(f"misled: by a farm with fewer maps {fewer}, with more {more}")
    want("it went on", fewer[0] == more[0] == 1)


# ---- sources that aren't as they should be

QUESTION_BYTES = 76


class Repeater(Listener):
    """A source that asks a voter's readers' port what it is asked, and sends each reply twice."""

    def __init__(self, voter):
        self.voter, self.brought = voter, 0
        super().__init__()

    def serve(self, asker):
        with (connect(self.voter, PATIENCE) as voter, asker.makefile("rb") as asked,
              voter.makefile("rb") as told):
            while len(question := asked.read(QUESTION_BYTES)) == QUESTION_BYTES:
                voter.sendall(question)
                head = told.read(4)
                reply = head + told.read(int.from_bytes(head, "big"))
                asker.sendall(reply)
                # not in one piece with it: that would be no reply at all
                time.sleep(0.01)
                asker.sendall(reply)
                # what follows the digest are definitions
                self.brought += len(reply) > 40


def compare(farm, replica):
    """A replica has nothing that no voter has. Asked for first, its sequence is no later."""
    want(f"{replica.known_as} has ended: {replica.last_line()}", replica.ended() is None)
    published, top = replica.published() or 0, farm.top()
    want(f"{replica.known_as} says published {published}, and the voters have {top}", published <= top)
    voter = max(farm.each, key=lambda voter: voter.published() or 0)
    for sequence in range(1, published + 1):
        want(f"{replica.known_as}: another picture at {sequence}",
             replica.ask(PIXEL % sequence) == voter.ask(PIXEL % sequence))


def follow(farm, replica, numbers, pause, is_enough=lambda: False):
    """Publishes these maps until it is enough, which a replica has to get, and nothing else."""
    compare(farm, replica)
    for number in itertools.takewhile(lambda _: not is_enough(), numbers):
        farm.publish_numbers(number)
        time.sleep(pause)
        compare(farm, replica)
    top = farm.top()
    is_level = is_so_within(lambda: replica.published() == top, 10)
    want(f"{replica.known_as} hasn't published {top} ten seconds later, as the voters have", is_level)
    compare(farm, replica)


def twice(options, top):
    """a source that sends each reply twice, among three and alone: no map is published under two sequences,
    and the replica learns on"""
    with Farm(options, top, "twice") as farm:
        farm.publish_numbers(0)
        for name, others in (("alone", []), ("among three", farm.readers[1:])):
            source = Repeater(farm.readers[0])
            replica = farm.replica(f"replica {name}", ",".join([loopback(source.port), *others]))
            is_so_within(replica.published, 5)
            # a source that brings nothing for a second isn't asked again before the others
            first = farm.top()
            follow(farm, replica, range(first, first + 30), 1.3, lambda: source.brought >= 3)
            want("the source that repeats was never asked for maps", source.brought)
            replica.kill()
            source.end()
    print("twice: a source that sends each reply twice, alone and among three: followed")


def foreign(options, top):
    """one source among three is of another farm, or of another history with fewer or more maps: it is skipped
    with a warning"""
    with (Farm(options, top, "ours") as ours, Farm(options, top, "theirs", voters=1) as theirs,
          Farm(options, top, "others", farm="others", voters=1) as others):
        ours.publish_numbers(*range(3))
        others.publish_numbers(*range(3))
        theirs.publish_numbers(100)
        for name, farm in (("of another farm", others), ("of fewer maps", theirs), ("of more maps", theirs)):
            if name == "of more maps":
                theirs.publish_numbers(*range(101, 131))
            follow_beside(ours, farm, f"a replica beside one {name}")
    print("foreign: one source among three of another farm, and of another history with fewer and more maps: "
          "skipped with a warning")


def follow_beside(ours, foreign_farm, name):
    """A replica that has one source of another farm among three follows, and warns."""
    replica = ours.replica(name)
    until(lambda: replica.published() == ours.top(), 20)
    ask_at(replica, [ours.readers[0], *foreign_farm.readers, ours.readers[1]])
    is_so_within(lambda: replica.ended() is not None, 5)
    top = ours.top()
    follow(ours, replica, range(top, top + 2), 1)
    want(f"{name}: no warning", ' warn lost source=1 why="refused by it: ' in replica.log.read_text())
    replica.kill()


# ---- tapes and chains

def tape(options, top):
    """a replica begins with what its tape has, also with a torn, missing or damaged one, and goes on where it
    can't be written"""
    with Farm(options, top, "tape") as farm:
        farm.publish_numbers(1, 2, 3)
        replica = farm.replica("replica")
        until(lambda: replica.published() == 3, 20)
        file = replica.folder / "replica.tape"
        whole = file.read_bytes()
        replica.kill()
        changed = whole[:40] + bytes([whole[40] ^ 1]) + whole[41:]
        cases = (("whole", whole, 3, "opened published=3"), ("torn", whole[:-5], 2, "opened published=2"),
                 ("missing", None, 0, "tape-missing"), ("damaged", changed, 0, "tape-damaged"))
        for name, content, left, told in cases:
            begin_with(farm, replica, content, left, told)
            want(f"{name}: the tape isn't whole again", file.read_bytes() == whole)
        write_no_more(farm, replica, len(whole) + 100)
    print("tape: whole, torn, missing and damaged ones; one that can't be written any more: "
          "wfarm_tape_failed 1")


def begin_with(farm, replica, content, left, told):
    """Starts a replica on this tape where no source answers, and then where they do."""
    file = replica.folder / "replica.tape"
    file.unlink(missing_ok=True)
    if content is not None:
        file.write_bytes(content)
    ask_at(replica, map(loopback, free_ports(1)))
    want(f"not {left} maps without a source", is_so_within(lambda: replica.published() == left, 20))
    want(f"no line {told}", told in replica.log.read_text())
    ask_at(replica, farm.readers)
    want("the rest doesn't come", is_so_within(lambda: replica.published() == 3, 20))
    replica.kill()


def write_no_more(farm, replica, most):
    """A replica whose files may have so many bytes learns on, and tells that its tape failed."""
    # (its log would be a file too, so it goes to a pipe)
    replica.start(before=UNSIGNALLED, preexec_fn=limited(most), stderr=subprocess.PIPE)
    with replica:
        until(lambda: replica.published() == 3, 20)
        farm.publish_numbers(4, 5)
        want("it doesn't learn on", is_so_within(lambda: replica.published() == 5, 20))
        want("a replica took a publish", replica.ask("/publish", map_of(9)).status == 404)
        want("not told at the operator's port", replica.metrics().get("wfarm_tape_failed") == 1)


def chain(options, top):
    """replicas that ask one another: one that is four away from a voter is asked, one that is five isn't"""
    with Farm(options, top, "chain") as farm:
        sources, links = None, []
        for number in range(6):
            links.append(farm.replica(f"link-{number}", sources))
            sources = links[-1].readers
            until(lambda: links[-1].published() is not None, PATIENCE)
            time.sleep(0.5)
        farm.publish_numbers(1)
        learned = [is_so_within(lambda: link.published() == 1, 5) for link in links]
        is_told = "too far" in links[-1].log.read_text()
    print(f"chain: of six replicas in a row learned {learned.count(True)}, the last says that it is too far: "
          f"{is_told}")
    want(f"learned: {learned}", learned == 5 * [True] + [False] and is_told)


# ---- times

def noted(process, seen):
    """Starts a process anew, and notes each line of its log with the time at which it comes."""
    def note():
        for line in process.process.stderr:
            seen.append((time.monotonic(), process, line))

    process.kill()
    process.start(stderr=subprocess.PIPE, text=True)
    threading.Thread(target=note, daemon=True).start()


def lag(options, top):
    """from a voter's publication until each replica has learned it, by their logs, in a quiet farm: p99 below
    100 ms"""
    seen, draw, count = [], random.Random(1), 300
    with Farm(options, top, "lag") as farm:
        replicas = farm.some(options.replicas)
        for process in farm.each + replicas:
            noted(process, seen)
        for process in farm.each + replicas:
            until(lambda: process.published() is not None, PATIENCE)
        time.sleep(2)
        for number in range(1, count + 1):
            farm.publish_whole(draw.randrange(NODES), map_of(number, 2_000))
            time.sleep(draw.uniform(0, 0.06))
        time.sleep(1)
    lags = lags_in(seen)
    print(f"lag: {count} maps at {len(replicas)} replicas: median {percentile(lags, 0.5):.0f} ms, p99 "
          f"{percentile(lags, 0.99):.0f} ms, most {max(lags):.0f} ms")
    want("a map didn't come", len(lags) == count * len(replicas))
    want("p99 isn't below 100 ms", percentile(lags, 0.99) < 100)


def lags_in(seen):
    """Milliseconds from the first voter's line about a sequence to each replica's."""
    first, lags, last = {}, [], collections.Counter()
    for now, process, line in seen:
        if published := re.search(r" published sequence=(\d+)", line):
            first.setdefault(int(published[1]), now)
        if learned := re.search(r" learned published=(\d+)", line):
            came = range(last[process] + 1, int(learned[1]) + 1)
            lags += [1000 * max(0, now - first.get(sequence, now)) for sequence in came]
            last[process] = int(learned[1])
    return lags


def fill(options, top):
    """a replica learns 4,096 maps of 2 KB from nothing, within ten seconds"""
    size = tape_of(options.program, top / "full.tape", MOST_MAPS)
    with Farm(options, top, "fill", top / "full.tape") as farm:
        replica = farm.replica("replica")
        spent = until(lambda: replica.published() == MOST_MAPS, PATIENCE)
        replica.kill()
        replica.start()
        again = until(lambda: replica.published() == MOST_MAPS, PATIENCE)
    print(f"fill: {MOST_MAPS:,} maps of {size:,} bytes in {spent:.1f} s from nothing, in {again:.1f} s from "
          f"its tape")
    want("not within ten seconds", spent < 10)


def spent_by(processes, seconds):
    """What processes cost, in percent of a core."""
    before = [process.processor_seconds() for process in processes]
    time.sleep(seconds)
    return [100 * (each.processor_seconds() - begun) / seconds for each, begun in zip(processes, before)]


def rest(options, top):
    """what replicas at rest cost a voter: below two percent of a core"""
    with Farm(options, top, "rest") as farm:
        farm.publish_numbers(1, 2, 3)
        time.sleep(2)
        alone = spent_by(farm.each, 10)
        replicas = farm.some(options.replicas)
        time.sleep(2)
        both = spent_by(farm.each + replicas, 10)
    beside, own = both[:NODES], both[NODES:]
    print(f"rest: a voter costs {max(alone):.2f} % of a core alone, {max(beside):.2f} % with {len(replicas)} "
          f"replicas; a replica {max(own):.2f} %")
    want("replicas at rest cost two percent or more",
         max(after - before for after, before in zip(beside, alone)) < 2)


CASES = [lag, fill, rest, tape, chain, misled, twice, foreign]


def main():
    asked = program_parser(listed(__doc__, CASES))
    asked.add_argument("--replicas", type=int, default=10, metavar="N", help="of `lag` and `rest` (10)")
    add_cases(asked, (case.__name__ for case in CASES))
    options = asked.parse_args()
    return go_through(CASES, options.cases, lambda case, folder: case(options, folder))


if __name__ == "__main__":
    sys.exit(main())
