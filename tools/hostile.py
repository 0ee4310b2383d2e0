#!/usr/bin/env python3
"""Shows what input that means harm does to the built program: to `serve`, `node` and `replica` over sockets,
to `canon` and `draw` as mapfiles and queries. Each part is left out with 0.

Sockets: 1,000 connections, eight at a time, to a farm of three nodes on tapes in files: silent ones, heads
that are cut, sent a byte at a time, too large, with more after them, of random bytes, publishes that are no
map or shorter than they say, connections that are reset, and clients that stay after their answer. A client
that behaves asks for /status and for one tile all the while: printed is the longest that it waited (one
connection is served at a time, for ten seconds at most). Afterwards the farm has to be as before: sequence,
capabilities, tile and tapes, byte for byte.

Processes: as many connections to two nodes of three and to a replica, at the ports of peers (half greetings,
a byte at a time, with 64 replaced nodes and more, of other farms and folders; those of the third node, which
doesn't run, with half a message behind it, one that is too long, or none), of readers, clients and operators;
a stranger answers in the place of the third node and of a source of the replica. Then all slots of each port
are filled with silent connections. Meanwhile maps are published, a client asks each process, and all answers
are compared by sequence. Afterwards all have to be level, and none may have ended.

Mutations: N mapfiles through `wfarm canon`, and a fifth as many queries, each with such a mapfile, through
`wfarm draw`. A failure is a signal, a status other than 0 and 1, a second of processor time, an answer
together with an error, no answer, an error line of another form, an allocation failure within 64 MB of
address space, or a canonical text that isn't its own.

1,000 connections take about five minutes, most of them waiting, 100,000 mapfiles with 20,000 queries seven.
"""

import collections
import concurrent.futures
import contextlib
import itertools
import os
import pathlib
import random
import re
import statistics
import sys
import tempfile
import threading
import time

from farmkit.attacks import (CLIENTS, MAP, SLOW, TILE, Impostor, Peers, Readers, operators, peer_answers,
                             silent, source_answers)
from farmkit.command import program_parser
from farmkit.folder import contents
from farmkit.greetings import greeting
from farmkit.ledger import Ledger, Watch
from farmkit.mapfiles import map_of
from farmkit.measure import timed
from farmkit.mutation import Maps, Queries
from farmkit.nodes import NODES, Nodes
from farmkit.processes import Farm, Replica
from farmkit.wanted import Wrong, is_so_within, until
from farmkit.web import CAPABILITIES, ask, connect, loopback

AT_ONCE = 8
PATIENCE = 120
MOST_SECONDS = 1.0
MOST_MEMORY = 64 << 10
# seconds for which all slots are filled: longer than any silent connection is kept
FILLED = 12


# Sockets.

def kinds(count, draw):
    """What each of the connections does, in a random order: one in 64 is silent, and so on."""
    chosen = [kind for kind, share in SLOW.items() for _ in range(count // share)]
    chosen += [CLIENTS[number % len(CLIENTS)] for number in range(count - len(chosen))]
    draw.shuffle(chosen)
    return chosen


def attack(address, kind, seed):
    with contextlib.suppress(OSError), connect(address, PATIENCE) as peer:
        kind(peer, random.Random(seed))
    return kind.__name__


def attacked(rows, draw):
    """Makes these connections, some at a time: addresses and kinds. What is told of them."""
    begun = time.monotonic()
    with concurrent.futures.ThreadPoolExecutor(AT_ONCE) as pool:
        work = [pool.submit(attack, address, kind, draw.random()) for address, kind in rows]
        ended = collections.Counter(it.result() for it in work)
    counts = ", ".join(f"{count} {kind}" for kind, count in sorted(ended.items()))
    return f"in {time.monotonic() - begun:.0f} s, {AT_ONCE} at a time ({counts})"


class Behaving(threading.Thread):
    """A client that asks these addresses for /status and the tile in turn, and knows how long each took."""

    def __init__(self, addresses, tile):
        super().__init__()
        self.rows = [(address, path) for address in addresses for path in ("/status", TILE)]
        self.tile, self.over, self.waits, self.wrong = tile, threading.Event(), [], []

    def run(self):
        while not self.over.wait(0.05):
            for address, path in self.rows:
                answer, took = timed(ask, address, path, None, PATIENCE)
                self.waits.append(took)
                if answer.status != 200 or (path == TILE and answer.body != self.tile):
                    self.wrong.append((address, path, answer.status, answer.body[:100]))

    def end(self):
        """Ends it, and prints what it saw; whether each answer was right."""
        self.over.set()
        self.join()
        print(f"a client that behaves: {len(self.waits)} answers, the longest after "
              f"{max(self.waits):.0f} ms, the median after {statistics.median(self.waits):.1f} ms, "
              f"{len(self.wrong)} wrong {self.wrong[:3] or ''}".rstrip())
        return not self.wrong


def state(farm, folder):
    """What the farm is: what each node told as published, its capabilities and the tile, and the tapes."""
    told = sorted(farm.ask("/status").body.split()[1:4] for _ in range(NODES))
    return told, {farm.ask(path) for path in (CAPABILITIES, TILE) for _ in range(NODES)}, contents(folder)


def sockets(program, count, draw):
    """Whether the farm is what it was after all connections, and the client that behaves was served."""
    with tempfile.TemporaryDirectory() as folder, Farm(program, 1_000_000, folder) as farm:
        farm.ask("/publish", MAP)
        before = state(farm, folder)
        client = Behaving([farm.address], farm.ask(TILE).body)
        client.start()
        said = attacked([(farm.address, kind) for kind in kinds(count, draw)], draw)
        print(f"{count} hostile connections {said}")
        good = client.end()
        same = state(farm, folder) == before and farm.process.poll() is None
    print(f"the farm {'is what it was' if same else 'IS NOT WHAT IT WAS'}: sequence, capabilities, tile and "
          f"tapes")
    return same and good


# Nodes and a replica.

class Attacked:
    """Three nodes, in the place of one a stranger, which greets as it; a replica that asks a stranger too."""

    def __init__(self, program, folder, draw):
        self.nodes = Nodes(program, folder, has_readers=True).begin()
        readers = self.nodes.readers[0]
        self.nodes.publish_all(MAP)
        own = greeting(self.nodes, 2)
        self.nodes.kill(2)
        self.impostors = [Impostor(self.nodes.peer[2], peer_answers(own, draw)),
                          Impostor(0, source_answers(draw))]
        self.replica = Replica(program, folder / "replica", "tried",
                               f"{loopback(self.impostors[1].port)},{readers}")
        self.replica.start()
        until(lambda: self.replica.published() == 1)
        self.running = [*self.nodes.each[:2], self.replica]
        clients, operator, asks = (*CLIENTS, *SLOW), (*CLIENTS, *SLOW, operators), Readers("tried").kinds
        # where a stranger connects, what it does there, and how many slots that port has
        self.ports = [(loopback(self.nodes.peer[0]), (*Peers(own).kinds, silent), 128),
                      (readers, (*asks, silent), 64), (self.replica.readers, (*asks, silent), 64)]
        for each in (self.nodes[0], self.replica):
            self.ports += [(each.clients, clients, 128), (each.operator, operator, 8)]

    def rows(self, count, draw):
        """So many connections, a third of them to the port for peers: where each goes, and what it does."""
        ports = itertools.islice(itertools.cycle(2 * self.ports[:1] + self.ports), count)
        return [(address, draw.choice(does)) for address, does, _ in ports]

    def fill_slots(self):
        """Fills all slots of each port with silent connections, and some more, for a while; how many."""
        with contextlib.ExitStack() as held:
            count = 0
            for address, _, slots in self.ports:
                for _ in range(slots + slots // 4):
                    with contextlib.suppress(OSError):
                        held.enter_context(connect(address, 5))
                        count += 1
            time.sleep(FILLED)
        return count

    def most_memory(self):
        """The most megabytes that a process had."""
        texts = [pathlib.Path(f"/proc/{each.running().pid}/status").read_text() for each in self.running]
        return max(int(re.search(r"VmHWM:\s*(\d+)", text)[1]) for text in texts) >> 10

    def end(self):
        for impostor in self.impostors:
            impostor.end()
        self.replica.kill()
        self.nodes.end()


class Publisher(threading.Thread):
    """Publishes at two nodes in turn, and knows how long it took until each map was published."""

    def __init__(self, nodes):
        super().__init__()
        self.nodes, self.over, self.waits, self.wrong = nodes, threading.Event(), [], []

    def run(self):
        for number in itertools.count(1):
            begun = time.monotonic()
            try:
                self.nodes.publish_whole(number % 2, map_of(number))
            except Wrong as wrong:
                self.wrong.append(str(wrong))
            self.waits.append(time.monotonic() - begun)
            if self.over.wait(0.5):
                return


def processes(program, count, draw):
    """Whether nodes and a replica were served and published on while strangers came, and are level then."""
    with tempfile.TemporaryDirectory() as folder:
        farm = Attacked(program, pathlib.Path(folder), draw)
        watch, publisher = Watch(farm.running, Ledger()), Publisher(farm.nodes)
        client = Behaving([each.clients for each in farm.running], farm.nodes[0].ask(TILE).body)
        try:
            client.start()
            publisher.start()
            said = attacked(farm.rows(count, draw), draw)
            print(f"{count} hostile connections to nodes and a replica {said}; {farm.impostors[0].count} "
                  f"connections of nodes to a stranger, {farm.impostors[1].count} of the replica")
            print(f"{farm.fill_slots()} silent connections at once for {FILLED} s")
            good = client.end()
            publisher.over.set()
            publisher.join()
            print(f"{len(publisher.waits)} maps published meanwhile, the longest after "
                  f"{max(publisher.waits):.2f} s, {len(publisher.wrong)} not in time")
            top = max(each.published() or 0 for each in farm.running)
            is_level = is_so_within(lambda: {each.published() for each in farm.running} == {top}, 10)
            watch.end()
            ends = [each.last_line() for each in farm.running if each.ended() is not None]
            memory = 0 if ends else farm.most_memory()
        finally:
            client.over.set()
            publisher.over.set()
            watch.over.set()
            farm.end()
    wrong = watch.ledger.violations
    print(f"the farm is {'level' if is_level else 'NOT LEVEL'} at {top}, {watch.ledger.counts['answers']} "
          f"answers compared, {len(wrong)} of them wrong {wrong[:3] or ''}; {len(ends)} processes ended "
          f"{ends or ''}; at most {memory} MB")
    return good and is_level and not (wrong or ends or publisher.wrong)


# Mutations.

# Any error line but those of an allocation failure, M1 and K3.
FAULT = re.compile(rb"(map fault M(2|9|11)|map fault M([3-8]|10|12) at \d+|canon fault K1)\n")
# Becomes the program, with a limit of its address space in KB.
LIMITED = ("/bin/sh", "-c", f'ulimit -v {MOST_MEMORY}; exec "$0" "$@"')


class Runner(threading.local):
    """Runs of the program on one file of input, one after the other, of its own in each thread."""

    def __init__(self, program, folder):
        self.program = str(program)
        self.files = [os.open(f"{folder}/{name}-{threading.get_ident()}", os.O_RDWR | os.O_CREAT)
                      for name in ("in", "out", "err")]

    def run(self, words, text):
        """Its status (negative: a signal), what it wrote, its error lines, and its processor seconds."""
        for file in self.files:
            os.ftruncate(file, 0)
            os.lseek(file, 0, os.SEEK_SET)
        os.pwrite(self.files[0], text, 0)
        actions = [(os.POSIX_SPAWN_DUP2, file, number) for number, file in enumerate(self.files)]
        pid = os.posix_spawn(LIMITED[0], [*LIMITED, self.program, *words], {}, file_actions=actions)
        _, ended, used = os.wait4(pid, 0)
        out, err = (os.pread(file, os.fstat(file).st_size, 0) for file in self.files[1:])
        return os.waitstatus_to_exitcode(ended), out, err, used.ru_utime + used.ru_stime


def wrong(ran):
    status, out, err, seconds = ran
    if status not in (0, 1):
        return f"status {status}"
    if seconds > MOST_SECONDS:
        return f"{seconds:.2f} s of processor time"
    if (status == 0) != bool(out) or (status == 1) != bool(err):
        return f"status {status} with {len(out)} bytes of output and {err[:80]!r}"
    return f"error line {err[:80]!r}" if err and not FAULT.fullmatch(err) else None


class Mutations:
    """Runs on mutated input, and what came of them."""

    def __init__(self, program, folder, seed):
        self.runner, self.seed = Runner(program, folder), seed
        self.statuses, self.dearest, self.failures = collections.Counter(), 0.0, []

    def canon(self, number):
        """One mapfile through canon; a text that it writes is read again."""
        text = Maps(random.Random(f"{self.seed} canon {number}")).next()
        ran = self.runner.run(["canon"], text)
        failed = wrong(ran)
        if not failed and ran[0] == 0 and self.runner.run(["canon"], ran[1])[:2] != (0, ran[1]):
            failed = "the canonical text isn't its own"
        return ran, failed, text, b""

    def draw(self, number):
        """One mapfile and one query through draw."""
        draw = random.Random(f"{self.seed} draw {number}")
        maps = Maps(draw)
        text = maps.next() if draw.random() < 0.3 else maps.made().encode()
        query = Queries(draw).next()
        ran = self.runner.run(["draw", "--", query], text)
        return ran, wrong(ran), text, query.encode()

    def go(self, make, count, jobs):
        """Makes so many runs, and keeps the input of those that fail."""
        with concurrent.futures.ThreadPoolExecutor(jobs) as pool:
            for done, (ran, failed, text, query) in enumerate(pool.map(make, range(count), chunksize=1), 1):
                self.statuses[make.__name__, ran[0]] += 1
                self.dearest = max(self.dearest, ran[3])
                if failed:
                    self.failures.append(failed)
                    self.keep(make.__name__, done - 1, failed, text, query)
                if done % 20_000 == 0 and done < count:
                    print(f"{done} through {make.__name__}, {len(self.failures)} failures", flush=True)
                if len(self.failures) >= 20:
                    return

    def keep(self, name, number, failed, text, query):
        path = pathlib.Path(tempfile.gettempdir()) / f"hostile-{self.seed}-{name}-{number}"
        path.write_bytes(text)
        print(f"failure: {name} {number}: {failed}; its mapfile is kept at {path} {query[:300]!r}",
              flush=True)


def mutations(program, given):
    with tempfile.TemporaryDirectory() as folder:
        runs = Mutations(program, folder, given.seed)
        begun = time.monotonic()
        runs.go(runs.canon, given.count, given.jobs)
        runs.go(runs.draw, given.count // 5, given.jobs)
    counted = ", ".join(f"{count} of {name} with status {status}"
                        for (name, status), count in sorted(runs.statuses.items()))
    print(f"{sum(runs.statuses.values())} runs on mutated input in {time.monotonic() - begun:.0f} s: "
          f"{counted}; at most {1000 * runs.dearest:.0f} ms "
          f"of processor time, within {MOST_MEMORY >> 10} MB of address space; {len(runs.failures)} failures")
    return not runs.failures


def main():
    words = program_parser(__doc__)
    for name, default, said in (("--sockets", 1_000, "hostile connections"),
                                ("--processes", 1_000, "hostile connections to nodes and a replica"),
                                ("--count", 100_000, "mutated mapfiles"), ("--seed", 1, "of what is random"),
                                ("--jobs", 2, "how many run at a time")):
        words.add_argument(name, type=int, default=default, metavar="N", help=f"{said} ({default:,})")
    given = words.parse_args()
    good = not given.count or mutations(given.program, given)
    for part, count in ((sockets, given.sockets), (processes, given.processes)):
        good = (not count or part(given.program, count, random.Random(given.seed))) and good
    return 0 if good else 1


if __name__ == "__main__":
    sys.exit(main())
