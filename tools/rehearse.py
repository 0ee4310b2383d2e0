#!/usr/bin/env python3
"""Rehearses what only real disks show: a farm whose programs are killed, and whose disks lose power or are
full, by a seed; and compares every answer. What links do is tried by `tools/cut_links.py`, lost disks by
`tools/try_nodes.py`, replicas by `tools/try_replicas.py`; all of it is played, with whatever else befalls
nodes, by the cases of `crates/wf_test_simulation`.

Three voters or as --voters says, each with a disk of its own, an ext4 on a device whose power can be cut
(`farmkit.device`). All the while clients publish at every voter and ask it for capabilities and pictures.
Compared: no sequence has two pictures, two capabilities or two maps, whenever and from whichever voter they
come; no published sequence of a voter goes back; what a node reported as published stays and is the map that
was sent; no voter ends by itself.

Healing: after each full disk, after every 25th fault and after the last one the clients pause, and five
seconds after the end of that fault (a disk that has room again, a program that was started) a publish was
made at each node, none is running, and all have published equally many.

500 faults by default, in T seconds (2,400) at most; fewer in that time is an error. A line per kind of fault,
with how often and in which time all was healed after it; a line per violation, and their number; status 1
where there is one. It ends at the twentieth violation. Wants root and FUSE.
"""

import collections
import itertools
import pathlib
import random
import re
import shutil
import sys
import tempfile
import threading
import time

from farmkit.command import add_slack, listed, program_parser, tell_missing
from farmkit.device import Machine, fill, formatted, is_permitted, make_room
from farmkit.ledger import MOST_VIOLATIONS, Ledger, Watch
from farmkit.mapfiles import map_of, picture_of
from farmkit.nodes import Nodes
from farmkit.processes import STATUS, UNSIGNALLED
from farmkit.wanted import is_so_within

DISK = 24 << 20
# after how many faults all has to be healed, and the seconds until it is
HEALING, SETTLED = 25, 5
LENGTHS = (0,) * 12 + (4_000,) * 3 + (29_000,)


class Rehearsal:
    def __init__(self, options, above):
        self.options, self.draw, above = options, random.Random(options.seed), pathlib.Path(above)
        self.ledger = Ledger(lambda words: print(time.strftime("%H:%M:%S violation: ") + words, flush=True),
                             set())
        self.numbers, self.done, self.over = itertools.count(1), collections.Counter(), threading.Event()
        self.nodes, empty = Nodes(options.program, above, options.voters), formatted(DISK, above)
        self.voters, self.machines, self.filled = self.nodes.each, [], [0.0] * options.voters
        for i, voter in enumerate(self.voters):
            voter.folder.mkdir()
            self.machines.append(Machine(voter.folder, empty))
            voter.folder, voter.before = self.machines[i].folder / "state", list(UNSIGNALLED)
            self.nodes.init(i)
        self.last_fault, self.last_end = "", time.monotonic()
        # clients publish nothing while it is asked how soon all is healed
        self.pausing, self.healed = threading.Event(), collections.defaultdict(list)

    # ---- clients

    def publish(self, voter):
        """Publishes at one node, and asks it what became of each map, until the rehearsal is over."""
        draw = random.Random(self.options.seed + 100 + voter.number)
        while not self.over.wait(draw.uniform(0.02, 0.4)):
            if self.pausing.is_set():
                continue
            number = next(self.numbers)
            status, body = self.send(voter, number, draw.choice(LENGTHS), 5)
            self.ledger.counts[f"publishes answered {status or 'by nothing'}"] += 1
            if status == 202:
                self.follow(voter, number, int(body.split()[-1]))

    def send(self, voter, number, length, seconds):
        self.ledger.sent.add(picture_of(number))
        return voter.ask("/publish", map_of(number, length), seconds)

    def proposal(self, voter, seconds):
        """What a node says of its proposal; None where it doesn't answer."""
        line = STATUS.fullmatch(voter.ask("/status", seconds=seconds).body)
        return line and line[3]

    def follow(self, voter, number, sequence):
        """Asks a node for ten seconds what became of the map that it accepted for a sequence."""
        is_so_within(lambda: self.proposal(voter, 5) not in (None, b"running") or self.over.is_set(), 10)
        if self.proposal(voter, 5) == b"published %d" % sequence:
            self.ledger.counts["maps reported as published"] += 1
            self.ledger.same("the map published at", sequence, picture_of(number))
            self.ledger.same("the picture at", sequence, picture_of(number))

    # ---- faults

    def fault(self, kind):
        """Lets one fault happen, and ends it. After some all has to be healed soon."""
        voter = self.draw.choice(self.voters)
        self.last_fault = f"{kind} at {voter.known_as}"
        KINDS[kind](self, voter, self.draw.uniform(0.05, 0.8))
        self.last_end = time.monotonic()
        self.done[kind] += 1
        if kind == "full" or self.done.total() % HEALING == 0:
            self.heal(kind)

    def kill(self, voter, pause):
        """SIGKILL of a voter, and a start some time later"""
        voter.kill()
        time.sleep(pause)
        voter.start()

    def power(self, voter, pause):
        """a disk keeps of what wasn't flushed all, nothing or some; the node is started again"""
        machine = self.machines[voter.number]
        if voter.process is not None:
            voter.pause()
        machine.disk.off()
        voter.kill()
        share = self.draw.choice((0, 0.5, 1))
        content = machine.disk.after(lambda: self.draw.random() < share)
        machine.stop()
        self.machines[voter.number] = Machine(voter.folder.parents[1], content)
        self.make_room(voter)
        time.sleep(pause)
        voter.start()

    def full(self, voter, pause):
        """a disk is full for a while"""
        self.filled[voter.number] = time.monotonic()
        fill(self.machines[voter.number].folder)
        time.sleep(pause)
        self.make_room(voter)

    def make_room(self, voter):
        """Takes away what filled the disk, and what a power cut brought back of it."""
        if make_room(self.machines[voter.number].folder):
            self.filled[voter.number] = time.monotonic()

    # ---- what is judged

    def watch(self):
        """Starts a program that ended by itself: a violation unless its disk was full while it started."""
        for voter in self.voters:
            code, line = voter.ended(), voter.last_line()
            if code is None:
                continue
            was_full = voter.answered < voter.started < self.filled[voter.number]
            if was_full and re.match("the (tape|folder)", line):
                self.ledger.counts["starts that a full disk ended"] += 1
            else:
                self.ledger.violation(f"{voter.known_as} ended by itself with {code} after "
                                      f"{self.last_fault}: {line}")
            voter.kill()
            voter.start()
            self.last_end = time.monotonic()

    def heal(self, kind):
        """All has to be healed soon after the last fault: publishes made, none running, one sequence."""
        self.watch()
        self.pausing.set()
        waiting, running, told, is_healed = list(self.voters), [], [], False
        while not is_healed and (took := time.monotonic() - self.last_end) <= SETTLED + self.options.slack:
            waiting = [voter for voter in waiting if not self.is_taken(voter)]
            told = [voter.published(1) for voter in self.voters]
            running = [voter.known_as for voter in self.voters
                       if self.proposal(voter, 1) in (None, b"running")]
            is_healed = not waiting and not running and None not in told and len(set(told)) == 1
            time.sleep(0.05)
        self.pausing.clear()
        if is_healed:
            self.healed[kind].append(took)
        else:
            self.ledger.violation(f"{took:.1f} s after the end of {self.last_fault} no publish was taken at "
                                  f"{[voter.known_as for voter in waiting]}, one runs at {running}, and the "
                                  f"voters stand at {told}")

    def is_taken(self, voter):
        """Whether a voter takes a map, or has no sequence left for one."""
        status, body = self.send(voter, next(self.numbers), 0, 1)
        return status == 202 or (status, body.strip()) == (409, b"N3")

    def run(self):
        self.nodes.start_all()
        readers = Watch(self.voters, self.ledger)
        clients = [threading.Thread(target=self.publish, args=(voter,)) for voter in self.voters]
        for client in clients:
            client.start()
        until = time.monotonic() + self.options.seconds
        try:
            while (self.done.total() < self.options.faults and time.monotonic() < until
                   and len(self.ledger.violations) < MOST_VIOLATIONS):
                self.fault(self.draw.choice(self.options.kinds))
                self.watch()
            self.heal("the last one")
        finally:
            self.over.set()
            readers.end()
            for client in clients:
                client.join()

    def stop(self):
        self.nodes.end()
        for machine in self.machines:
            machine.stop()

    def report(self):
        healed = {f"times healed after {kind}: {sum(times) / len(times):.1f} s, {max(times):.1f} at most":
                  len(times) for kind, times in self.healed.items()}
        for what, count in sorted({**self.done, **healed, **self.ledger.counts}.items()):
            print(f"{count:5} {what}")
        print(f"seed {self.options.seed}: {self.done.total()} faults, "
              f"{max(self.ledger.most.values(), default=0)} sequences, "
              f"{len(self.ledger.violations)} violations")


KINDS = {each.__name__: each for each in (Rehearsal.kill, Rehearsal.power, Rehearsal.full)}


def main():
    asked = program_parser(listed(__doc__, KINDS.values(), "Faults"))
    asked.add_argument("--faults", type=int, default=500)
    asked.add_argument("--seed", type=int, default=1)
    asked.add_argument("--seconds", type=float, default=2_400, help="how long the faults may take")
    asked.add_argument("--kinds", type=lambda words: words.split(","), default=[*KINDS],
                       help="which faults, with commas between them")
    asked.add_argument("--voters", type=int, default=3)
    add_slack(asked)
    options, above, begun = asked.parse_args(), tempfile.mkdtemp(prefix="rehearsal-"), time.monotonic()
    if not is_permitted(above):
        return tell_missing(["root, losetup, mkfs.ext4, or a device over FUSE"])
    # (the threads of the disks have to come in between those of the clients)
    sys.setswitchinterval(0.0002)
    rehearsal = Rehearsal(options, above)
    try:
        rehearsal.run()
    finally:
        rehearsal.stop()
    rehearsal.report()
    failed = bool(rehearsal.ledger.violations) or rehearsal.done.total() < options.faults
    print(f"{time.monotonic() - begun:.0f} seconds")
    if failed:
        print(f"the logs are in {above}")
    else:
        shutil.rmtree(above)
    return int(failed)


if __name__ == "__main__":
    sys.exit(main())
