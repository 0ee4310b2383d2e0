#!/usr/bin/env python3
"""Kills the built program and cuts its power, again and again, and looks at what its folder has then.

SIGKILL ends a program and not the machine: what it has written and not synced is still there. After a power
cut it may be lost. Parts, all of them where none is named:

order: starts of `serve` on a new folder, on one with tapes and on one with a torn record, and publishes, are
traced (strace). Judged is that
- what is written to a file is synced before another file is written, and before a byte goes to a client or
  the standard output;
- a file is renamed only once it is made or emptied, written and synced, in that order; and the folder is
  synced before anything else is written or sent;
- before a start sends its first byte each tape was synced, and so was each name;
- what a node reports as published is among the synced records of its tape, and a majority's synced tapes hold
  a vote for it.

kills: `serve` is killed at random moments, one in eight times while it starts; before one in four the
beginning of a record is added to a tape, as a machine leaves it that stops in the middle of a write.

model: it is killed at the nth call of one kind, while it starts or later. The calls of its trace are done
again to a model of the folder (`farmkit.folder`), which says what POSIX lets a power cut leave: of unsynced
bytes any beginning, of each name that was made or renamed since the folder was synced the new or the old. The
tapes are compared in five such folders: all and none of the unsynced names, with all and none of the unsynced
bytes, and one at random, on which the program is started again.

device: the folder is on an ext4, and that on a device (`farmkit.device`) whose power goes off at some write
or flush: what was written and not flushed is kept, lost, or kept in part. ext4 recovers, and the program is
started again. Left out where mounting isn't permitted. ext4 syncs more than it has to: whatever file is
synced, all earlier renames are. So a folder that isn't synced behind a rename is found by `order` and `model`
alone.

In these three a client publishes to three nodes and reads from each; in two of them one run in six is killed
without a cut, so that the next one finds bytes and names that aren't synced. Compared is that
- no sequence has two maps, pictures or capabilities, whenever and from whichever node they come, and each is
  of a map that was sent;
- a node's published sequence (`/status`) never goes back;
- what a node reports as published stays, and is on its tape after each kill or cut.

starts: `init`, `node`, `clear`, `node` among two peers (what it hears of them is in its file `heard`)
and `replica` are traced once, and then killed at each of their calls that changes or syncs a file. On five
folders that a power cut there may leave, as above, the node or replica is started:
- after a cut of `init` it is served, or there is no file `farm` yet: the folder is not a node's;
- after a cut of a start or of `clear` it is served, and has published no less than before;
- after a cut of a start the file `farm` counts as many starts as before, or one more;
- among peers, which remember what they heard up to the cut, it connects to both: neither rejects it;
- a replica has the maps whose records are whole, and comes to have all.

600 kills, 200 cuts of each kind, each part in T seconds (default 900) at most; fewer in that time is an
error. A line for each part, one for each violation, and their number at the end; status 1 where there is one.
Wants Linux and, but for `kills`, strace. With --without `order`, `model` and `starts` count syncs of one kind
as not made, to show that a program without them would be found.
"""

import collections
import random
import re
import signal
import subprocess
import sys
import tempfile
import threading
import time
from functools import partial

from farmkit import ledger
from farmkit.calls import Unfollowed, Watcher, follow, traced
from farmkit.command import add_cases, need, program_parser
from farmkit.device import Machine, formatted, is_permitted
from farmkit.folder import Folder, contents, drawn, everything, extremes, nothing, put
from farmkit.mapfiles import PIXEL, map_of, picture_of
from farmkit.processes import STATUS, Farm, serve_words
from farmkit.starts import Violations, is_unsynced, new_folder, starts
from farmkit.tapes import ACCEPTED, PUBLISHED, record, records
from farmkit.web import CAPABILITIES, Unanswered, exchange, loopback

NODES = 3
TAPES = [f"node-{node}.tape" for node in range(NODES)]
TEXT = "the text on the tapes at"
CONNECTIONS = 1_000_000
# how long a run may take to reach the call that it is cut at
RUN_SECONDS = 2.5
DEVICE_BYTES = 16 << 20


class Ledger(ledger.Ledger):
    """What a farm has told so far, and which of its answers contradict that."""

    def __init__(self, violations):
        super().__init__(sent=set())
        self.violations = violations

    def violation(self, words):
        self.violations.add(words if len(words) < 160 else words[:160] + " ..")

    @property
    def told(self):
        """The highest published sequence that each node told."""
        return [self.most[f"node {node}"] for node in range(NODES)]

    def status(self, answer, node, proposed=None):
        line = STATUS.fullmatch(answer.body)
        if answer.status != 200 or not line or int(line[1]) != node:
            return self.violation(f"/status of node {node}: {answer}")
        sequence = int(line[2])
        self.published(f"node {node}", sequence)
        if proposed is not None and line[3] == b"published %d" % sequence:
            self.counts["published"] += 1
            self.same("the map published at", sequence, picture_of(proposed))
            self.same("the picture at", sequence, picture_of(proposed))

    def capabilities(self, answer):
        if answer.status != 200:
            return self.violation(f"capabilities: {answer}")
        self.document(answer.body)

    def tapes(self, folder):
        """Compares what the tapes hold with what they held, and with what their nodes told."""
        files = contents(folder)
        for node, tape in enumerate(TAPES):
            found, torn = records(files.get(tape, b""))
            self.counts["torn"] += torn
            here = {int.from_bytes(body[:2], "big"): body[2:] for kind, body in found if kind == PUBLISHED}
            for sequence, text in here.items():
                self.same(TEXT, sequence, text)
            if sorted(here) != list(range(1, len(here) + 1)) or len(here) < self.told[node]:
                self.violation(f"node {node} told {self.told[node]} as published, "
                               f"its tape has {len(here)}: {sorted(here)[-3:]}")


class Client:
    """A client of one run of the program: publishes maps of about so many bytes, one of these, and reads."""

    def __init__(self, ledger, port, draw, numbers, lengths=(0, 0, 0, 0, 0, 1_000)):
        self.ledger, self.address, self.draw, self.numbers = ledger, loopback(port), draw, numbers
        self.lengths, self.connections = lengths, 0

    def ask(self, path, body=None):
        """The node whose turn it is, and its answer."""
        node = self.connections % NODES
        answer = exchange(self.address, path, body)
        self.connections += 1
        return node, answer

    def look(self, pictures):
        """Asks each node for its status and capabilities, and for some of the pictures it published."""
        for _ in range(NODES):
            node, answer = self.ask("/status")
            self.ledger.status(answer, node)
        for _ in range(NODES):
            self.ledger.capabilities(self.ask(CAPABILITIES)[1])
        for _ in range(pictures):
            most = self.ledger.told[self.connections % NODES]
            if most:
                sequence = self.draw.choice((most, self.draw.randint(1, most)))
                self.ledger.picture(sequence, self.ask(PIXEL % sequence)[1])
            else:
                self.ask("/status")

    def publish(self):
        number = next(self.numbers)
        self.ledger.sent.add(picture_of(number))
        self.ledger.counts["sent"] += 1
        node, (status, _) = self.ask("/publish", map_of(number, self.draw.choice(self.lengths)))
        if status != 202:
            return status
        self.ledger.counts["accepted"] += 1
        while self.connections % NODES != node:
            self.ledger.status(self.ask("/status")[1], (self.connections - 1) % NODES)
        self.ledger.status(self.ask("/status")[1], node, number)
        return status

    def use(self, run):
        """Publishes and reads until the program is killed."""
        try:
            self.look(6)
            run.looked()
            while (status := self.publish()) in (202, 409):
                if self.draw.random() < 1 / 4:
                    self.look(3)
            self.ledger.violation(f"a publish was answered with {status}")
        except Unanswered:
            pass
        except TimeoutError:
            self.ledger.violation("no answer in 30 seconds")


class Run:
    """One run of the program, from its start to its kill, so many seconds after its first answers or its
    start; `begun` is given its process."""

    def __init__(self, words, seconds, begun=lambda process: None, is_late=False):
        self.process = subprocess.Popen(words, stdout=subprocess.PIPE, stderr=subprocess.DEVNULL, text=True)
        begun(self.process)
        listening = re.fullmatch(r"listening ([0-9]+)\n", self.process.stdout.readline())
        self.port = listening and int(listening[1])
        self.timer, self.is_late = threading.Timer(seconds, self.process.kill), is_late
        if not is_late:
            self.timer.start()

    def looked(self):
        if self.is_late:
            self.timer.start()

    def end(self):
        self.timer.cancel()
        self.process.kill()
        self.process.stdout.close()
        return self.process.wait() == -signal.SIGKILL


def tear(folder, draw):
    """Adds a beginning of a record to a tape, as a machine leaves it that stops in a write."""
    tape = draw.choice(TAPES)
    found, torn = records(contents(folder).get(tape, b""))
    if found and not torn:
        whole = record(*draw.choice(found))
        with open(f"{folder}/{tape}", "ab") as rest:
            rest.write(whole[:draw.randrange(1, len(whole))])


# ---- the order of calls

class Judge(Watcher):
    """Whether the calls of one run come in order."""

    def __init__(self, folder, violations, counts):
        self.folder, self.violations, self.counts = folder, violations, counts
        self.new, self.safe = set(), set()
        self.has_sent = False

    def done(self, what, but=None):
        """Something is done, which may not be while another file holds unsynced bytes."""
        for name, file in self.folder.names.items():
            if file is not but and file.changes:
                self.violations.add(f"{what} while {name} isn't synced")

    def opened(self, name, file):
        self.safe.discard(file)

    def written(self, name, file):
        self.safe.discard(file)
        if not file.content:
            self.new.add(file)
        self.counts["appended" if name.endswith(".tape") else "written"] += 1
        self.done(f"{name} is written", file)
        for other in self.folder.renamed():
            self.violations.add(f"{name} is written while the new name {other} isn't synced")

    def synced(self, name, file):
        if file is None:
            self.counts["folders"] += 1
        else:
            self.counts["synced"] += bool(file.changes)
            self.safe.add(file)

    def renamed(self, old, new, file):
        self.counts["renamed"] += 1
        if file not in self.safe:
            self.violations.add(f"{old} is renamed to {new} and wasn't synced")
        if file.synced and file not in self.new:
            self.violations.add(f"{old} is renamed to {new} and wasn't made or emptied in this run")
        self.done(f"{old} is renamed", file)

    def sent(self, data):
        self.counts["sent"] += 1
        self.done("bytes are sent")
        for name in sorted({change[0] for change in self.folder.changes}):
            self.violations.add(f"bytes are sent while the name {name} isn't synced")
        if not self.has_sent:
            self.has_sent = True
            for name, file in self.folder.names.items():
                if name.endswith(".tape") and file not in self.safe:
                    self.violations.add(f"the start is over, and {name} wasn't synced")
        if line := STATUS.search(data):
            self.reported(int(line[1]), int(line[2]))

    def reported(self, node, sequence):
        self.counts["reports"] += 1
        synced = self.folder.synced
        tapes = [records(synced[name].synced)[0] if name in synced else [] for name in TAPES]
        own = {int.from_bytes(body[:2], "big") for kind, body in tapes[node] if kind == PUBLISHED}
        if not own.issuperset(range(1, sequence + 1)):
            self.violations.add(f"node {node} reports what its synced tape doesn't hold")
        holders = sum(any(kind in (ACCEPTED, PUBLISHED) and int.from_bytes(body[:2], "big") == sequence
                          for kind, body in tape) for tape in tapes)
        if sequence and 2 * holders <= NODES:
            self.violations.add(f"node {node} reports what no majority's synced tapes hold")


def judge_run(path, given, ledger, counts, draw, numbers):
    """Traces a start, some publishes and answers, and judges their calls. How many calls were seen."""
    folder, trace = Folder(contents(path)), f"{path}.trace"
    run = Run(traced(serve_words(given.program, CONNECTIONS, path), trace), 60)
    if run.port:
        client = Client(ledger, run.port, draw, numbers)
        client.look(2)
        for _ in range(8):
            client.publish()
        client.look(6)
    else:
        ledger.violation("the program didn't start")
    run.end()
    return follow(trace, path, folder, Judge(folder, ledger.violations, counts), given.without).total()


def order(given, draw, numbers):
    violations, counts, seen = Violations(), collections.Counter(), 0
    ledger = Ledger(violations)
    with tempfile.TemporaryDirectory(dir=given.folder) as above:
        path = new_folder(above)
        for begins in range(3):
            if begins == 2:
                tear(path, draw)
            seen += judge_run(path, given, ledger, counts, draw, numbers)
    if not counts["reports"]:
        violations.add("no answer is in the traces: the program sends them by a call that isn't followed")
    print(f"order: {seen} calls of 3 starts and {ledger.counts['sent']} publishes: {counts['appended']} "
          f"appends to tapes, {counts['synced']} syncs of new bytes, {counts['renamed']} renames, "
          f"{counts['folders']} syncs of the folder, {counts['sent']} times bytes sent, {counts['reports']} "
          f"statuses; {violations.total()} violations", flush=True)
    return violations.total()


# ---- kills and cuts of `serve`

class Killed:
    """A folder whose program is killed, at random moments and without a cut."""

    name, lengths, most_sequences, cuts = "kills", (0, 0, 0, 4_000, 4_000, 29_000), 600, False

    def __init__(self, above, given, done):
        self.path, self.given, self.done = new_folder(above), given, done

    def start(self, draw, _):
        if draw.random() < 1 / 4:
            tear(self.path, draw)
        seconds = draw.uniform(0, 0.02)
        is_early = draw.random() < 1 / 8
        return Run(serve_words(self.given.program, CONNECTIONS, self.path), draw.uniform(0, 0.04),
                   lambda process: is_early and threading.Timer(seconds, process.kill).start(), is_late=True)

    def ended(self):
        """Its program has ended."""

    def close(self):
        """It isn't used any more."""


class Modelled(Killed):
    """A folder with a model of what its disk holds. A run is cut at a system call."""

    name, lengths, most_sequences, cuts = "cuts in a model", (0, 0, 0, 0, 0, 1_000), 20, True

    def __init__(self, above, given, done):
        super().__init__(above, given, done)
        self.trace, self.folder = f"{self.path}.trace", Folder({})

    def drawn_cut(self, draw):
        """At which call a run is cut: one of three while the program starts, mostly."""
        if draw.random() < 1 / 3:
            return draw.choice((*2 * [("fsync", draw.randint(1, 12))], ("rename", draw.randint(1, 3))))
        return draw.choice((*2 * [("fsync", draw.randint(13, 80))], ("sendto,sendmsg", draw.randint(1, 75))))

    def start(self, draw, _):
        return Run(traced(serve_words(self.given.program, CONNECTIONS, self.path), self.trace,
                          self.drawn_cut(draw)), RUN_SECONDS)

    def ended(self):
        follow(self.trace, self.path, self.folder, Watcher(), self.given.without)

    def cut(self, ledger, draw):
        """Compares the tapes as power cuts may leave them, and makes the folder one of these."""
        self.done["unsynced"] += is_unsynced(self.folder)
        left = drawn(self.folder, draw)
        for files in (*extremes(self.folder), left):
            put(self.path, files)
            ledger.tapes(self.path)
            self.done["folders"] += 1
        self.folder = Folder(left)


class OnDevice(Killed):
    """A folder on an ext4 of its own. A run is cut at a write to the device, or a flush of it."""

    name, lengths, most_sequences, cuts = "cuts of a device", Modelled.lengths, Modelled.most_sequences, True

    def __init__(self, above, given, done):
        self.above, self.given, self.done = above, given, done
        self.machine = Machine(above, formatted(DEVICE_BYTES, above))
        self.path = new_folder(str(self.machine.folder))

    def start(self, draw, is_cut):
        count = draw.choice((draw.randint(0, 50), draw.randint(50, 300), draw.randint(50, 300)))
        return Run(serve_words(self.given.program, CONNECTIONS, self.path),
                   RUN_SECONDS if is_cut else draw.random(),
                   lambda process: self.machine.disk.cut_at(count, process.kill) if is_cut else None)

    def cut(self, ledger, draw):
        """Drops writes that weren't flushed, and lets ext4 recover."""
        disk = self.machine.disk
        disk.off()
        self.done["unsynced"] += disk.writes != []
        left = disk.after(draw.choice((nothing, everything, lambda: draw.random() < 1 / 2)))
        self.machine.stop()
        self.machine = Machine(self.above, left)
        ledger.tapes(self.path)
        self.done["folders"] += 1

    def close(self):
        self.machine.disk.off()
        self.machine.stop()


def run_once(store, ledger, draw, numbers, done):
    """One run to its kill, and mostly a power cut."""
    is_cut = store.cuts and draw.random() >= 1 / 6
    run = store.start(draw, is_cut)
    try:
        if run.port:
            Client(ledger, run.port, draw, numbers, store.lengths).use(run)
        else:
            done["starting"] += 1
    finally:
        is_killed = run.end()
    if not is_killed:
        ledger.violation(f"nobody killed the program: it ended with {run.process.returncode}")
    store.ended()
    ledger.tapes(store.path)
    if is_cut:
        store.cut(ledger, draw)
    done["cuts" if is_cut else "kills"] += 1


def check_again(program, folder, ledger, draw, numbers):
    """A start that isn't killed: every sequence that was told, from the nodes in turn."""
    with Farm(program, CONNECTIONS, folder) as farm:
        client = Client(ledger, farm.port, draw, numbers)
        client.look(0)
        for sequence in range(1, min(ledger.told) + 1):
            ledger.picture(sequence, client.ask(PIXEL % sequence)[1])
    ledger.tapes(folder)


def use_one_folder(store, draw, numbers, ledger, is_going_on, done):
    """Runs, kills and cuts on one folder, until it has enough sequences."""
    try:
        while is_going_on() and max(ledger.told) < store.most_sequences:
            run_once(store, ledger, draw, numbers, done)
        check_again(store.given.program, store.path, ledger, draw, numbers)
    except AssertionError as begun:
        ledger.violation(f"the program didn't start, and wrote {begun!s:.200}")
    finally:
        store.close()


def again_and_again(kind, given, draw, numbers):
    """Until there are enough, the time is over, or too much is wrong. How many violations."""
    violations, done, ledgers = Violations(), collections.Counter(), []
    until = time.monotonic() + given.seconds
    what, wanted = ("cuts", given.cuts) if kind.cuts else ("kills", given.kills)

    def is_going_on():
        is_over = time.monotonic() >= until or violations.total() >= ledger.MOST_VIOLATIONS
        return done[what] < wanted and not is_over

    while is_going_on():
        with tempfile.TemporaryDirectory(dir=given.folder) as above:
            ledgers.append(Ledger(violations))
            use_one_folder(kind(above, given, done), draw, numbers, ledgers[-1], is_going_on, done)
    if done[what] < wanted and not violations:
        violations.add(f"too few {what}")
    counts = sum((each.counts for each in ledgers), collections.Counter())
    print(f"{kind.name}: {done['cuts']} cuts, {done['unsynced']} of them with something unsynced, "
          f"{done['kills']} kills alone, {done['starting']} runs ended while starting; {done['folders']} "
          f"folders compared, {counts['torn']} torn records seen; {counts['sent']} maps sent, "
          f"{counts['accepted']} answered 202, {counts['published']} reported as published by their node, "
          f"{sum(len(it.kept[TEXT]) for it in ledgers)} sequences; {counts['answers']} answers and texts "
          f"compared; {violations.total()} violations", flush=True)
    return violations.total()


def device(given, *more):
    """Cuts on a device, where one may be made, and the program's own syncs count."""
    if given.without is not None:
        return 0
    with tempfile.TemporaryDirectory(dir=given.folder) as above:
        if not is_permitted(above):
            print("cuts of a device: skipped, they want root, /dev/fuse, a loop device, losetup and "
                  "mkfs.ext4")
            return 0
    return again_and_again(OnDevice, given, *more)


PARTS = {"order": order, "kills": partial(again_and_again, Killed),
         "model": partial(again_and_again, Modelled), "device": device, "starts": starts}


def main():
    asked = program_parser(__doc__)
    asked.add_argument("--kills", type=int, default=600, metavar="N", help="(600)")
    asked.add_argument("--cuts", type=int, default=200, metavar="N",
                       help="of each kind, or of each command at most (200)")
    asked.add_argument("--seed", type=int, default=1, metavar="S")
    asked.add_argument("--seconds", type=int, default=900, metavar="T", help="for each part, at most (900)")
    asked.add_argument("--without", choices=("own", "second", "folder"),
                       help="counts these syncs as left out: of a tape, of its second file before a rename, "
                       "of the folder behind one; each has to be found")
    asked.add_argument("--folder", metavar="DIR", help="where the folders are (that of temporary files)")
    add_cases(asked, PARTS, "PART")
    given = asked.parse_args()
    chosen = given.cases or list(PARTS)
    if chosen != ["kills"]:
        need("strace")
    draw, numbers, violations = random.Random(given.seed), iter(range(1, 1 << 24)), 0
    for name in chosen:
        try:
            violations += PARTS[name](given, draw, numbers)
        except Unfollowed as why:
            violations += 1
            print(f"violation: {why}")
    print(f"{violations} violations")
    return 1 if violations else 0


if __name__ == "__main__":
    sys.exit(main())
