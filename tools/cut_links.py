#!/usr/bin/env python3
"""Tries nodes on hosts whose links are silent for a while: no connection is reset, no carrier is lost, no
address is resolved.

Hosts are network namespaces on a bridge (`farmkit.hosts`), which loses what goes from one to another; this
program reaches all of them all the while. Each case is tried on new nodes, 3 and 5 or as --nodes says, for
10, 60 and 300 seconds or as --seconds says. Asked of each: within six seconds of the cut, and as long as the
links are silent, `/votez`, `wfarm_peers_connected` and `wfarm_majority_connected` of every node say whom it
hears (within seven in mute, deaf and ring: a peer's last word may come a second after the cut); `wfarmctl
status` says `no majority` of the nodes that hear none; a publish that waits at node 0 is published within
five seconds of the healing, or overtaken where another was published; by then all nodes have it, and hear one
another; and no node ends by itself. Then each node publishes once more.

A line for each, with seconds: from the cut until the last node said whom it hears (fell), and from the
healing until what waited was published, all had it (level), and all heard one another. The
seconds are the nodes' own where they get a processor at once. Wants root, iproute2, nftables.
"""

import concurrent.futures
import itertools
import pathlib
import queue
import shutil
import sys
import tempfile
import time

from farmkit import hosts, processes
from farmkit.command import add_cases, add_slack, listed, numbers, program_parser, tell_missing
from farmkit.mapfiles import map_of
from farmkit.nodes import NO_MAJORITY, VOTES
from farmkit.tapes import MOST_MAPS, tape_of
from farmkit.wanted import Wrong, seconds_until, until, want

# seconds: for a waiting publish after the healing; until a node knows that it isn't heard, and more of that
# where peers hear it; without a connection that is dialed anew
HEALED, NOTICED, ONE_WAY, QUIET = 5, 6, 1, 12
PATIENCE = 30
AGAIN = 10
# where a host's programs listen: for nodes, for clients, for operators
PEERS, CLIENTS, OPERATOR = 7000, 8080, 9090
# processor seconds, many times those of an idle node in that time
AT_WORK = 0.5


class Node(processes.Node):
    """A node on a host of its own."""

    def __init__(self, host, above, program, every, tape):
        self.host = host
        super().__init__(program, host.number, above / host.name / "state",
                         ",".join(each.at(PEERS) for each in every), host.at(CLIENTS), host.at(OPERATOR),
                         before=[*host.entering, *processes.UNSIGNALLED])
        self.init("silent")
        if tape is not None:
            shutil.copy(tape, self.tape)

    def publish(self, number):
        status, body = self.ask("/publish", map_of(number), 5)
        return status, body.decode().strip()

    def proposal(self):
        status, body = self.ask("/status", seconds=5)
        return body.decode().split()[5] if status == 200 else None

    def hears(self):
        """What it says of whom it hears: `/votez`, its connected peers, and whether they are a majority."""
        return *self.votes(), *self.connected()

    def connections(self):
        return [line for line in self.log_lines() if " connected " in line or " lost " in line]


class Farm:
    def __init__(self, options, count, network, folder, tape):
        self.options, self.folder, self.numbers = options, folder, itertools.count(1)
        self.network = hosts.Network(network, count)
        every = self.network.hosts
        self.nodes = [Node(host, folder, options.program, every, tape) for host in every]
        self.file = folder / "nodes"
        processes.write_nodes(self.file, self.nodes)

    def start(self, published):
        for node in self.nodes:
            node.start()
        self.await_health(published)
        until(lambda: not self.unlike([]), PATIENCE + self.options.slack, 0.1)
        if not published:
            self.publish(self.nodes[0])

    def await_health(self, published):
        """Waits until all nodes are well and have published this, as long as one that isn't is at work."""
        spent, last = {}, time.monotonic()
        while waiting := [node for node in self.nodes
                          if node.health()[0] != 200 or node.published() != published]:
            ended = [node.last_line() for node in waiting if node.ended() is not None]
            want(f"ended while they started: {ended}", not ended)
            now = {node: node.processor_seconds() for node in waiting}
            if any(now[node] > spent.get(node, 0) + AT_WORK for node in waiting):
                spent, last = now, time.monotonic()
            want(f"nodes don't begin: {[node.health() for node in waiting]}",
                 time.monotonic() < last + PATIENCE + self.options.slack)
            time.sleep(0.5)

    def publish(self, node):
        before, answer = self.top(), node.publish(next(self.numbers))
        want(f"no publish: {answer}", answer[0] == 202)
        until(lambda: (node.published() or 0) > before, PATIENCE, 0.1)
        until(self.is_level, PATIENCE, 0.1)

    def top(self):
        return max(node.published() or 0 for node in self.nodes)

    def is_level(self):
        told = {node.published() for node in self.nodes}
        return len(told) == 1 and None not in told

    def hears(self, node, silenced):
        """What a node has to say of whom it hears: no reply comes on a link that is silent one way."""
        heard = sum((node, other) not in silenced and (other, node) not in silenced for other in self.nodes
                    if other is not node)
        is_majority = 2 * (heard + 1) > len(self.nodes)
        return (*(VOTES if is_majority else NO_MAJORITY), heard, int(is_majority))

    def unlike(self, silenced):
        """What nodes say of whom they hear that isn't so while these links are silent."""
        return [f"node {node.number}: {said}" for node in self.nodes
                if (said := node.hears()) != self.hears(node, silenced)]

    def stop(self):
        for node in self.nodes:
            node.kill()
        self.network.stop()


# ---- links that are silent

def links(ones, others):
    return [(one, other) for one in ones for other in others if one is not other]


def both(nodes):
    """nothing goes anywhere"""
    return links(nodes, nodes)


def mute(nodes):
    """what one node sends is lost"""
    return links(nodes[:1], nodes[1:])


def deaf(nodes):
    """what is sent to one node is lost"""
    return links(nodes[1:], nodes[:1])


def each(nodes):
    """nothing goes anywhere, and a publish waits at each node"""
    return both(nodes)


def away(nodes):
    """a minority is cut off, both ways, and the others publish: `wfarmctl publish` goes to them"""
    few = (len(nodes) - 1) // 2
    return links(nodes[:few], nodes[few:]) + links(nodes[few:], nodes[:few])


def ring(nodes):
    """each link between two nodes is silent one way, so that no reply arrives"""
    count = len(nodes)
    return [(node, nodes[(at + step) % count]) for at, node in enumerate(nodes)
            for step in range(1, count // 2 + 1)]


def last(nodes):
    """nothing goes anywhere, and the publish that waits is for the last sequence, 4,096; once it is
    published, so that nobody asks for another, no connection is dialed anew, and the links are silent once
    more, for ten seconds"""
    return both(nodes)


CASES = {case.__name__: case for case in (both, mute, deaf, each, away, ring, last)}


# ---- what is asked of each case

def silence(farm, silenced, seconds, meanwhile=lambda: None):
    """Silences links for so long, and does something meanwhile; the seconds until all nodes knew."""
    farm.network.silence([(one.host, other.host) for one, other in silenced])
    begun = time.monotonic()
    is_both_ways = all((other, one) in silenced for one, other in silenced)
    most = NOTICED + (0 if is_both_ways else ONE_WAY) + farm.options.slack
    fell = seconds_until(lambda: not farm.unlike(silenced), most, 0.05)
    want(f"{most:g} s after the cut: {'; '.join(farm.unlike(silenced)) or 'just so'}", fell is not None)
    without = [node.host.number for node in farm.nodes if farm.hears(node, silenced)[0] == 503]
    code, told, _ = processes.wfarmctl(farm.options.program, farm.file, "status")
    rows = told.splitlines()[1:]
    want(f"status: {code} {rows}", code == 1
         and [at for at, row in enumerate(rows) if row.endswith(" no majority")] == without)
    meanwhile()
    time.sleep(max(0, begun + seconds - time.monotonic()))
    unlike = farm.unlike(silenced)
    want(f"before the healing: {'; '.join(unlike)}", not unlike)
    farm.network.heal()
    return fell


def healed(farm, waiting, ends):
    """The seconds from the healing until what waits is published, all are level, and hear one another."""
    begun, seconds = time.monotonic(), {}
    looks = {"published": lambda: all(node.proposal() in ends for node in waiting), "level": farm.is_level,
             "heard": lambda: not farm.unlike([])}
    while len(seconds) < len(looks) and time.monotonic() < begun + PATIENCE:
        for name, is_so in looks.items():
            if name not in seconds and (name != "level" or "published" in seconds) and is_so():
                seconds[name] = round(time.monotonic() - begun, 2)
        time.sleep(0.05)
    told = ", ".join(f"{name} {seconds.get(name, 'never')}" for name in looks)
    want(f"after the healing, for {PATIENCE} s: {told}, {[node.proposal() for node in waiting]}",
         len(seconds) == len(looks) and max(seconds.values()) <= HEALED + farm.options.slack)
    return seconds


def rest(farm):
    """Nobody dials a connection anew for a while, and all hear one another."""
    before = [node.connections() for node in farm.nodes]
    time.sleep(QUIET)
    more = [line for node, lines in zip(farm.nodes, before) for line in node.connections()[len(lines):]]
    want(f"connections are dialed anew: {more[:3]}", not more)
    want(f"after {QUIET} quiet seconds: {farm.unlike([])}", not farm.unlike([]))


def waits(farm, name, seconds):
    """A publish waits while links are silent, and is published soon after: what was seen, in seconds."""
    silenced, before = CASES[name](farm.nodes), farm.top()
    waiting = farm.nodes if name == "each" else farm.nodes[:1]
    ends = ("published", "overtaken") if name in ("each", "away") else ("published",)

    def publish():
        answers = [node.publish(next(farm.numbers)) for node in waiting]
        want(f"the publishes were answered by {answers}", all(answer[0] == 202 for answer in answers))
        if name == "away":
            file = farm.folder / "a.map"
            file.write_bytes(map_of(next(farm.numbers)))
            published = processes.wfarmctl(farm.options.program, farm.file, "publish", file)
            first = (len(farm.nodes) - 1) // 2
            want(f"wfarmctl publish: {published}",
                 published[:2] == (0, f"published {before + 1} at node {first}\n"))

    seen = {"fell": silence(farm, silenced, seconds, publish), **healed(farm, waiting, ends)}
    states = [node.proposal() for node in waiting]
    want(f"what waited is {states}", name == "away" or "published" in states)
    if name == "last":
        want(f"published {farm.top()}", farm.top() == MOST_MAPS)
        rest(farm)
        again = {"fell": silence(farm, silenced, AGAIN), **healed(farm, [], ends)}
        rest(farm)
        want("a further publish", farm.nodes[0].publish(next(farm.numbers))[0] == 409)
        seen["when full"] = f"fell {again['fell']}, heard {again['heard']}"
    else:
        for node in farm.nodes:
            farm.publish(node)
        seen["ended as"] = ", ".join(states)
    return seen


def attempt(name, count, seconds, options, networks):
    """Tries a case, and prints what it saw, or what was wrong, and where the nodes' logs are then."""
    folder, network, farm = pathlib.Path(tempfile.mkdtemp(prefix="silent-")), networks.get(), None
    try:
        tape = options.tape if name == "last" else None
        farm = Farm(options, count, network, folder, tape)
        farm.start(MOST_MAPS - 1 if tape else 0)
        seen = waits(farm, name, seconds)
        ends = [node.last_line() for node in farm.nodes if node.ended() is not None]
        want(f"ended by themselves: {ends}", not ends)
        said = ", ".join(f"{what} {it}" for what, it in seen.items())
    except Wrong as wrong:
        said = f"FAILED: {wrong}; the logs are in {folder}"
    finally:
        if farm is not None:
            farm.stop()
        networks.put(network)
    print(f"{name}, {count} nodes, {seconds} s: {said}", flush=True)
    is_wrong = said.startswith("FAILED")
    if not is_wrong:
        shutil.rmtree(folder)
    return is_wrong


def main():
    asked = program_parser(listed(__doc__, CASES.values()))
    asked.add_argument("--nodes", type=numbers, default=[3, 5], help="how many, with commas between (3,5)")
    asked.add_argument("--seconds", type=numbers, default=[10, 60, 300], help="of silence (10,60,300)")
    asked.add_argument("--at-once", type=int, default=3, help="how many farms at a time (3)")
    add_slack(asked)
    asked.add_argument("--network", type=int, default=1, help="the number of the first network, 0 to 255")
    add_cases(asked, CASES)
    options = asked.parse_args()
    if lacking := hosts.missing(options.network):
        return tell_missing(lacking)
    # the longest begin first
    rows = [(name, count, seconds) for seconds in sorted(options.seconds, reverse=True)
            for count in options.nodes for name in options.cases or CASES]
    networks = queue.SimpleQueue()
    for number in range(options.at_once):
        networks.put(options.network + number)
    with (tempfile.TemporaryDirectory(prefix="silent-tape-") as folder,
          concurrent.futures.ThreadPoolExecutor(options.at_once) as pool):
        options.tape = pathlib.Path(folder) / "tape"
        tape_of(options.program, options.tape, MOST_MAPS - 1, 0)
        wrong = sum(pool.map(lambda row: attempt(*row, options, networks), rows))
    print(f"{wrong} wrong of {len(rows)}")
    return int(bool(wrong))


if __name__ == "__main__":
    sys.exit(main())
