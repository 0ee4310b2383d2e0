#!/usr/bin/env python3
"""Measures nodes in processes of their own, `wfarm node` with folders on a disk, beside etcd and nginx: all
in one run, on loopback.

Parts, all of them where none is named; about two minutes:
  publish  a map of 32 KB to the node that leads, until each of three nodes tells it as published, all of them
           asked at once, over connections that stand already; in turn with a put of as many bytes into three
           members of etcd in the same folder, at their leader, through its HTTP/JSON gateway on a kept
           connection. A get that needs no agreement shows what the gateway takes of it
  syncs    the syncs of such a publish at each node, counted by strace: of records with a map, and of others
  tiles    one kept tile of 256 by 256 for 32 clients of wrk, a connection per request, beside nginx (one
           worker, the same bytes as a file, no connection kept), with sendfile, which copies no byte in the
           process, and without; in turns, none with a log of requests; and the processor time per 1,000 tiles
           of four nodes in four processes, with eight clients each, beside one's
  idle     the median of an answer with 200 connections open that send nothing, beside none; in turns
  rest     the processor time of each of three nodes that nobody asks
  missed   1,000 maps of 2 KB that a node gets from the others, from its start

Each number stands beside what is wanted of it, and what it missed is said; status 1 where one missed. Other
programs on the machine change what is measured: its load is printed, and what is compared was measured in
turns. etcd, nginx, wrk and strace are Debian's packages etcd-server, nginx-light, wrk and strace; a part
whose program isn't there is left out.
"""

import concurrent.futures
import contextlib
import json
import os
import pathlib
import re
import signal
import statistics
import subprocess
import sys
import tempfile
import time

from farmkit.command import add_cases, lacks, program_parser
from farmkit.etcd import Etcd, call, in_base64
from farmkit.mapfiles import canonical
from farmkit.measure import disk_of, load, percentile, rate, timed
from farmkit.nodes import Nodes
from farmkit.repository import MAPS
from farmkit.wanted import until
from farmkit.web import connect, read_answer, request
from tiles import Map, nginx

LARGE = MAPS / "large-3857.map"
PATIENCE = 60
TITLE = b'"wms_title" "'


def texts_of(program, count):
    """The canonical text of a map under n titles of one length."""
    before, _, rest = canonical(program, LARGE.read_bytes()).partition(TITLE)
    behind = rest.partition(b'"')[2]
    return [before + TITLE + b'map %04d"' % number + behind for number in range(1, count + 1)]


class Table:
    """What was measured, line by line, and whether all was as wanted."""

    def __init__(self):
        self.missed = []

    def note(self, what, value):
        print(f"  {what:<58} {value}", flush=True)

    def judge(self, what, value, most, unit=""):
        self.conclude(what, f"{value:.2f}{unit}", value <= most, f"at most {most:g}{unit}")

    def conclude(self, what, value, is_met, wanted):
        self.note(what, f"{value:<10} {'met' if is_met else 'MISSED'} (wanted: {wanted})")
        if not is_met:
            self.missed.append(what)


# ---- nodes

@contextlib.contextmanager
def farm(options, name, count=3, logs=True):
    """Nodes that run, in a folder of their own, each of which has peers."""
    with Nodes(options.program, pathlib.Path(options.room) / name, count, name, logs=logs) as nodes:
        until(lambda: all(nodes.connected(i)[0] == count - 1 for i in range(count)), PATIENCE, 0.02)
        yield nodes.each


def connections(nodes):
    """Connections to publish over and to ask over, which stand before a time is taken, as etcd's does."""
    return connect(nodes[0].clients), [connect(node.clients) for node in nodes]


def ask_all(clients):
    for client in clients:
        client.sendall(request("/status"))
    return [int(read_answer(client).body.split()[3]) for client in clients]


def publish(nodes, text, sequence, standing=None):
    """Publishes a map at the first node, and asks until each node tells it."""
    first, clients = standing or connections(nodes)
    first.sendall(request("/publish", text))
    status, body = read_answer(first)
    if status != 202:
        sys.exit(f"publish: {status} {body!r}")
    while nodes:
        told = ask_all(clients)
        nodes = [node for node, last in zip(nodes, told) if last < sequence]
        clients = [connect(node.clients) for node in nodes]


# ---- parts

def milliseconds(call_it, *words):
    return timed(call_it, *words)[1]


def tell(times):
    return f"median {statistics.median(times):.2f} ms, p99 {percentile(times, 0.99):.2f} ms"


def measure_publish(options, table):
    texts = texts_of(options.program, options.count)
    key, whole, alone, put, got = in_base64(b"map"), [], [], [], []
    local = json.dumps({"key": key, "serializable": True})
    with (farm(options, "publish") as nodes, Etcd(pathlib.Path(options.room)) as etcd,
          contextlib.closing(etcd.connect()) as leader):
        for sequence, text in enumerate(texts, 1):
            body = json.dumps({"key": key, "value": in_base64(text)})
            whole.append(milliseconds(publish, nodes, text, sequence, connections(nodes)))
            put.append(milliseconds(call, leader, "/v3/kv/put", body))
            alone.append(milliseconds(ask_all, [connect(node.clients) for node in nodes]))
            got.append(milliseconds(call, leader, "/v3/kv/range", local))
    # (the first makes a leader)
    table.note("publish of 32 KB until three nodes tell it", tell(whole[1:]))
    table.note("  of it, /status of three nodes, asked at once", tell(alone[1:]))
    table.note("put of 32 KB into three members of etcd", tell(put[1:]))
    table.note("  a get that needs no agreement", tell(got[1:]))
    table.judge("publish / put, medians", statistics.median(whole[1:]) / statistics.median(put[1:]), 0.6)
    table.judge("publish / put, p99", percentile(whole[1:], 0.99) / percentile(put[1:], 0.99), 0.6)


def measure_syncs(options, table):
    count = 20
    texts = texts_of(options.program, count + 1)
    with farm(options, "syncs") as nodes:
        publish(nodes, texts[0], 1)
        time.sleep(2.5)
        calls = "trace=write,fsync,fdatasync,sync_file_range,syncfs"
        files = [pathlib.Path(options.room) / f"syncs-{node.number}" for node in nodes]
        traces = [subprocess.Popen(["strace", "-f", "-y", "-s", "1", "-e", calls, "-o", file, "-p",
                                    str(node.process.pid)], stderr=subprocess.DEVNULL)
                  for node, file in zip(nodes, files)]
        time.sleep(1)
        for sequence, text in enumerate(texts[1:], 2):
            publish(nodes, text, sequence)
        for trace in traces:
            trace.send_signal(signal.SIGINT)
            trace.wait()
    for number, syncs in enumerate(syncs_in(file.read_text()) for file in files):
        who = f"node {number}" + (", which leads" if number == 0 else "")
        table.judge(f"syncs of votes and publications per publish, {who}", syncs["maps"] / count, 2.0)
        table.note("  of promises, one window in four sequences; of what it heard",
                   f"{syncs['promises'] / count:.2f}; {syncs['heard'] / count:.2f}")


def syncs_in(trace):
    """How often a node synced its tape after a record with a map, and without one; and another file."""
    syncs, last = {"maps": 0, "promises": 0, "heard": 0}, 0
    for line in trace.splitlines():
        if written := re.search(r" write\(\d+<[^>]*\.tape>.* = (\d+)$", line):
            last = int(written[1])
        elif re.search(r" \w*sync\w*\(\d+<[^>]*\.tape>", line):
            syncs["maps" if last > 1000 else "promises"] += 1
        elif re.search(r" \w*sync\w*\(", line):
            syncs["heard"] += 1
    return syncs


def measure_tiles(options, table):
    it = Map(LARGE)
    target = "/wms?" + it.tile(2, 1, 1)
    with (farm(options, "one", 1, logs=False) as (one,), farm(options, "four", 4, logs=False) as four,
          contextlib.ExitStack() as stack):
        publish([one], it.text, 1)
        publish(four, it.text, 1)
        body = one.ask(target).body
        if any(node.ask(target).body != body for node in four):
            sys.exit("tiles differ")
        peers = {}
        for sendfile in ("on", "off"):
            room = pathlib.Path(options.room) / f"nginx-{sendfile}"
            room.mkdir()
            port, path = stack.enter_context(nginx(body, room, sendfile))
            peers[sendfile] = f"127.0.0.1:{port}", path
        measure_rates(options, table, (one.clients, target), peers)
        measure_processors(options, table, one, four, target)


def measure_rates(options, table, own, peers):
    asked = {"kept tiles a second, 32 clients": own, "nginx, the same bytes as a file": peers["on"],
             "nginx without sendfile": peers["off"]}
    rates, errors = {name: [] for name in asked}, set()
    for _ in range(options.rounds):
        for name, (address, path) in asked.items():
            got, _, wrong = rate(address, path, options.seconds, 32)
            rates[name].append(got)
            errors |= {wrong} - {None}
    ours, theirs, copied = map(statistics.median, rates.values())
    for name, all_of in rates.items():
        table.note(name, f"{statistics.median(all_of):,.0f} ({', '.join(f'{it:,.0f}' for it in all_of)})")
    if errors:
        table.note("wrk tells", "; ".join(sorted(errors)))
    table.note("kept tiles / nginx without sendfile", f"{ours / copied:.2f}")
    table.conclude("kept tiles / nginx", f"{ours / theirs:.2f}", ours >= theirs, "at least 1")


def measure_processors(options, table, one, four, target):
    def spent(nodes):
        """The processor seconds of these nodes for 1,000 tiles."""
        before = sum(node.processor_seconds() for node in nodes)
        with concurrent.futures.ThreadPoolExecutor(len(nodes)) as asking:
            count = sum(asking.map(lambda node: rate(node.clients, target, options.seconds,
                                                     32 // len(nodes))[1], nodes))
        return 1000 * (sum(node.processor_seconds() for node in nodes) - before) / count

    turns = [(spent([one]), spent(four)) for _ in range(options.rounds)]
    theirs, ours = map(statistics.median, zip(*turns))
    table.note("processor seconds per 1,000 tiles, one process", f"{theirs:.3f}")
    table.note("four processes, all together", f"{ours:.3f}")
    table.judge("four processes / one", ours / theirs, 1.1)


def measure_idle(options, table):
    with farm(options, "idle") as (node, *_):
        alone, beside = [], []
        for _ in range(2 * options.rounds):
            alone += [milliseconds(node.ask, "/status") for _ in range(200)]
            with contextlib.ExitStack() as idle:
                for _ in range(200):
                    idle.enter_context(connect(node.clients))
                time.sleep(0.2)
                beside += [milliseconds(node.ask, "/status") for _ in range(200)]
            time.sleep(0.2)
    table.note("an answer of /status, alone", tell(alone))
    table.note("with 200 connections that send nothing", tell(beside))
    table.judge("with 200 idle / alone, medians", statistics.median(beside) / statistics.median(alone), 1.2)


def measure_rest(options, table):
    with farm(options, "rest") as nodes:
        publish(nodes, texts_of(options.program, 1)[0], 1)
        time.sleep(2)
        before = [node.processor_seconds() for node in nodes]
        time.sleep(20)
        spent = [(node.processor_seconds() - begun) / 0.2 for node, begun in zip(nodes, before)]
    table.judge("a node at rest, percent of a core, the highest of three", max(spent), 1, " %")


def measure_missed(options, table):
    more = "".join(f"FEATURE POINTS {10 + it % 80} {10 + it % 70} END END\n" for it in range(65))
    form = ('MAP NAME "missed {:04}" EXTENT 0 0 100 100 PROJECTION "init=epsg:4326" END\nLAYER NAME "points" '
            'TYPE POINT\n' "CLASS STYLE COLOR 200 30 30 SIZE 5 END END\n" + more + "END END\n")
    size = len(canonical(options.program, form.format(1).encode()))
    with farm(options, "missed") as nodes:
        nodes[2].kill()
        for sequence in range(1, 1001):
            publish(nodes[:2], form.format(sequence).encode(), sequence)
        nodes[2].start()
        took = until(lambda: nodes[2].published() == 1000, PATIENCE)
    table.judge(f"1,000 missed maps of {size:,} bytes, from the node's start", took, 3, " s")


PARTS = {it.__name__.removeprefix("measure_"): it for it in (
    measure_publish, measure_syncs, measure_tiles, measure_idle, measure_rest, measure_missed)}
# the program of another package that a part wants
WANTED = {"publish": "etcd", "syncs": "strace", "tiles": "wrk"}


def main():
    asked = program_parser(__doc__)
    asked.add_argument("--folder", help="where the nodes' folders are made; it has to be on a disk")
    asked.add_argument("--count", type=int, default=200, metavar="N", help="publishes (200)")
    asked.add_argument("--seconds", type=int, default=4, metavar="S", help="of each run of wrk (4)")
    asked.add_argument("--rounds", type=int, default=3, metavar="N", help="turns of what is compared (3)")
    add_cases(asked, PARTS, "PART")
    options, table = asked.parse_args(), Table()
    with tempfile.TemporaryDirectory(prefix="nodes-", dir=options.folder) as options.room:
        os.chmod(options.room, 0o755)
        print(f"{load()}; {disk_of(options.room)}")
        for name in options.cases or PARTS:
            if name in WANTED and lacks(WANTED[name]):
                table.note(name, f"left out: no {WANTED[name]}")
            else:
                PARTS[name](options, table)
        print(f"{load()}; {len(table.missed)} missed" + "".join(f"\n  {what}" for what in table.missed))
    return int(bool(table.missed))


if __name__ == "__main__":
    sys.exit(main())
