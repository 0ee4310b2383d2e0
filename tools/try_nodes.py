#!/usr/bin/env python3
"""Tries nodes in processes of their own, `wfarm node`, on loopback addresses of this machine.

Each case starts three nodes, or five, on new folders and does something to them, while each node is asked
again and again for its capabilities and for a picture with MAPSEQ: no two answers may differ for one
sequence, whenever and from whichever node they come, and no node goes back. At its end all must stand at one
sequence, with equal histories.
"""

import contextlib
import os
import re
import shutil
import socket
import statistics
import subprocess
import sys
import threading
import time
from concurrent.futures import ThreadPoolExecutor

from farmkit.command import add_cases, listed, program_parser
from farmkit.greetings import GREETING_BYTES, greeting, rejected_for
from farmkit.ledger import Ledger, Watch
from farmkit.mapfiles import a_map, canonical
from farmkit.measure import timed
from farmkit.nodes import NODES, Nodes
from farmkit.processes import UNSIGNALLED, limited
from farmkit.tapes import record
from farmkit.trial import go_through
from farmkit.wanted import PATIENCE, until, want, want_none
from farmkit.web import connect, loopback, received
from trials_of_nodes import differing_histories, halted_nodes, replaced_machines, returned_folders
from trials_of_nodes.returned_folders import WATCHED, suspension


def publish(nodes):
    """at one node, at each in turn, at all at once"""
    for k in range(9):
        nodes.publish_whole(k % NODES, a_map(f"turn{k}"))

    def many(i):
        for k in range(5):
            nodes.publish(i, a_map(f"once{i}{k}"))
            time.sleep(0.05)

    with ThreadPoolExecutor(NODES) as pool:
        pool.map(many, range(NODES))
    return f"level after {nodes.level()} s at {nodes.published(0)}"


def in_pieces(nodes, body, pieces):
    """Publishes in these pieces, 0.2 seconds apart: the status, and the seconds from the last one on."""
    head = f"POST /publish HTTP/1.1\r\nHost: 127.0.0.1\r\nContent-Length: {len(body)}\r\n\r\n".encode()
    with connect(loopback(nodes.http[0]), PATIENCE) as client:
        client.setsockopt(socket.IPPROTO_TCP, socket.TCP_NODELAY, 1)
        sent = 0
        for piece in pieces:
            time.sleep(0.2 if sent else 0)
            client.sendall((head + body)[sent:sent + piece])
            sent += piece
        begun = time.time()
        client.sendall((head + body)[sent:])
        answer = client.recv(12)
        return int(answer.split()[-1]), time.time() - begun


def pieces(nodes):
    """a publish whose body comes in pieces, the last one short, is answered as soon as that is there"""
    slowest = 0
    cases = (12, [-100]), (100, [-100]), (12, [-1]), (100, [8192]), (100, [60_000, 8_192]), (120, [])
    for k, (more, cuts) in enumerate(cases):
        body = a_map(f"pieces{k}", more=more)
        cuts = [cut if cut > 0 else len(body) + cut for cut in cuts]
        status, seconds = in_pieces(nodes, body, cuts)
        want(f"{len(body)} bytes, first {cuts}: {status} after {seconds:.2f} s", status == 202
             and seconds < 1)
        slowest = max(slowest, seconds)
        until(lambda: nodes.published(0) == k + 1)
    return f"{k + 1} publishes, the slowest answered {1000 * slowest:.0f} ms after its last byte"


def median(nodes):
    answers = [timed(nodes[0].ask, "/status") for _ in range(40)]
    want("no answer", all(answer.status == 200 for answer, _ in answers))
    return round(statistics.median(took for _, took in answers), 1)


def clients(nodes):
    """200 idle clients, and 20 that trickle, hold up nobody; each gets its answer or is closed in time"""
    alone = median(nodes)
    idle = [connect(loopback(nodes.http[0])) for _ in range(200)]
    beside_idle = median(nodes)
    trickling = [connect(loopback(nodes.http[0])) for _ in range(20)]
    start, is_over = time.time(), threading.Event()

    def trickle():
        for byte in b"GET /status HTTP/1.1\r\nHost: " + b"x" * 1000:
            for client in trickling:
                with contextlib.suppress(OSError):
                    client.send(bytes([byte]))
            if is_over.wait(0.1):
                return

    thread = threading.Thread(target=trickle)
    thread.start()
    beside_trickling = median(nodes)
    trickling[-1].settimeout(PATIENCE)
    answer = trickling[-1].recv(12)
    seconds = time.time() - start
    is_over.set()
    thread.join()
    for client in idle + trickling:
        client.close()
    want("no 400 to a request that isn't whole", answer == b"HTTP/1.1 400" and 8 < seconds < 13)
    return (f"median {alone} ms alone, {beside_idle} with 200 idle, {beside_trickling} with 20 trickling, "
            f"400 after {seconds:.1f} s")


def told_to(nodes, i, sent, source="127.0.0.1"):
    """What the peers' port of a node answers to these bytes, until it closes; and the seconds until then."""
    begun, came = time.time(), b""
    with (socket.create_connection(("127.0.0.1", nodes.peer[i]), 10, (source, 0)) as stranger,
          contextlib.suppress(ConnectionError)):
        stranger.sendall(sent)
        came = received(stranger)
    return came, round(time.time() - begun, 1)


def strangers(nodes):
    """at the peers' port garbage, half a greeting, another version, another farm, another address"""
    sent = {"a request": b"GET / HTTP/1.1\r\n\r\n", "zeros": bytes(200), "random bytes": os.urandom(4096),
            "two bytes": b"wf", "half a greeting": greeting(nodes, 1)[:60]}
    waited = {}
    for name, garbage in sent.items():
        came, waited[name] = told_to(nodes, 0, garbage)
        want(f"{name}: {came!r}", came == b"")
    before = greeting(nodes, 1, version=1)
    rejected = {"another version": (None, greeting(nodes, 1, version=3)),
                "version 1, as it was": (None, before[:89] + before[96:130]),
                "another farm": (1, greeting(nodes, 1, farm="other")),
                "another number of nodes": (2, greeting(nodes, 1, nodes=5)),
                "no state": (None, greeting(nodes, 1, state=0))}
    for name, (cause, bad) in rejected.items():
        came, waited[name] = told_to(nodes, 0, bad)
        want(f"{name}: {came!r}", came == b"" or cause and rejected_for(came) == cause)
        want(f"{name}: closed after {waited[name]} s", waited[name] < 2)
    came, waited["another address"] = told_to(nodes, 0, greeting(nodes, 1), "127.0.0.9")
    want(f"another address: {came!r}", came == b"" and waited["another address"] < 1)
    nodes.publish_whole(1, a_map("after"))
    return (f"{len(sent) + len(rejected) + 1} kinds closed, the last after {max(waited.values())} s; level "
            f"after {nodes.level()} s")


def unknown(nodes):
    """many connections from two addresses that no peer has: a line of the log for each address"""
    for _ in range(50):
        for source in ("127.0.0.9", "127.0.0.10"):
            told_to(nodes, 0, b"", source)
        time.sleep(0.05)
    lines = [line for line in nodes.lines(0, "dropped") if "unknown-address" in line]
    counts = [sum(bool(re.search(rf"\b{source}\b", line)) for line in lines)
              for source in ("127.0.0.9", "127.0.0.10")]
    want(f"{len(lines)} lines: {lines[:3]}", len(lines) == 2 and counts == [1, 1])
    return f"100 connections from two addresses, two lines: {lines[0].split(' ', 1)[1]}"


def dual(nodes):
    """nodes that listen at [::], and whose peers are listed by addresses of IPv4"""
    if not socket.has_dualstack_ipv6():
        return "left out: no IPv6 here"
    nodes.end()
    for i in range(NODES):
        nodes.start(i, more=("--listen", f"[::]:{nodes.peer[i]}"))
    until(lambda: all(nodes[i].metrics().get("wfarm_peers_connected") == NODES - 1 for i in range(NODES)))
    for i in range(NODES):
        nodes.publish_whole(i, a_map(f"dual{i}"))
    came, seconds = told_to(nodes, 0, greeting(nodes, 1), "127.0.0.9")
    want(f"another address: {came!r}", came == b"" and seconds < 1)
    return f"level after {nodes.level()} s"


def forged(nodes):
    """at the peers' port a peer's own greeting, and behind it half a message, or ballots and votes of other
    nodes: it is closed, and no vote counts"""
    nodes.publish_all(a_map("before"))
    nodes.kill(2)
    time.sleep(2)
    sequence = (2).to_bytes(2, "big")
    ballot = [(9).to_bytes(4, "big") + bytes([node]) for node in range(NODES)]
    text = canonical(nodes.program, a_map("forged"))
    cases = {"half a message": (record(1, sequence + ballot[2])[:5], "silent"),
             "a ballot of another node": (record(1, sequence + ballot[0]), "wrong-sender"),
             "another node's acceptance": (record(3, sequence + ballot[1] + text), "wrong-sender"),
             "another node's promise": (record(2, b"\0" + sequence + ballot[2] + bytes(4)), "wrong-sender"),
             "another node's vote": (record(4, b"\1" + sequence + ballot[2]), "wrong-sender"),
             "another's rejection": (record(5, b"\1" + sequence + ballot[2] + ballot[1]), "wrong-sender"),
             "no message": (record(99, b"nothing"), "bad-message")}
    for starts, (name, (message, why)) in enumerate(cases.items(), 10):
        came, seconds = told_to(nodes, 0, greeting(nodes, 2, starts=starts) + message)
        # (it greets again each second)
        want(f"{name}: the greeting was answered by {came[:12]!r}", came and len(came) % GREETING_BYTES == 0
             and came[:10] == b"wf-node\n\0\2")
        want(f"{name}: closed after {seconds} s", seconds < (7 if why == "silent" else 2))
        dropped = [line for line in nodes[0].log_lines() if " dropped peer=2 " in line]
        want(f"{name}: {dropped[-1]}", dropped[-1].endswith("why=" + why))
    nodes.publish_whole(0, a_map("after"))
    # what was told in its place counts, until it starts as often: it is told that it is an older start, and
    # isn't accused of it
    suspended_on(nodes, None, "the node in whose place others told more")
    path = nodes[2].folder / "farm"
    path.write_text(re.sub("(?m)^starts .*$", f"starts {starts:08x}", path.read_text()))
    nodes[2].clear()
    nodes.start_all([2])
    return f"{len(cases)} kinds closed; level after {nodes.level()} s"


def forgot(nodes):
    """a node with an old copy of its folder or a new one, a clone, and the folder that has all once a copy of
    it was started, are suspended until an operator clears each stopped node's folder by `wfarm clear`"""
    nodes.publish_all(*(a_map(f"first{k}") for k in range(4)))
    nodes.kill(2)
    shutil.copytree(nodes[2].folder, nodes.folder / "old")
    nodes.start_all([2])
    for k in range(4):
        nodes.publish_whole(2, a_map(f"second{k}"))
    nodes.level()
    nodes.kill(2)
    shutil.copytree(nodes[2].folder, nodes.folder / "sound")
    said = [suspended_on(nodes, nodes.folder / "old", "an old copy")]
    nodes.put(2)
    nodes.init(2)
    said.append(suspended_on(nodes, None, "a new folder"))
    said.append(suspended_on(nodes, nodes.folder / "sound", "the one with all, once its copy was started"))
    nodes.kill(0, 1)
    for i in range(NODES):
        nodes[i].clear()
        nodes.start(i)
    until(lambda: all(nodes[i].health()[0] == 200 for i in range(NODES)), WATCHED)
    nodes.publish_whole(2, a_map("after"))
    nodes.level()
    shutil.copytree(nodes[2].folder, nodes.folder / "clone")
    with nodes.beside(2, nodes.folder / "clone") as clone:
        clone.start()
        want_none(suspension(nodes, 2, PATIENCE))
        said.append(nodes[2].health()[1])
    return "; ".join(said)


def suspended_on(nodes, folder, name):
    """What node 2 says that is suspended on a copy of this folder, or on its own; then it is ended."""
    if folder:
        nodes.put(2, folder)
    nodes.start(2)
    wrong = suspension(nodes, 2)
    want(f"{name}: {', '.join(wrong)}", not wrong)
    told = nodes[2].health()[1]
    nodes.kill(2)
    return told


def refused(nodes):
    """a start at an address that is taken: the status, and the one line (other bad command lines are cases of
    `crates/wf_test_commands`)"""
    taken, free = loopback(nodes.http[0]), "127.0.0.1:0"
    nodes.kill(2)
    for option in ("--http", "--listen", "--admin"):
        words = {"--http": free, "--listen": free, option: taken}
        ran = nodes.run("node", "--state", nodes[2].folder, "--peers", "127.0.0.1:1,127.0.0.1:2,127.0.0.1:3",
                        *(word for pair in words.items() for word in pair))
        line = f"the address of {option} is taken or not permitted: {taken}\n"
        want(f"{option}: {ran.returncode} {ran.stderr}",
             (ran.returncode, ran.stderr, ran.stdout) == (1, line, ""))
    nodes.start(2)
    return "three command lines"


def zeros(nodes):
    """a tape with zeros behind its records, as a power cut may leave one, loses them; a node doesn't start on
    other bytes there"""
    nodes.publish_all(*(a_map(f"zeros{k}") for k in range(3)))
    nodes.kill(2)
    tape = nodes[2].tape
    for count in (1, 100, 65_549):  # as many as the longest record has bytes
        with tape.open("ab") as file:
            file.write(bytes(count))
        nodes.start(2)
        until(lambda: nodes.published(2) == nodes.published(0))
        lines = [line for line in nodes[2].log_lines() if " tape-zeros " in line]
        want(f"{count} zeros: {lines}", lines and lines[-1].endswith(f" warn tape-zeros dropped={count}"))
        nodes.publish_whole(2, a_map(f"after{count}"))
        nodes.level()
        nodes.kill(2)
    sound = tape.read_bytes()
    for rest in (b"garbage", bytes(65_550), bytes(50) + b"\2", b"\3" + bytes(50)):
        tape.write_bytes(sound + rest)
        nodes.start(2)
        ended = nodes.ended(2)
        want(f"{rest[:8]!r}: {ended}", ended == (1, f"the tape is damaged: P2: a bad record at {len(sound)}"))
        want(f"{rest[:8]!r}: the tape was changed", tape.read_bytes() == sound + rest)
    tape.write_bytes(sound)
    nodes.start_all([2])
    return f"{len(lines)} starts without the zeros, none on 4 other endings; level after {nodes.level()} s"


def full(nodes):
    """a start on files that can't grow"""
    nodes.publish_all(*(a_map(f"full{k}", "x" * 900) for k in range(3)))
    nodes.kill(2)
    words = [*UNSIGNALLED, *nodes[2].command(), "--log"]
    ran = subprocess.run(words, preexec_fn=limited(1024), capture_output=True, text=True, timeout=PATIENCE)
    last = ran.stderr.splitlines()[-1]
    want(f"{ran.returncode} {ran.stderr}", ran.returncode == 1
         and last == "the tape can't be written anew: file too large")
    nodes.start(2)
    return f"{last}; level after {nodes.level()} s"


CASES = [publish, pieces, clients, strangers, unknown, dual, forged, forgot, refused, zeros, full,
         *halted_nodes.CASES, *returned_folders.CASES, *differing_histories.CASES,
         *replaced_machines.CASES]
# at the end of these not all nodes run
UNEVEN = [forgot, *halted_nodes.CASES, *returned_folders.CASES, *differing_histories.CASES]


def attempt(case, folder, program):
    """What a case saw; raises what was wrong."""
    nodes = Nodes(program, folder, differing_histories.COUNTS.get(case, NODES))
    with contextlib.ExitStack() as ending:
        ending.callback(nodes.end)
        watch = Watch(nodes.begin().each, Ledger())
        ending.callback(watch.end)
        said = case(nodes)
        if case not in UNEVEN:
            nodes.level()
        watch.end()
        want_none(watch.ledger.violations[:5])
        return f"{said}; {watch.ledger.counts['answers']} answers compared"


def main():
    asked = program_parser(listed(__doc__, CASES))
    add_cases(asked, (case.__name__ for case in CASES))
    options = asked.parse_args()
    return go_through(CASES, options.cases, lambda case, folder: attempt(case, folder, options.program))


if __name__ == "__main__":
    sys.exit(main())
