"""Cases of `tools/try_nodes.py`: nodes whose histories differ, as a changed byte on a disk or mixed backups
leave them.

A node that knows of a peer with another history answers clients and votes only while the nodes that agree
with it, heard within five seconds and itself counted, are a majority. A peer agrees whose history is the same
up to this node's last sequence; one that is behind agrees with nobody yet. Otherwise it answers no client,
and says so in log, health and status, with that peer, its address and a sequence. Nobody ends for it.

What a program says is left open where it may choose its words: a line is looked for by what it names.
"""

import re
import time

from farmkit.mapfiles import a_map, canonical, map_of
from farmkit.nodes import KEPT, NO_MAJORITY, VOTES
from farmkit.processes import free_ports, wfarmctl, write_nodes
from farmkit.tapes import digest_of, publications
from farmkit.wanted import is_so_within, named, seconds_until, unless, until, want, want_none
from trials_of_nodes.returned_folders import answers, put_back_copy, suspension

# sequences, and those at which two histories differ: more are between them than an answer has
LENGTH = 20
DIFFERENT = (2, 12, LENGTH)
# seconds until a node knows of a peer that came or went, by silence too, and acts by it; until one that is
# behind has all
SOON, CAUGHT_UP = 8, 20
RESTARTS = 4


# ---- histories

def histories(nodes):
    """Two histories of canonical texts of equal lengths, which differ at some sequences."""
    return [[canonical(nodes.program, map_of(0x646464 + k + (more if k in DIFFERENT else 0)))
             for k in range(1, LENGTH + 1)] for more in (0, 100)]


def begin_with(nodes, histories, starting=()):
    """Ends all nodes, gives each a new folder with a tape of such a history, and starts some."""
    nodes.end()
    for i, texts in enumerate(histories):
        nodes.put(i)
        nodes.init(i)
        nodes[i].tape.write_bytes(publications(texts))
    nodes.start(*starting)


def change(nodes, i, old, new):
    """Changes these texts to others on the tape of a stopped node, and in its file `farm`."""
    path, tape = nodes[i].folder / "farm", nodes[i].tape.read_bytes()
    for before, after in zip(old, new):
        tape = tape.replace(before, after)
    nodes[i].tape.write_bytes(tape)
    count = int(re.search("published ([0-9a-f]{8})", path.read_text())[1], 16)
    path.write_text(re.sub("digest [0-9a-f]{64}", f"digest {digest_of(new[:count]).hex()}", path.read_text()))
    nodes[i].life += 1


# ---- what is asked of nodes

def endings(nodes, those):
    return [f"node {i} has ended, status {nodes[i].ended()}: {nodes[i].last_line()}"
            for i in those if nodes[i].ended() is not None]


def names_one(nodes, others, text):
    """Whether a text names one of these peers, its address and a sequence."""
    return re.search(r"\bsequence[ =]\d+\b", text) is not None and any(
        re.search(rf"\b(node |peer=){k}\b", text) and f"127.0.0.1:{nodes.peer[k]}" in text for k in others)


def difference(nodes, i, others):
    """What is wrong with a node that has to answer nobody, as its history differs from these peers'."""
    is_so_within(lambda: nodes[i].health()[0] == 503, SOON)
    time.sleep(1)
    wrong = endings(nodes, [i])
    for path in ("/healthz", "/readyz", "/votez"):
        status, text = nodes[i].says(path)
        is_right = status == 503 and names_one(nodes, others, text)
        wrong += unless(is_right, f"node {i}'s {path} is {status} {text}")
    wrong += unless(not (said := answers(nodes.http[i])), f"node {i} answers a client: {said}")
    metric = nodes[i].metrics().get("wfarm_history_differs")
    wrong += unless(metric == 1, f"node {i}'s wfarm_history_differs is {metric}")
    is_told = any(names_one(nodes, others, line) and "differ" in line for line in nodes[i].log_lines())
    return wrong + unless(is_told, f"no line of node {i}'s log says which peer differs, where and since when")


def agreement(nodes, those, done):
    """The seconds until these nodes serve and vote after what was done."""
    def serves(i):
        return nodes[i].votes() == VOTES and nodes[i].health() == (200, "ok") and nodes.published(i) >= 0

    took = seconds_until(lambda: all(map(serves, those)), SOON)
    want_none(named(done, endings(nodes, those)
                    + [f"node {i} doesn't serve: /votez {nodes[i].votes()}, /healthz {nodes[i].health()}, "
                       f"published {nodes.published(i)}" for i in those if took is None]))
    return took


def publication(nodes, those, name):
    """What is wrong with a publish at the first of these nodes, which all of them have to get."""
    before = nodes.published(those[0])
    is_taken = nodes.publish(those[0], a_map(name)) == 202
    if not is_taken or not is_so_within(lambda: all(nodes.published(i) > before for i in those), SOON):
        return [f"{name}: node {those[0]} published {before}, and now {[nodes.published(i) for i in those]} "
                f"at {those}"]
    digests = {nodes[i].says(f"/history?from={before + 1}") for i in those}
    return [] if len(digests) == 1 else [f"{name}: {len(digests)} histories at {those}"]


def shown(nodes):
    """The states that `wfarmctl status` shows of a farm that isn't well, and its error."""
    file = nodes.folder / "nodes"
    write_nodes(file, nodes.each)
    code, told, error = wfarmctl(nodes.program, file, "status")
    want(f"wfarmctl status: {code} {told}", code == 1)
    states = [re.split(r"127\.0\.0\.1:\d+ +", row, maxsplit=1)[1] for row in told.splitlines()[1:]] + [error]
    return " | ".join(re.sub(r"\(.*", "", re.sub(r"(127\.0\.0\.1):\d+", r"\1", " ".join(state.split())))
                      for state in states)


def end(nodes, wrong, *words):
    want_none(wrong + endings(nodes, range(nodes.count)))
    return "; ".join(words)


# ---- cases

def changed(nodes):
    """a byte has changed on a disk: its node alone answers nobody, however often others start, and nobody is
    answered while another one is down"""
    x, y = histories(nodes)
    begin_with(nodes, [x, x, x], range(3))
    until(lambda: all(nodes[i].votes() == VOTES for i in range(3)))
    time.sleep(KEPT)
    nodes.kill(2)
    change(nodes, 2, x, y)
    nodes.start(2)
    want_none(named("first", difference(nodes, 2, {0, 1})))
    took = []
    for k in range(RESTARTS):
        for i in (0, 1) if k % 2 else (1, 0):
            nodes.restart(i)
        took.append(agreement(nodes, [0, 1], f"restart {k}"))
        want_none(named(f"restart {k}", difference(nodes, 2, {0, 1}) + endings(nodes, [0, 1])))
    wrong = publication(nodes, [0, 1], "with a changed one")
    states = shown(nodes)
    nodes.kill(1)
    wrong += named("node 1 is down", difference(nodes, 0, {2}))
    nodes[2].pause()
    time.sleep(SOON)
    wrong += named("and node 2 is silent", difference(nodes, 0, {2}))
    nodes.start(1)
    seconds = agreement(nodes, [0, 1], "node 1 is back")
    nodes[2].go_on()
    wrong += publication(nodes, [0, 1], "after it")
    nodes.kill(2)
    change(nodes, 2, y, x)
    nodes.start(2)
    mended = agreement(nodes, [0, 1, 2], "node 2's tape is mended")
    return end(nodes, wrong, f"after {RESTARTS} restarts of both others they serve after {took} s, after one "
               f"came back {seconds} s, mended {mended} s", states)


def split(nodes):
    """two nodes of different histories, and the third is down: nobody is answered; then it comes"""
    x, y = histories(nodes)
    begin_with(nodes, [x, y, x])
    readers = free_ports(1)[0]
    nodes.start(0, more=("--readers", f"127.0.0.1:{readers}"))
    nodes.start(1)
    wrong = difference(nodes, 0, {1}) + difference(nodes, 1, {0})
    wrong += unless(not answers(readers), "a reader's connection stays open")
    states = shown(nodes)
    nodes.kill(1)
    time.sleep(SOON)
    want_none(wrong + named("node 1 is down too", difference(nodes, 0, {1})))
    nodes.start(1, 2)
    took = agreement(nodes, [0, 2], "node 2 came")
    wrong = difference(nodes, 1, {0, 2}) + publication(nodes, [0, 2], "by two of three")
    return end(nodes, named("node 2 came", wrong),
               f"nobody serves; then two, {took} s after the third was started", states)


def behind(nodes):
    """the same, and the third has only what is common to both: it agrees with neither yet and mixes nothing;
    once one of the two is ended, the others go on"""
    x, y = histories(nodes)
    begin_with(nodes, [x, y, x[:1]], range(3))
    are_both = is_so_within(lambda: all((answers(nodes.http[i]) or b"").startswith(b"HTTP") for i in (0, 1)),
                            CAUGHT_UP, 0.2)
    wrong = unless(not are_both, "both node 0 and node 1 answered clients") + endings(nodes, range(3))
    states = shown(nodes)
    wrong += difference(nodes, 0, {1}) + difference(nodes, 1, {0})
    votes = nodes[2].votes()
    wrong += unless(votes[0] == 503, f"/votez of node 2, which is behind, is {votes}, and no other node "
                    f"votes: connected peers, majority {nodes.connected(2)}")
    nodes.kill(1)
    nodes.restart(0)
    seconds = agreement(nodes, [0, 2], "node 1 is ended, and node 0 started again")
    wrong += unless(is_so_within(lambda: nodes.published(2) == LENGTH, SOON), "node 2 hasn't caught up")
    wrong += publication(nodes, [0, 2], "by two of three")
    mine = nodes[2].says(f"/history?from={LENGTH}")[1].split()[1:2]
    wrong += unless(mine == [digest_of(x).hex()], "node 2 has a history that is mixed from both")
    return end(nodes, wrong, "neither is answered; without node 1, and node 0 started again, two serve after "
               f"{seconds} s", states)


def lagging(nodes):
    """one of another history, and one that lacks the last sequence: it and the third go on by themselves"""
    x, y = histories(nodes)
    begin_with(nodes, [x, y, x[:-1]], range(3))
    caught_up = until(lambda: nodes.published(0) == nodes.published(2) == LENGTH, CAUGHT_UP)
    agreement(nodes, [0, 2], "two agree")
    wrong = publication(nodes, [0, 2], "by two of three") + difference(nodes, 1, {0, 2})
    return end(nodes, wrong, f"two serve {caught_up} s after the start", shown(nodes))


def halves(nodes):
    """two nodes of one history, two of another, and the fifth is down: nobody is answered; then it comes"""
    x, y = histories(nodes)
    begin_with(nodes, [x, x, y, y, x], range(4))
    for i in range(4):
        want_none(difference(nodes, i, {2, 3} if i < 2 else {0, 1}))
    states = shown(nodes)
    nodes.start(4)
    took = agreement(nodes, [0, 1, 4], "node 4 came")
    wrong = difference(nodes, 2, {0, 1, 4}) + difference(nodes, 3, {0, 1, 4})
    return end(nodes, named("node 4 came", wrong) + publication(nodes, [0, 1, 4], "by three of five"),
               f"nobody serves; then three, {took} s after the fifth was started", states)


def alone(nodes):
    """a suspended node, and one that is down: the third answers clients all the same, until that one comes
    with another history"""
    put_back_copy(nodes)
    nodes.kill(2)
    nodes.start(1)
    wrong = suspension(nodes, 1)
    is_alone = is_so_within(lambda: nodes[0].votes() == NO_MAJORITY, SOON)
    wrong += unless(is_alone, f"/votez: {nodes[0].votes()}")
    counts = nodes.connected(0)
    wrong += unless(counts == [0, 0] and nodes[0].health()[0] == 200,
                    f"node 0: connected peers, majority {counts}, health {nodes[0].health()}")
    wrong += unless(nodes.publish(0, a_map("waits")) == 202, "node 0 takes no map")
    states = shown(nodes)
    first = canonical(nodes.program, a_map("first"))
    changed_first = first.replace(b"first", b"First")
    change(nodes, 2, [first], [changed_first])
    nodes.start(2)
    wrong += named("node 2 came with another history", difference(nodes, 0, {2}) + difference(nodes, 2, {0}))
    differ = shown(nodes)
    nodes.kill(2)
    change(nodes, 2, [changed_first], [first])
    nodes.start(2)
    agreement(nodes, [0, 2], "node 2 came with its own")
    wrong += unless(is_so_within(lambda: nodes.name(2, 2) == "waits", SOON), "what waited isn't there")
    return end(nodes, wrong, states, differ)


CASES = [changed, split, behind, lagging, halves, alone]
# how many nodes a case has, where it isn't three
COUNTS = {halves: 5}
