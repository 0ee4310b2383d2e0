"""Cases of `tools/try_nodes.py`: a tape or a folder that went back to what it was before, and what is told to
its node."""

import contextlib
import re
import shutil
import time

from farmkit.folder import contents, put
from farmkit.mapfiles import a_map
from farmkit.nodes import KEPT, NODES, Nodes
from farmkit.processes import Farm, free_ports
from farmkit.tapes import ACCEPTED, HEAD, PUBLISHED, records
from farmkit.wanted import is_so_within, named, unless, until, want, want_none
from farmkit.web import connect, loopback

# seconds for which a node is watched
WATCHED = 5
BACK = "bad folder: the tape went back: "


def copy_of(nodes, i):
    """A copy of a node's folder, which may run: without files that are being written."""
    return shutil.copytree(nodes[i].folder, nodes.folder / "copy", ignore=shutil.ignore_patterns("*.new"))


# ---- a tape that went back, found by its node alone

def rejection(nodes, i, line):
    """What is wrong with a start of a node that has to be rejected with a line that begins so."""
    nodes[i].life += 1  # it may say less than before: that is found here
    before = contents(nodes[i].folder)
    nodes.start(i)
    is_so_within(lambda: nodes[i].ended() is not None, WATCHED)
    code, last = nodes[i].ended(), nodes[i].last_line()
    nodes.kill(i)
    return (unless(code == 1 and last.startswith(line), f"status {code}, {last}")
            + unless(contents(nodes[i].folder) == before, "its files were changed"))


def with_tape(nodes, i, content, line):
    """What is wrong with a start on other bytes as the tape; then the tape is as it was."""
    sound = contents(nodes[i].folder)
    nodes[i].tape.write_bytes(content)
    found = rejection(nodes, i, line)
    put(nodes[i].folder, sound)
    return found


def older(nodes):
    """a start on the tape of two publishes ago, and on an emptied one, in farms of three and of one"""
    nodes.publish_all(a_map("first"), a_map("second"))
    copy = nodes[1].tape.read_bytes()
    nodes.publish_all(a_map("third"), a_map("fourth"))
    time.sleep(KEPT)
    nodes.end()
    wrong = named("of two publishes ago", with_tape(nodes, 1, copy, BACK + "it had published 4, now 2"))
    wrong += named("emptied", with_tape(nodes, 1, b"", BACK + "it had published 4, now 0"))
    with Nodes(nodes.program, nodes.folder / "alone", 1) as alone:
        alone.publish_all(*(a_map(f"alone{k}") for k in range(3)))
        time.sleep(KEPT)
    alone[0].tape.write_bytes(b"")
    want_none(wrong + named("alone", rejection(alone, 0, BACK + "it had published 3, now 0")))
    nodes.start_all()
    return f"rejected; level after {nodes.level()} s"


def zeroed(nodes):
    """a start on a tape with zeros where a vote, or a publication, was that was synced over a second ago"""
    nodes.restart_limitable(0)
    nodes.publish_all(a_map("first"))
    nodes.kill(2)
    # the leader's own vote fails, once it has asked for node 1's, and no other file of its folder has to be
    # written before
    time.sleep(KEPT)
    nodes.limit(0, 0)
    nodes.publish(0, a_map("second"))
    until(lambda: records(nodes[1].tape.read_bytes())[0][-1][0] == ACCEPTED)
    time.sleep(KEPT)
    nodes.kill(0, 1)
    tape, wrong, last, at = nodes[1].tape.read_bytes(), [], {}, 0
    for kind, body in records(tape)[0]:
        last[kind], at = at, at + HEAD + len(body)
    for name, kind, line in (("a vote", ACCEPTED, BACK + "it had voted for ("),
                             ("a publication", PUBLISHED, BACK + "it had published 1, now 0")):
        zeros = tape[:last[kind]] + bytes(len(tape) - last[kind])
        wrong += named(name, with_tape(nodes, 1, zeros, line))
    want_none(wrong)
    nodes.start_all()
    nodes.publish_whole(1, a_map("after"))
    return f"rejected both; level after {nodes.level()} s"


# ---- a folder that went back, found by peers

def is_suspended(nodes, i):
    """Whether a node says that it is suspended, and which peer remembers more of it than it has."""
    status, said = nodes[i].health()
    found = re.fullmatch(r"suspended: node (\d) at 127\.0\.0\.1:(\d+) remembers \w.*", said)
    peer, port = map(int, found.groups()) if found else (i, 0)
    return status == 503 and peer != i and peer < NODES and nodes.peer[peer] == port


def answers(port):
    """What a port of a node answers to a client; None where nothing can be sent to it."""
    with contextlib.suppress(OSError), connect(loopback(port), 2) as client:
        client.sendall(b"GET /status HTTP/1.1\r\nHost: it\r\n\r\n")
        try:
            return client.recv(100)
        except TimeoutError:
            return b"(silence)"
    return None


def suspension(nodes, i, seconds=2 * WATCHED):
    """What is wrong with a node that has to be suspended within this time, and stays so."""
    if not is_so_within(lambda: is_suspended(nodes, i), seconds):
        return [f"node {i} isn't suspended: {nodes[i].health()}, published {nodes.published(i)}, status "
                f"{nodes[i].ended()}: {nodes[i].last_line()}"]
    time.sleep(1)
    wrong = unless(is_suspended(nodes, i), f"node {i} is suspended no more: {nodes[i].health()}")
    for path in ("/readyz", "/votez"):
        status, said = nodes[i].says(path)
        wrong += unless(status == 503 and said.startswith("suspended: node "), f"{path}: {status} {said}")
    wrong += unless(nodes[i].says("/metrics")[0] == 200, "its operator's port has no metrics")
    return wrong + unless(not (said := answers(nodes.http[i])), f"a client is answered: {said}")


def restored(nodes):
    """a folder is copied between two publishes of one leadership, and put back: the node that published the
    second map doesn't let it in, and no other map takes its place"""
    nodes.kill(2)
    nodes.publish_whole(0, a_map("first"), 1)
    copy = copy_of(nodes, 1)
    nodes.publish_whole(0, a_map("second"))
    # it has voted; what it says later would tell that it published
    nodes[1].pause()
    time.sleep(KEPT)
    nodes.end()
    nodes.put(1, copy)

    def let_in():
        return [len(nodes.lines(0, f"{event} peer=1")) for event in ("accepted", "connected")]

    before = let_in()
    nodes.start_all([0])
    nodes.start(1)
    wrong = suspension(nodes, 1) + unless(let_in() == before, "node 0 lets node 1 in")
    nodes.kill(0)
    nodes.start_all([2])
    wrong += counted_vote(nodes, 2)
    nodes.start_all([0])
    is_so_within(lambda: nodes.published(2) >= 2, WATCHED)
    names = {i: nodes.name(i, 2) for i in range(NODES)}
    want_none(wrong + unless(names[0] == names[2] == "second", f"maps under 2: {names}"))
    return "suspended, and the map that was published under 2 stays"


def promised(nodes):
    """all are killed after a new promise, a copy of a folder from before it is put back, and all are
    started"""
    nodes.publish_all(a_map("first"))
    copy = copy_of(nodes, 1)
    # so that node 2 leads by node 1's promise
    nodes[0].pause()
    nodes.publish_whole(2, a_map("second"))
    nodes.end()
    nodes.put(1, copy)
    nodes.start(*range(NODES))
    want_none(suspension(nodes, 1))
    until(lambda: nodes.published(0) == nodes.published(2) == 2)
    return "suspended"


def put_back_copy(nodes):
    """Puts a copy of node 1's folder back, from before its last start."""
    nodes.publish_all(a_map("first"))
    nodes.kill(1)
    copy = copy_of(nodes, 1)
    nodes.start_all([1])
    nodes.level()
    time.sleep(KEPT)
    nodes.kill(1)
    nodes.put(1, copy)


def suspended(nodes):
    """an old copy is suspended at each start, also with more starts and without peers, and its vote doesn't
    count"""
    put_back_copy(nodes)
    wrong, readers = [], free_ports(1)[0]
    for which in ("first", "second", "third"):
        nodes.kill(1)
        nodes.start(1, more=("--readers", f"127.0.0.1:{readers}"))
        wrong += named(f"{which} start", suspension(nodes, 1)
                       + unless(not answers(readers), "a reader's connection stays open"))
    line = r"(?m)^suspended by ([0-9a-f]{8}) at 0{20}ffff7f000001 port ([0-9a-f]{8}) cause 00000006$"
    found = re.search(line, (nodes[1].folder / "farm").read_text())
    wrong += unless(found and nodes.peer[int(found[1], 16)] == int(found[2], 16),
                    f"the line of its file farm: {found and found[0]}")
    nodes.kill(1)
    nodes.put(1, nodes.folder / "copy")
    farm = nodes[1].folder / "farm"
    farm.write_text(re.sub("(?m)^starts .*$", "starts 00000009", farm.read_text()))
    nodes.start(1)
    wrong += named("the copy once more, with more starts than were heard of", suspension(nodes, 1))
    nodes.kill(0)
    wrong += counted_vote(nodes, 2)
    nodes.kill(2)
    nodes.restart(1)
    wrong += named("without peers", suspension(nodes, 1))
    want_none(wrong)
    nodes.start(0, 2)
    until(lambda: nodes.published(0) == nodes.published(2) >= 1)
    return "suspended at each of five starts"


def counted_vote(nodes, i):
    """What is wrong where a node can publish a map by a vote that doesn't count."""
    before = nodes.published(i)
    nodes.publish(i, a_map("by a vote"))
    is_published = is_so_within(lambda: nodes.published(i) > before, WATCHED)
    return unless(not is_published, "a map was published by its vote")


def unwritten(nodes):
    """a node that can't write what it hears of its peers is as if it were halted, and its vote doesn't count;
    it goes on once it can write"""
    nodes.publish_all(a_map("first"))
    time.sleep(KEPT)
    heard, second = nodes[1].folder / "heard", nodes[1].folder / "heard.new"
    sound = heard.read_bytes()
    heard.unlink()
    for path in (heard, second):
        (path / "in the way").mkdir(parents=True)
    nodes.publish_whole(2, a_map("second"))
    wrong = unless(is_so_within(lambda: nodes[1].health() == (503, "halted"), WATCHED),
                   f"node 1's health is {nodes[1].health()}")
    is_told = any(re.search(r' folder-not-written file="?\S*heard\S*"? why="', line)
                  for line in nodes.lines(1, "folder-not-written"))
    wrong += unless(is_told, "no line folder-not-written about heard")
    nodes.kill(2)
    before = nodes.published(0)
    wrong += counted_vote(nodes, 0)
    for path in (heard, second):
        shutil.rmtree(path)
    heard.write_bytes(sound)
    want_none(wrong + unless(is_so_within(lambda: nodes[1].health()[0] == 200, WATCHED),
                             f"once it can be written node 1's health is {nodes[1].health()}"))
    until(lambda: nodes.published(0) > before)
    return "halted; then it went on by itself"


# ---- the tape that a new folder begins with

def taken(nodes):
    """`wfarm init --from` takes the tape of this node, also without a file `farm`, and not one with votes for
    rounds that its node never tried (the other rejections are cases of `crates/wf_test_commands`)"""
    nodes.publish_all(a_map("first"), a_map("second"))
    serve, renamed, bare = (nodes.folder / name for name in ("serve", "renamed", "bare"))
    serve.mkdir()
    with Farm(nodes.program, 100, serve) as farm:
        for k in range(6):
            want("no publish", farm.ask("/publish", a_map(f"serve{k}"))[0] in (202, 409))
    shutil.copytree(serve, renamed)
    bare.mkdir()
    # node 1 has voted for what node 0 proposed, and node 0 tried no round on this tape
    shutil.copy(nodes[1].tape, renamed / "node-0.tape")
    shutil.copy(serve / "node-0.tape", bare)
    cases = {serve: (0, ""), bare: (0, "warning: no file farm beside --from "),
             renamed: (1, "another node's tape: its node promised or voted for round ")}
    wrong = []
    for folder, (status, said) in cases.items():
        place = nodes.folder / f"new-{folder.name}"
        place.mkdir()
        ran = nodes.run("init", "--state", place, "--farm", "new", "--id", 0, "--nodes", 3, "--from",
                        folder / "node-0.tape")
        lines = ran.stderr.splitlines()
        is_told = len(lines) == (1 if said else 0) and said in ran.stderr
        wrong += unless(ran.returncode == status and is_told, f"{folder.name}: {ran.returncode}, {lines}")
        wrong += unless(status == 0 or not list(place.iterdir()), f"{folder.name}: files were made")
    want_none(wrong)
    return f"{len(cases)} tapes"


CASES = [older, zeroed, restored, promised, suspended, unwritten, taken]
