"""Cases of `tools/try_nodes.py`: a node whose tape fails is halted, and its tape is opened anew only as the
node that it was.

What a program says is left open where it may choose its words: a line of the log is looked for by its event
and the file that it names.
"""

import contextlib
import re
import shutil
import subprocess
import time

from farmkit.device import fill, make_room
from farmkit.mapfiles import PICTURE, a_map, canonical, map_of
from farmkit.nodes import KEPT, NODES
from farmkit.processes import Node, run
from farmkit.tapes import ACCEPTED, PROMISED, PUBLISHED, TRIED, record, records
from farmkit.wanted import unless, until, want, want_none
from farmkit.web import CAPABILITIES

# more bytes than the last page of a tape may have left
LONG_MAP = map_of(1, 9_000)
# seconds
WATCHED = 5
LONG_HALT = 16
SOON = 8


def fail_tape(nodes, i):
    """Gives a node that can't write a map, so that its tape fails before another file of its folder."""
    time.sleep(KEPT)
    nodes.limit(i, 0)
    nodes.publish(i, a_map("unstored"))
    until(lambda: nodes[i].health()[0] == 503)


def changes_while_halted(nodes, i, published, file, seconds=WATCHED):
    """What shows that a halted node isn't as it was, or that its log doesn't name this file."""
    found, before, begun = set(), len(nodes.lines(i, "tape-not-reopened")), time.time()
    while time.time() < begun + seconds:
        status, said = nodes[i].health()
        if status != 503:
            found.add(f"node {i} isn't halted: {status} {said}")
        if (now := nodes.published(i)) != published:
            found.add(f"node {i} says published {now}, and had {published}")
        time.sleep(0.05)
    lines = nodes.lines(i, "tape-not-reopened")[before:]
    # (what stands before the cause is open)
    if not any(re.search(file, line) and re.search("(why|cause)=.", line) for line in lines):
        found.add(f"no line tape-not-reopened about {file}{': ' if lines else ''}{''.join(lines[-1:])}")
    return sorted(found)


def compare_answers(nodes):
    """Compares what all nodes answer at each sequence, once all stand at one."""
    nodes.level()
    for sequence in range(1, nodes.published(0) + 1):
        for what, ask in ((PICTURE % sequence, Node.ask), (f"/map?seq={sequence}", Node.ask_operator)):
            answers = {ask(node, what) for node in nodes.each}
            want(f"{what}: {len(answers)} different answers", len(answers) == 1 and answers.pop()[0] == 200)
    want("capabilities differ", len({node.ask(CAPABILITIES) for node in nodes.each}) == 1)


# ---- a tape that was removed, or unmounted

def removed(nodes):
    """a tape that failed, and whose file is removed: its node stays halted, and serves what it had, until it
    is restarted and doesn't start"""
    nodes.kill(2)
    nodes.restart_limitable(1)
    nodes.publish_whole(0, a_map("x"), 1)
    nodes.kill(0)
    fail_tape(nodes, 1)
    nodes[1].tape.unlink()
    nodes.limit(1, None)
    nodes.start_all([2])
    nodes.publish(2, a_map("y"))
    want_none(changes_while_halted(nodes, 1, 1, r"node-1\.tape", SOON))
    nodes.start_all([0])
    want("a tape was made", not nodes[1].tape.exists())
    until(lambda: nodes.published(2) >= 1)
    want("another map than x", {nodes.name(i, 1) for i in range(NODES)} == {"x"})
    nodes.publish_whole(2, a_map("z"))
    nodes.restart(1)
    ended = nodes.ended(1)
    want(f"a start without a tape: {ended}", ended[0] == 1 and "tape missing" in ended[1]
         and not nodes[1].tape.exists())
    return f"halted for {SOON} s, then: {ended[1]}"


LEFT_OUT = "left out: wants root, and that file systems may be mounted"


@contextlib.contextmanager
def disk_of(nodes, i):
    """A disk of a megabyte in memory with what the folder of a node has, which doesn't run yet: it is mounted
    in its place, and at the path that is given; None where that isn't permitted. All nodes have ended when it
    goes."""
    place, kept = nodes[i].folder, nodes.folder / "disk"
    kept.mkdir()
    words = ["mount", "-t", "tmpfs", "-o", "size=1m", "tmpfs", kept]
    if subprocess.run(words, capture_output=True).returncode:
        yield None
        return
    shutil.copytree(place, kept, dirs_exist_ok=True)
    shutil.rmtree(place)
    place.mkdir()
    try:
        run("mount", "--bind", str(kept), str(place))
        yield kept
    finally:
        nodes.end()
        for each in (place, kept):
            run("umount", "-l", str(each), check=False)


def unmounted(nodes):
    """a disk that is full, unmounted while its node runs, and mounted again: it is halted, and is ever only
    the node that it was; not so on a copy that it hasn't locked; wants root"""
    nodes.kill(2, 1)
    with disk_of(nodes, 1) as disk:
        if disk is None:
            return LEFT_OUT
        nodes.start_all([1])
        nodes.publish_whole(0, a_map("x"), 1)
        time.sleep(KEPT)
        fill(disk)
        want("no publish", nodes.publish(0, LONG_MAP) == 202)
        until(lambda: nodes[1].health()[0] == 503)
        nodes.kill(0)
        run("umount", "-l", str(nodes[1].folder))
        nodes.start_all([2])
        nodes.publish(2, a_map("y"))
        files = rf"{nodes[1].folder}|\bfarm\b|node-1\.tape"
        want_none(changes_while_halted(nodes, 1, 1, files, SOON))
        nodes.start_all([0])
        made = [path.name for path in nodes[1].folder.iterdir()]
        want(f"made where the disk was: {made}", not made)
        shutil.copytree(disk, nodes[1].folder, dirs_exist_ok=True, ignore=shutil.ignore_patterns("filling"))
        want_none(changes_while_halted(nodes, 1, 1, files))
        make_room(disk)
        run("mount", "--bind", str(disk), str(nodes[1].folder))
        until(lambda: nodes[1].health()[0] == 200, 10)
        want(f"node 1 says published {nodes.published(1)}", nodes.published(1) >= 1)
        nodes.publish_whole(2, a_map("z"))
        compare_answers(nodes)
        return f"halted for {SOON + WATCHED} s; after it was mounted again it went on by itself"


# ---- a full disk

def room(nodes):
    """a disk that is full for 16 seconds while its node runs, which is halted and serves what it had; a
    publish that needs its vote comes within seconds, with one start more counted; wants root"""
    nodes.kill(2)
    with disk_of(nodes, 2) as disk:
        if disk is None:
            return LEFT_OUT
        nodes.start_all([2])
        nodes.publish_all(a_map("first"))
        starts = nodes.starts(2)
        time.sleep(KEPT)
        fill(disk)
        nodes.publish_whole(0, LONG_MAP)
        until(lambda: nodes[2].health()[0] == 503)
        want("a halted node took a publish", nodes.publish(2, a_map("refused")) == 503)
        want("a halted node doesn't answer", nodes[2].ask(CAPABILITIES).status == 200)
        time.sleep(LONG_HALT)
        nodes.kill(1)
        want("no publish", nodes.publish(0, a_map("third")) == 202)
        time.sleep(1)
        want("published without a majority", nodes.published(0) == 2)
        make_room(disk)
        seconds = until(lambda: nodes.published(0) == nodes.published(2) == 3)
        counted = nodes.starts(2) - starts
        rejected = [line for line in nodes.lines(0, "dropped") + nodes.lines(2, "lost") if "refused" in line]
        nodes.start_all([1])
        compare_answers(nodes)
        wrong = unless(seconds <= SOON, f"{seconds} s from the room to the publication")
        want_none(wrong + unless(counted == 1, f"{counted} starts more are counted, not one") + rejected)
        return f"published {seconds} s after there was room, and after {LONG_HALT} s without; one start more"


# ---- other files in a halted node's folder

def check_each(nodes, file, changes):
    """Fails node 1's tape once for each change of a file (None: it is removed)."""
    wrong, published = [], nodes.published(1)
    for name, changed in changes.items():
        fail_tape(nodes, 1)
        path = nodes[1].folder / file
        sound = path.read_bytes()
        content = changed(sound)
        if content is None:
            path.unlink()
        else:
            path.write_bytes(content)
        nodes.limit(1, None)
        found = changes_while_halted(nodes, 1, published, file)
        wrong += unless(not found, f"{name}: {', '.join(found)}")
        nodes.kill(1)
        path.write_bytes(sound)
        nodes.restart_limitable(1)
    want_none(wrong)
    nodes.publish_whole(1, a_map("after"))
    compare_answers(nodes)
    return f"halted with each of {len(changes)} other files"


def exchanged(nodes):
    """a tape that failed, and another one in its place"""
    for k in range(9):
        nodes.publish_all(a_map(f"first{k}"))
        if any(kind == PROMISED for kind, _ in records(nodes[2].tape.read_bytes())[0]):
            break
    older = nodes[1].tape.read_bytes()
    nodes.kill(2, 0)
    nodes.start_all([0])
    # node 2 has no part in node 0's second round, and then equally much
    nodes.publish_whole(0, a_map("second"), 1)
    nodes.start_all([2])
    nodes.level()
    nodes.restart_limitable(1)
    nodes.restart(2)
    nodes.wait(2)
    tape, other = nodes[1].tape.read_bytes(), nodes[2].tape.read_bytes()
    want(f"the tapes of nodes 1 and 2 have {len(tape)} and {len(other)} bytes", len(tape) == len(other)
         and tape != other)
    changes = {"an older copy": lambda _: older, "another node's tape of equal length": lambda _: other,
               "a tape of equal length with another text": lambda own: own.replace(b'"second"', b'"sec0nd"'),
               "its own with another record behind": lambda own: own + record(TRIED, (99).to_bytes(4, "big"))}
    return check_each(nodes, "node-1.tape", changes)


def rewritten(nodes):
    """a tape that failed, and another file `farm` beside it, or none: its node stays halted"""
    nodes.publish_all(a_map("first"))
    nodes.restart_limitable(1)

    def with_line(word, change):
        return lambda own: re.sub(rf"(?m)^{word} (\w+)$", lambda line: f"{word} {change(line[1])}",
                                  own.decode()).encode()

    changes = {"a later start": with_line("starts", lambda count: f"{int(count, 16) + 1:08x}"),
               "an older start": with_line("starts", lambda count: f"{int(count, 16) - 1:08x}"),
               "another mark": with_line("mark", lambda mark: mark[::-1]),
               "another node's": with_line("node", lambda _: "02"), "no file": lambda _: None}
    return check_each(nodes, "farm", changes)


def completed(nodes):
    """a tape that failed, and has the record of the step that failed, as a failed sync may leave it: its node
    goes on with it, and has counted one start more"""
    # a tape that is longer than the other files of the folder, which stay as long as they are
    nodes.publish_all(a_map("first", "x" * 900))
    nodes.restart_limitable(1)
    nodes.level()
    time.sleep(KEPT)
    text = canonical(nodes.program, a_map("second"))
    # room for a vote (its frame has six bytes, its sequence two, its ballot five) and a promise, not for the
    # publication
    nodes.limit(1, nodes[1].tape.stat().st_size + len(text) + 13 + 50)
    starts = nodes.starts(1)
    nodes.kill(2)
    nodes.publish_whole(0, a_map("second"))
    until(lambda: nodes[1].health()[0] == 503)
    want("node 1 has published it", nodes.published(1) == 1)
    stored, _ = records(nodes[1].tape.read_bytes())
    want(f"node 1's last record is of kind {stored[-1][0]}", stored[-1][0] == ACCEPTED)
    failed = records(nodes[0].tape.read_bytes())[0][-1]
    want(f"node 0's last record is of kind {failed[0]}", failed[0] == PUBLISHED)
    nodes[1].tape.write_bytes(b"".join(record(*each) for each in [*stored, failed]))
    nodes.limit(1, None)
    seconds = until(lambda: nodes[1].health()[0] == 200 and nodes.published(1) == 2)
    counted = nodes.starts(1) - starts
    nodes.start_all([2])
    nodes.publish_whole(1, a_map("third"))
    compare_answers(nodes)
    want(f"{counted} starts more are counted, not one", counted == 1)
    return f"it went on after {seconds} s; one start more"


CASES = [room, removed, unmounted, exchanged, rewritten, completed]
