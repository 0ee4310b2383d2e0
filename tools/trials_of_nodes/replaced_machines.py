"""Cases of `tools/try_nodes.py`: a machine is lost with its disk, and a new folder takes its node's place."""

import contextlib
import subprocess
import time

from farmkit.command import lacks
from farmkit.mapfiles import a_map
from farmkit.processes import Service, ctl_words, write_nodes
from farmkit.wanted import PATIENCE, is_so_within, until, want
from farmkit.web import ask

ALLOWED = "--replace-allowed"
RETIRED = "retired: another folder took its place; end it, and never start its folder again"


@contextlib.contextmanager
def replaceable(nodes):
    """All nodes again, with replacements allowed, some maps, and a service."""
    nodes.end()
    for node in nodes.each:
        node.words.append(ALLOWED)
    nodes.start_all()
    write_nodes(nodes.folder / "nodes", nodes.each)
    publish_at_each(nodes, "before")
    with Service(nodes.each) as service:
        yield service


def lose(nodes, i):
    """A machine is lost: its old folder, which is never started again, and the new one, which joins."""
    nodes.kill(i)
    old = nodes.folder / f"old-{i}-{nodes[i].life}"
    nodes[i].folder.rename(old)
    nodes[i].life += 1
    nodes.init(i, "--replace")
    nodes.start(i)
    until(lambda: nodes[i].health()[1].startswith("joins"))
    return old


def give_vote(nodes, i):
    """The seconds until the new folder of a node votes, with maps published as it wants them."""
    begun = time.monotonic()
    running = begun_replacement(nodes, i)
    told = running.communicate()[0]
    want(f"replace {i}: {told}", running.returncode == 0)
    return round(time.monotonic() - begun, 1)


def begun_replacement(nodes, i):
    """A `wfarmctl replace` that runs, with what it writes in a pipe."""
    words = ctl_words(nodes.program, nodes.folder / "nodes", "replace", i, "--yes", "--force", "--publish")
    return subprocess.Popen(words, stdout=subprocess.PIPE, stderr=subprocess.STDOUT, text=True)


def see_through(nodes, running, word):
    """Waits until a `wfarmctl replace` of node 1 has ended, runs it again where it wasn't done, and publishes
    at each node: what it wrote."""
    told = running.communicate(timeout=4 * PATIENCE)[0]
    if running.returncode != 0:
        give_vote(nodes, 1)
    publish_at_each(nodes, word)
    nodes.level()
    return told


def publish_at_each(nodes, word):
    for i in range(nodes.count):
        nodes.publish_whole(i, a_map(f"{word}{i}"))


def replaced(nodes):
    """A folder takes a lost one's place, and votes; the old one, started again, is retired."""
    seconds = []
    with replaceable(nodes) as service:
        old = lose(nodes, 1)
        nodes.publish_whole(0, a_map("meanwhile"))
        want("it joins, and answers a client", nodes.published(1) == -1)
        seconds.append(give_vote(nodes, 1))
        nodes.level()
        publish_at_each(nodes, "after")
        # its vote is wanted now
        nodes.kill(2)
        nodes.publish_whole(0, a_map("two"))
        nodes.publish_whole(1, a_map("of three"))
        nodes.start_all([2])
        nodes.level()
        is_rejected = comes_back(nodes, 1, old)
        # node 0 last: each other node was replaced before
        for i in (2, 0):
            lose(nodes, i)
            seconds.append(give_vote(nodes, i))
            publish_at_each(nodes, f"anew{i}")
            nodes.level()
        return f"{len(seconds)} machines replaced in {seconds} s, {service.restarts} restarts; {is_rejected}"


def comes_back(nodes, i, old):
    """The old folder of a node is started again in the new one's place: it is retired, and ends nobody."""
    nodes.kill(i)
    new = nodes.folder / "new"
    nodes[i].folder.rename(new)
    old.rename(nodes[i].folder)
    nodes.start(i)
    nodes[i].life += 1
    until(lambda: nodes[i].health()[1].startswith("suspended"))
    said = nodes[i].health()[1]
    told = nodes.lines(i, "suspended")
    want(f"it isn't told that it is retired: {told}", any(RETIRED in line for line in told))
    nodes.kill(i)
    nodes[i].folder.rename(old)
    new.rename(nodes[i].folder)
    nodes[i].life += 1
    nodes.start_all([i])
    nodes.level()
    return said


def standing(node):
    """What a node tells of its folder, by the first word, and of replacements: node, count and mark."""
    lines = node.says("/replacements")[1].splitlines()
    known = [line.split()[1:] for line in lines if line.startswith("replaced ")]
    return dict(line.split(" ", 1) for line in lines if " " in line), known


def one_replacement(nodes):
    """The one replacement that all nodes know of."""
    counts = {told for node in nodes.each for told in map(tuple, standing(node)[1])}
    want(f"what they know: {counts}", len(counts) == 1)
    return counts


def agree_at_once(i, pairs):
    """Operators let each of these nodes agree to the replacement of node i by another folder."""
    marks = [standing(joiner)[0]["mark"] for _, joiner in pairs]
    for node, path in [*((joiner, "begin?count=1") for _, joiner in pairs),
                       *((asked, f"agree?node={i}&count=1&mark={mark}&force")
                         for (asked, _), mark in zip(pairs, marks))]:
        answer = ask(node.operator, f"/replace/{path}", b"")
        want(f"{node.known_as}: {path}: {answer}", answer.status == 202)
    until(lambda: all([str(i), "1", mark] in standing(asked)[1] for (asked, _), mark in zip(pairs, marks)))


def has_half(joiner):
    """Whether half of the nodes have agreed to a folder; one that restarts tells nothing."""
    told = joiner.health()[1]
    return told and not told.startswith(("joins, 0 of 2 nodes agreed", "joins, 1 of 2 nodes agreed"))


def rivals(nodes):
    """two folders join at once as one node, and each other node agrees to another one first: none votes,
    until a replacement of a higher count is begun; the one that is left behind never votes; an old folder
    that is started beside the new one is retired"""
    with replaceable(nodes) as service:
        old = lose(nodes, 1)
        with nodes.beside(1, nodes.folder / "other", ALLOWED) as other:
            other.init("tried", "--replace")
            other.start()
            until(lambda: other.health()[1].startswith("joins"))
            service.processes = [*nodes.each, other]
            agree_at_once(1, ((nodes[0], nodes[1]), (nodes[2], other)))
            nodes.publish_whole(0, a_map("meanwhile"))
            # the one at the listed address may hear of the other one first, and then counts no agreement
            votes = is_so_within(lambda: has_half(nodes[1]) or has_half(other), 8, 0.2)
            first = [each.health()[1] for each in (nodes[1], other)]
            seconds = give_vote(nodes, 1)
            publish_at_each(nodes, "after")
            left, known = other.health()[1], [standing(node)[1] for node in nodes.each]
            want(f"the folder that was left behind: {left}", left.startswith("joins"))
            want(f"what they know: {known}",
                 all([each[:2] for each in told] == [["1", "2"]] for told in known))
        retired = retired_beside(nodes, 1, old)
    want(f"with an agreement each at most: {first}", not votes)
    return f"{first}, then count 2 in {seconds} s; the one left behind: {left}; {retired}"


def retired_beside(nodes, i, folder):
    """What an old folder is told that is started beside the one that took its place."""
    with nodes.beside(i, folder, ALLOWED) as old:
        old.start()
        until(lambda: old.health()[1].startswith("suspended"))
        want(f"it isn't told that it is retired: {old.last_line()}", RETIRED in old.log.read_text())
        publish_at_each(nodes, "beside")
        want("it answers a client", old.published(2) is None)
        return old.health()[1]


def stopped(nodes):
    """an asked node is killed at each call by which it writes that it agreed, the last one behind its sync:
    `wfarmctl replace` goes on once it is started again, or is run again, and one folder votes"""
    if lacking := lacks("strace"):
        return f"left out: {lacking}"
    said = []
    with replaceable(nodes):
        for call in ("openat", "fsync", "rename"):
            lose(nodes, 1)
            nodes.kill(0)
            nodes[0].start(before=dying(call, nodes[0].folder / "replaced.new", nodes.folder / "trace"))
            nodes.wait(0)
            running = begun_replacement(nodes, 1)
            until(lambda: nodes[0].ended() is not None)
            ended = nodes[0].ended()
            nodes.start(0)
            want(f"{call}: node 0 ended with {ended}", ended != 0)
            said.append(f"{call} {see_through(nodes, running, call).splitlines()[-1]}")
    return ", ".join(said)


def joining(nodes):
    """a folder that joins is killed at each call by which it writes what it was told, up to the one by which
    it ceases to join: started again it goes on, and votes"""
    if lacking := lacks("strace"):
        return f"left out: {lacking}"
    killed, usual = 0, nodes[1].before
    with replaceable(nodes):
        for call in ("fsync", "rename", "openat"):
            for when in range(1, WRITES + 1):
                lose(nodes, 1)
                nodes.kill(1)
                path, trace = nodes[1].folder / "joins.new", nodes.folder / "trace"
                # the service starts it so too, once it has noted its own replacement
                nodes[1].before = dying(call, path, trace, when)
                nodes.start(1)
                until(lambda: nodes[1].health()[1].startswith("joins"))
                running = begun_replacement(nodes, 1)
                is_over = is_so_within(lambda: nodes[1].ended() not in (None, 0), 2 * PATIENCE)
                if not is_over:
                    running.kill()
                want(f"{call} {when}: it wasn't killed: {nodes[1].health()}", is_over)
                killed += 1
                nodes[1].before = usual
                nodes.start(1)
                see_through(nodes, running, f"{call}{when}")
    return f"{killed} times killed, and each time it votes"


# how often a process of a folder that joins one of three nodes writes `joins`, at most: two agreements, two
# answers, and the empty text; the process before it has written that it was begun
WRITES = 5


def dying(call, path, trace, when=1):
    """The words before those of a program that is killed when it does this call to a file, so many times."""
    return ["strace", "-D", "-f", "-q", "-P", str(path), "-e", f"trace={call}", "-e",
            f"inject={call}:signal=SIGKILL:when={when}", "-o", str(trace)]


def resumed(nodes):
    """`wfarmctl replace` is ended after each of its lines and run again, with the same folder or, where its
    disk is lost too, with another one: it votes"""
    said = []
    with replaceable(nodes):
        for lines in range(1, 6):
            for is_lost in (False, True):
                lose(nodes, 1)
                running = begun_replacement(nodes, 1)
                last = [running.stdout.readline().strip() for _ in range(lines)][-1]
                running.kill()
                running.communicate()
                if is_lost:
                    lose(nodes, 1)
                give_vote(nodes, 1)
                said.append(f"{last}{' and a lost disk' if is_lost else ''}")
                nodes.level()
        publish_at_each(nodes, "after")
        return f"ended after {'; '.join(said)}; then {one_replacement(nodes)}"


def operators(nodes):
    """two operators run `wfarmctl replace` at once, five times: a folder votes, and all know of one
    replacement"""
    said = []
    with replaceable(nodes):
        for _ in range(5):
            lose(nodes, 1)
            both = [begun_replacement(nodes, 1) for _ in range(2)]
            told = [each.communicate(timeout=4 * PATIENCE)[0].splitlines()[-1] for each in both]
            statuses = [each.returncode for each in both]
            if 0 not in statuses:
                give_vote(nodes, 1)
            said.append(f"{statuses} {told if 0 in statuses else ''}")
            publish_at_each(nodes, f"after{len(said)}")
            nodes.level()
        return f"{', '.join(said)}; then {one_replacement(nodes)}"


CASES = [replaced, rivals, stopped, joining, resumed, operators]
