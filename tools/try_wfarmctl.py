#!/usr/bin/env python3
"""Tries each command of `tools/wfarmctl` over a real farm: three nodes in processes of their own, of which
some are killed, stopped, given an old copy of their folder, a disk that is full, or a tape that was changed.
"""

import json
import pathlib
import re
import shlex
import shutil
import socket
import subprocess
import sys
import tempfile
import time
from unittest import mock

from farmkit import trial
from farmkit.command import add_slack, program_parser
from farmkit.mapfiles import a_map, canonical
from farmkit.nodes import NODES, Nodes
from farmkit.processes import Replica, ctl_words, wfarmctl, write_nodes
from farmkit.repository import EXAMPLES
from farmkit.web import Listener, loopback


class Stranger(Listener):
    """A port at which something else answers."""

    def __init__(self, said):
        self.said = said
        super().__init__()

    def serve(self, client):
        client.recv(1 << 16)
        client.sendall(self.said)


class Trial(trial.Trial):
    def __init__(self, options, folder):
        super().__init__(options.slack)
        self.program, self.folder = options.program, folder
        self.nodes, self.file = self.farm("first")

    def farm(self, name):
        """A new farm that isn't started, and its file of nodes."""
        nodes = Nodes(self.program, self.folder / name, farm=name, has_readers=True).init_all()
        file = self.folder / f"{name}.nodes"
        write_nodes(file, nodes.each)
        return nodes, file

    def map(self, name, title=""):
        path = self.folder / f"{name}.map"
        path.write_bytes(a_map(name, title or name))
        return path

    def call(self, *words, file=None, seconds=30, program=None):
        """What `wfarmctl` does: its status, what it writes, and what it writes on standard error."""
        return wfarmctl(program or self.program, file or self.file, *words, seconds=seconds)

    def tells(self, what, *words, code=None, out=None, has=(), error=(), **options):
        """What a call writes: all of it, a part or parts of it, and of an error, which has the status 1."""
        status, told, wrong = self.call(*words, **options)
        wanted = int(bool(error)) if code is None else code
        holds = status == wanted and (out is None or told == out) and all(
            part in text for parts, text in ((has, told), (error, wrong))
            for part in ([parts] if isinstance(parts, str) else parts))
        self.see(what, holds, (status, told, wrong))

    def all_at(self, sequence, *those):
        """Whether all nodes or these have published up to this sequence."""
        return all(self.nodes.published(each) == sequence for each in those or range(NODES))

    def canonical(self, path):
        return canonical(self.program, path.read_bytes()).decode()


def try_well(trial):
    trial.nodes.start(*range(NODES))
    trial.wait("status: a new farm is well", lambda: trial.call("status")[0] == 0)
    told = trial.call("status")[1]
    trial.see("status: a head and a line per node, each ok",
              (told.count("\n"), told.count(" ok\n")) == (4, 3), told)
    first, second = trial.map("first"), trial.map("second", "another title")
    trial.tells("publish: the sequence, and the node that took the map", "publish", first,
                out="published 1 at node 0\n")
    trial.wait("all nodes have it", lambda: trial.all_at(1))
    invalid = EXAMPLES / "refused-include.map"
    trial.tells("publish: what `wfarm check` finds in a map that isn't valid", "publish", invalid,
                error=("line 1, column 5", "Found INCLUDE", "400 M5 4\n"))
    code, _, error = trial.call("publish", invalid, program=trial.folder / "nothing")
    trial.see("publish: not where the program isn't there",
              (code, error) == (1, "wfarmctl: node 0: 400 M5 4\n"), error)
    trial.tells("publish: a file that isn't there", "publish", trial.folder / "nothing", error="No such file")
    trial.tells("publish: another", "publish", second, out="published 2 at node 0\n")
    trial.tells("publish: the published map", "publish", second, out="unchanged: it is sequence 2\n")
    trial.tells("rollback: to the published map", "rollback", 2, out="unchanged: it is sequence 2\n")
    trial.tells("map: the canonical text", "map", 1, out=trial.canonical(first))
    trial.tells("map: a sequence that isn't published", "map", 3, error="sequence 3 isn't published")
    trial.tells("diff: what was taken away, and what came", "diff", 1, 2, has=("\n-", "\n+", "another title"))
    trial.tells("diff: nothing", "diff", 1, 1, out="")
    trial.tells("rollback: the map again, under a new sequence", "rollback", 1, has="published 3 ")
    trial.tells("map: the same as before", "map", 3, out=trial.canonical(first))
    trial.wait("all nodes have it", lambda: trial.all_at(3))
    trial.tells("replace: a node that the farm hasn't", "replace", 7, error="the farm has no node 7")
    trial.tells("replace: one that doesn't join", "replace", 2, error="doesn't join: it serves")
    try_history(trial)
    try_file_of_nodes(trial)


def try_history(trial):
    code, told, _ = trial.call("history")
    lines = [line.split() for line in told.splitlines()]
    trial.see("history: a head, a line per map, and what is left", code == 0 and len(lines) == 5
              and lines[-1] == "4,093 of 4,096 left".split(), told)
    length = str(len(trial.canonical(trial.folder / "second.map")))
    trial.see("history: sequence, bytes, name and title",
              lines[2:3] == [["2", length, "second", "another", "title"]], told)
    told = trial.call("history", "--log", trial.nodes[0].log)[1]
    trial.see("history: when, by the log of the node that took the maps",
              len(re.findall(r"(?m)^ +[123] 20\d\d-\d\d-\d\dT\d\d:\d\d:\d\dZ +\d+ ", told)) == 3, told)
    told = trial.call("status", "-o", "json")[1]
    read = json.loads(told)
    trial.see("status: as JSON", (read.get("well"), read.get("published"), read.get("left"),
                                  read.get("differ")) == (True, 3, 4093, None), told)
    fields = {"name": "node 1", "published": 3, "majority": True, "state": "ok", "peers": 2,
              "proposal": "none"}
    trial.see("status: each process, and whether it hears a majority",
              fields.items() <= read["processes"][1].items(), told)
    trial.see("status: of which version and revision",
              all(each["version"] and each["revision"] for each in read["processes"]), told)
    try_export(trial)


def try_export(trial):
    folder = trial.folder / "export"
    trial.tells("export: all maps", "export", folder, out=f"exported 3 maps to {folder}\n")
    files = sorted(folder.glob("*.map"))
    maps = [trial.call("map", at)[1] for at in (1, 2, 3)]
    trial.see("export: a file each", [file.read_text() for file in files] == maps, files)
    trial.tells("verify: an export", "verify", folder, out=f"{folder}: whole, published 3\n")
    (folder / "0003.map").unlink()
    trial.tells("verify: one that lacks a map", "verify", folder, error="the map of sequence 3 is missing")
    trial.see("export: it goes on", trial.call("export", folder)[0] == 0
              and sorted(folder.glob("*.map")) == files != [])
    second = folder / "0002.map"
    second.write_text(maps[0])
    trial.tells("export: never beside another farm's maps", "export", folder,
                error="0002.map: not the farm's map of sequence 2")
    trial.tells("verify: a map that was changed", "verify", folder,
                error="the map of sequence 2 isn't the one that was exported")
    second.write_text(maps[1])


def try_file_of_nodes(trial):
    """A file of nodes that isn't right, and hosts that are silent."""
    swapped, away = trial.folder / "swapped.nodes", trial.folder / "silent.nodes"
    write_nodes(swapped, [trial.nodes[number] for number in (1, 0, 2)])
    trial.tells("status: a node that answers in another's line", "status", file=swapped, code=1,
                has="node 1 answers at ")
    with socket.create_server(("127.0.0.1", 0)) as silent:
        address = loopback(silent.getsockname()[1])
        away.write_text(trial.file.read_text() + 4 * f"replica {address} {address}\n")
        begun = time.monotonic()
        told = trial.call("status", file=away)[1]
        took = time.monotonic() - begun
    trial.see("status: four silent hosts at once, two seconds", told.count(" ok\n") == 3
              and told.count("unreachable") == 4 and took < 4 + trial.slack, (took, told))


def try_strangers(trial):
    """Addresses at which no farm answers, and a proxy that the environment names."""
    file = trial.folder / "strangers.nodes"
    for said in (b"SSH-2.0-OpenSSH_9.2\r\n", b"HTTP/1.1 200 OK\r\nContent-Length: 99\r\n\r\ncut",
                 b"HTTP/1.1 503 No\r\nContent-Length: 99\r\n\r\ncut", b"HTTP/1.1 200 OK\r\n\r\n\xff\n<html>"):
        stranger = Stranger(said)
        file.write_text(f"127.0.0.1:{stranger.port} 127.0.0.1:{stranger.port}\n")
        for words in (["status"], ["history"], ["publish", trial.map("stray")]):
            code, _, error = trial.call(*words, file=file, seconds=1)
            trial.see(f"{words[0]}: one line where {said[:12]} answers",
                      code == 1 and re.fullmatch("wfarmctl: .+\n", error), error)
        stranger.end()
    for address in ("127.0.0.1", "127.0.0.1:80a", "127.0.0.1:99999"):
        file.write_text(f"{address} 127.0.0.1:1\n")
        trial.tells(f"status: {address} is no address", "status", file=file,
                    error="not a line per node with two addresses")
    with mock.patch.dict("os.environ", http_proxy="http://127.0.0.1:1"):
        trial.see("status: no proxy is asked", trial.call("status")[0] == 0)


def try_replica(trial):
    replica = Replica(trial.program, trial.folder / "first" / "replica", "first",
                      ",".join(trial.nodes.readers))
    file = trial.folder / "replica.nodes"
    write_nodes(file, [*trial.nodes.each, replica])
    replica.start()
    trial.wait("status: a replica is well once it has all maps",
               lambda: trial.call("status", file=file)[0] == 0)
    trial.wait("status: its line", lambda: re.search(r"\nreplica +\S+ +3 +1 ok\n$",
                                                     trial.call("status", file=file)[1]))
    trial.tells("map: of the same farm", "map", 3, file=file, out=trial.call("map", 3)[1])
    replica.kill()
    trial.tells("status: a replica that was killed", "status", file=file, code=1, has="unreachable")


def try_failures(trial):
    first, _, third = trial.nodes.each
    third.kill()
    code, told, _ = trial.call("status")
    trial.see("status: a node that was killed", code == 1 and "unreachable" in told.splitlines()[3]
              and told.count(" ok\n") == 2, told)
    trial.tells("map: a sequence that isn't published, where the last host doesn't answer", "map", 99,
                error="sequence 99 isn't published")
    trial.tells("publish: two of three", "publish", trial.map("fourth"), out="published 4 at node 0\n")
    third.start()
    trial.wait("status: well again, once the node was started", lambda: trial.call("status")[0] == 0)
    first.kill()
    trial.tells("publish: at the next node where the first one is gone", "publish", trial.map("fifth"),
                out="published 5 at node 1\n")
    third.pause()
    trial.tells("publish: one of three: it isn't known what will become of it, since there is no majority",
                "publish", trial.map("sixth"), seconds=3,
                error=("it isn't known", "no majority (node 0 is unreachable ", "; node 2 is unreachable "))
    trial.wait("status: the one that is left hears no majority",
               lambda: trial.call("status")[1].splitlines()[2].endswith(" no majority"))
    trial.see("status: so the farm isn't well", trial.call("status")[0] == 1)
    trial.tells("publish: why the last node didn't", "publish", trial.map("sixth"), seconds=1,
                error="node 1 still proposes another map: no majority")
    third.go_on()
    trial.wait("the map is published once the majority is back", lambda: trial.all_at(6, 1, 2))
    first.start()
    trial.wait("once, and everywhere", lambda: trial.all_at(6))
    trial.nodes.end()
    read = json.loads(trial.call("status", "-o", "json")[1])
    trial.see("status: as JSON, what isn't known where no node answers",
              (read["well"], read["published"], read["left"]) == (False, None, None), read)
    trial.tells("publish: no node", "publish", trial.map("seventh"), seconds=2, error="not published")
    trial.nodes.start(*range(NODES))
    trial.wait("status: well again", lambda: trial.call("status")[0] == 0)


def try_suspended(trial):
    nodes, kept = trial.nodes, trial.folder / "kept"
    nodes.kill(2)
    shutil.copytree(nodes[2].folder, kept)
    nodes.start(2)
    trial.wait("a node is started again", lambda: trial.call("status")[0] == 0)
    nodes.kill(2)
    nodes.put(2, kept)
    nodes.start(2)
    trial.wait("status: it is suspended, and which peer remembers what", lambda: re.search(
        r" suspended: node \d at 127\.0\.0\.1:\d+ remembers \w+", trial.call("status")[1].splitlines()[3]))
    trial.see("status: so the farm isn't well", trial.call("status")[0] == 1)
    for each in nodes.each:
        each.kill()
        each.clear()
        each.start()
    trial.wait("status: once all are cleared it is well", lambda: trial.call("status")[0] == 0)


def try_full(trial):
    trial.nodes.restart_limitable(2)
    trial.wait("a node is started again", lambda: trial.all_at(6, 2))
    trial.nodes.limit(2, 100)
    trial.tells("publish: two of three", "publish", trial.map("eighth"), out="published 7 at node 0\n")
    trial.wait("status: the node whose tape can't grow is halted",
               lambda: trial.call("status")[1].splitlines()[3].endswith(" halted"))
    trial.nodes.limit(2, None)
    trial.wait("status: with more room it is well by itself", lambda: trial.call("status")[0] == 0)


def try_copy(trial):
    """From a node that runs, a stopped node's folder, a tape and an export, whole and in two goes."""
    source, part, export = trial.nodes[1], trial.folder / "part", trial.folder / "export"
    maps = [trial.call("map", sequence)[1] for sequence in range(1, source.published() + 1)]
    trial.tells("export: what came since", "export", export, out=f"exported {len(maps)} maps to {export}\n")
    shutil.copytree(export, part, ignore=shutil.ignore_patterns("history", "000[3-9].map", "00[1-9]?.map"))
    trial.nodes.kill(0, 2)
    copy_to(trial, "second", source.operator, maps)
    source.kill()
    copy_to(trial, "third", source.folder, maps)
    copy_to(trial, "fourth", source.folder / "node-1.tape", maps)
    copy_to(trial, "fifth", export, maps, first=part)
    trial.tells("copy: of nothing", "copy", trial.folder / "nothing", trial.file,
                error="neither a folder, nor a tape, nor an address")


def copy_to(trial, name, source, maps, first=None):
    nodes, file = trial.farm(name)
    nodes.start(*range(NODES))
    trial.wait(f"a new farm {name}", lambda: trial.call("status", file=file)[0] == 0)
    if first is not None:
        trial.tells("copy: the first maps", "copy", first, file, out="copied 2 maps\n")
    counted = trial.folder / f"{name}.calls"
    program = trial.folder / "counting"
    program.write_text(f'#!/bin/sh\necho "$1" >> {counted}\nexec {trial.program} "$@"\n')
    program.chmod(0o755)
    trial.tells("copy: all maps", "copy", source, file, program=program, out=f"copied {len(maps)} maps\n")
    trial.see("under their sequences",
              [trial.call("map", at, file=file)[1] for at in range(1, len(maps) + 1)] == maps)
    calls = counted.read_text().split().count("tape") if counted.exists() else 0
    trial.see("a tape is read twice at most", calls <= 2, calls)
    trial.tells("copy: one that is done", "copy", source, file, out=f"copied {len(maps)} maps\n")
    if first is not None:
        trial.tells("copy: never onto a farm that has other maps", "copy", first, file,
                    error="has published maps already")
    nodes.end()


def try_verify(trial):
    folders = [node.folder for node in trial.nodes.each]
    trial.tells("verify: whole tapes of one farm", "verify", *folders,
                out="".join(f"{node.tape}: whole, published 7\n" for node in trial.nodes.each))
    trial.tells("verify: folders of two farms", "verify", folders[0], trial.folder / "second" / "1",
                error="not folders of one farm")
    tape = trial.nodes[0].tape
    whole = tape.read_bytes()
    tape.write_bytes(whole[:-3])
    trial.tells("verify: a torn record at the end is what a crash leaves", "verify", folders[0])
    tape.write_bytes(b"\x63" + whole[1:])
    trial.tells("verify: a bad record", "verify", folders[0], error="not every tape is whole")
    tape.write_bytes(whole)
    trial.tells("verify: not a node's folder", "verify", trial.folder, error="farm")


def try_changed(trial):
    """Its node doesn't start, or with a file `farm` of version 1 answers nobody; the others go on."""
    node = trial.nodes[2]
    tape, farm = node.tape, node.folder / "farm"
    tape.write_bytes(tape.read_bytes().replace(b"another title", b"Another title"))
    trial.tells("verify: histories that differ", "verify", *(each.folder for each in trial.nodes.each),
                error=f"the histories of {trial.nodes[0].tape} and {tape} differ from sequence 2 on")
    trial.nodes.start(0, 1)
    trial.wait("two of three nodes", lambda: trial.all_at(7, 0, 1))
    node.start()
    trial.wait("a node whose tape was changed doesn't start", lambda: node.ended() == 1)
    trial.see("its last line", node.last_line() == "bad folder: the tape has another history up to 7",
              node.last_line())
    farm.write_text(re.sub("(?m)^known .*\n", "", farm.read_text()).replace("wfarm folder 2",
                                                                            "wfarm folder 1"))
    node.start()
    trial.wait("status: whose history differs from its own, at which address and sequence", lambda: re.search(
        r" history differs.* node [01]\b.*127\.0\.0\.1:\d+.* sequence 7\b",
        trial.call("status")[1].splitlines()[3]))
    code, told, _ = trial.call("status")
    trial.see("status: the others are well", code == 1 and told.count(" ok\n") == 2, told)
    trial.tells("publish: by the others", "publish", trial.map("ninth"), out="published 8 at node 0\n")
    trial.tells("publish: the published map again, if it is asked for", "publish",
                trial.folder / "ninth.map", "--again", out="published 9 at node 0\n")
    trial.see("and nobody has ended", [each.ended() for each in trial.nodes.each] == [None] * 3)


def try_words(trial):
    trial.see("a bad command line",
              trial.call("map", "x")[0] == trial.call("lend")[0] == trial.call()[0] == 2)
    trial.tells("no file of nodes", "status", file=trial.folder / "nowhere", error="No such file")
    (trial.folder / "short").write_text("127.0.0.1:1\n")
    trial.tells("a line with one address", "status", file=trial.folder / "short", error="not a line per node")
    words = ctl_words(trial.program, trial.file, "history")
    ended = subprocess.run(f"{shlex.join(words)} | true; echo ${{PIPESTATUS[0]}}", shell=True,
                           executable="/bin/bash", capture_output=True, text=True)
    trial.see("where nobody reads what it writes it ends in silence",
              ended.stdout in ("0\n", "1\n") and ended.stderr == "", ended)


TRIALS = (try_well, try_strangers, try_replica, try_failures, try_suspended, try_full, try_copy, try_verify,
          try_changed, try_words)


def main():
    words = program_parser(__doc__)
    add_slack(words)
    options = words.parse_args()
    with tempfile.TemporaryDirectory(prefix="wfarmctl-") as folder:
        seen = Trial(options, pathlib.Path(folder))
        try:
            for attempt in TRIALS:
                attempt(seen)
        finally:
            seen.nodes.end()
    return seen.conclude()


if __name__ == "__main__":
    sys.exit(main())
