"""Tests of farmkit where no program is needed."""

import contextlib
import io
import os
import pathlib
import random
import socket
import tempfile
import unittest
import unittest.mock

from farmkit import (calls, command, documents, figures, kit, measure, processes, repository, tapes, wanted,
                     web)
from farmkit.folder import Folder, drawn, extremes
from farmkit.ledger import Ledger
from farmkit.mapfiles import map_of, picture_of
from farmkit.mutation import Maps, Queries


def answered(*pieces: bytes) -> web.Answer:
    ours, theirs = socket.socketpair()
    with theirs:
        for piece in pieces:
            theirs.sendall(piece)
    return web.read_answer(ours)


class Http(unittest.TestCase):
    def setUp(self) -> None:
        try:
            socket.create_server(("127.0.0.1", 0)).close()
        except OSError as error:
            self.skipTest(f"no sockets here: {error}")

    def test_an_answer_ends_with_its_length_or_with_the_connection(self) -> None:
        head = b"HTTP/1.1 202 Accepted\r\nContent-Length: 3\r\n\r\n"
        self.assertEqual(answered(head + b"yes"), (202, b"yes"))
        self.assertEqual(answered(b"HTTP/1.0 200 OK\r\n\r\nall ", b"of it"), (200, b"all of it"))

    def test_half_an_answer_is_none(self) -> None:
        for came in (b"", b"HTTP/1.1 200 OK\r\n", b"HTTP/1.1 200 OK\r\ncontent-length: 4\r\n\r\nyes"):
            with self.assertRaises(web.Unanswered):
                answered(came)

    def test_nothing_listens(self) -> None:
        with socket.socket() as bound:
            bound.bind(("127.0.0.1", 0))
            address = web.loopback(bound.getsockname()[1])
            self.assertEqual(web.ask(address, "/status", seconds=1).status, 0)

    def test_a_request_has_a_body_where_it_is_a_post(self) -> None:
        self.assertTrue(web.request("/x").startswith(b"GET /x HTTP/1.1\r\nHost: 127.0.0.1\r\n"))
        self.assertTrue(web.request("/x", b"ab").endswith(b"\r\nContent-Length: 2\r\n\r\nab"))

    def test_a_port_is_given_once(self) -> None:
        self.assertEqual(len({*processes.free_ports(40), *processes.free_ports(40)}), 80)

    def test_the_sequence_of_capabilities(self) -> None:
        self.assertEqual(web.sequence_of(b'<WMS version="1.3.0" updateSequence="41" x="2">'), 41)


class Tapes(unittest.TestCase):
    def test_records_are_read_as_they_are_written(self) -> None:
        tape = tapes.publications([b"one", b"two"])
        whole = [(tapes.PUBLISHED, b"\0\1one"), (tapes.PUBLISHED, b"\0\2two")]
        self.assertEqual(tapes.records(tape), (whole, False))
        for cut in range(1, 11):
            self.assertEqual(tapes.records(tape[:-cut]), (whole[:1], True))


class Compared(unittest.TestCase):
    def test_what_changes_or_goes_back_is_a_violation(self) -> None:
        told: list[str] = []
        ledger = Ledger(told.append, {picture_of(7)})
        ledger.picture(1, web.Answer(200, picture_of(7)))
        ledger.published("node 0", 3)
        ledger.published("node 1", 2)
        ledger.same("the map at", 3, b"a")
        self.assertEqual(ledger.violations, [])
        ledger.picture(2, web.Answer(200, picture_of(8)))
        ledger.picture(3, web.Answer(500, picture_of(7)))
        ledger.published("node 0", 2)
        ledger.same("the map at", 3, b"b")
        self.assertEqual((len(ledger.violations), ledger.most["node 0"], told), (4, 3, ledger.violations))

    def test_a_map_is_about_as_long_as_wanted(self) -> None:
        self.assertLess(abs(len(map_of(1, 29_000)) - 29_000), 1_500)


class Cuts(unittest.TestCase):
    def test_what_a_power_cut_leaves(self) -> None:
        folder = Folder({"a": b"old"})
        folder.create("a.new").write(0, b"new")
        folder.rename("a.new", "a")
        left = [tuple(sorted(it.items())) for it in extremes(folder)]
        self.assertEqual(left, [(("a", b"old"),)] * 2 + [(("a", b""),), (("a", b"new"),)])
        folder.names["a"].sync()
        folder.sync()
        draw = random.Random(1)
        self.assertTrue(all(drawn(folder, draw) == {"a": b"new"} for _ in range(20)))

    def test_a_trace_is_followed(self) -> None:
        above = pathlib.Path(self.enterContext(tempfile.TemporaryDirectory()))
        path, trace, folder = above / "state", above / "trace", Folder({})
        path.mkdir()
        (path / "tape").write_bytes(b"ab")
        spelled = "".join(f"\\x{byte:02x}" for byte in str(path / "tape").encode())
        trace.write_text(f'7 openat(AT_FDCWD, "{spelled}", O_RDWR|O_CREAT, 0666) = 3\n'
                         '7 write(3, "\\x61\\x62", 2) = 2\n7 fsync(3) = 0\n'
                         '7 sendmsg(5, {msg_iov=[{iov_base="\\x61\\x62", iov_len=2}, '
                         '{iov_base="\\x63", iov_len=1}]}, 0) = 2\n7 +++ exited with 0 +++\n')
        watcher = unittest.mock.create_autospec(calls.Watcher, instance=True)
        self.assertEqual(calls.follow(trace, str(path), folder, watcher).total(), 4)
        watcher.sent.assert_called_once_with(b"ab")
        self.assertEqual(folder.names["tape"].left(0), b"ab")


class Documents(unittest.TestCase):
    def setUp(self) -> None:
        self.top = pathlib.Path(self.enterContext(tempfile.TemporaryDirectory()))

    def document(self, name: str, text: str) -> documents.Document:
        (self.top / name).write_text(text, encoding="utf-8")
        return documents.Document(self.top / name)

    def test_links_and_sections(self) -> None:
        self.document("other.md", "# Other\n\n## What `it` does: more\n")
        text = ('[a](other.md#what-it-does-more), [b](other.md#no), [c](none.md), [d](https://x.y/z#q), '
                '([e](other.md), "Other")')
        one = self.document("one.md", text + '\n[f](other.md), "What it does" and [g](other.md), "None"\n')
        self.assertEqual(list(documents.lost_links(one)),
                         ["other.md#no: no such heading", "none.md isn't there"])
        self.assertEqual(list(documents.lost_sections(one)), ['other.md has no section "None"'])

    def test_sections_of_the_document_itself(self) -> None:
        one = self.document("one.md", '# Look\n\n("Look"), see "Replace", "Up" of [it](one.md)\n')
        self.assertEqual(list(documents.lost_sections(one)),
                         ['one.md has no section "Up"', 'one.md has no section "Replace"'])

    def test_what_a_text_names(self) -> None:
        text = self.top / "it.py"
        text.write_text('# docs/LIMITS.md, "Limits", docs/LIMITS.md,\n# "No such thing", docs/NONE.md\n')
        self.assertEqual(list(documents.lost_in_text(text)),
                         ['docs/LIMITS.md has no section "No such thing"', "docs/NONE.md isn't there"])

    def test_files_in_code_marks(self) -> None:
        one = self.document("one.md", "`tools/x.py`, `x.py --all`, `specs/BLOCK.antt`, `three/`, "
                            "`/etc/x.conf`\n```\n`y.py`\n```\n")
        self.assertEqual(list(one.files()), ["tools/x.py", "three/"])
        self.assertEqual(documents.ends_of(iter(["a/b/c.py"])), {"a/b/c.py", "b/c.py", "c.py"})

    def test_paths_in_commands(self) -> None:
        one = self.document("one.md", "`python3 tools/x.py --all`, `/usr/share/wfarm/examples/y.map`\n```sh\n"
                            "cp examples/z.conf /etc; crates/wfarm/out/wfarm\n```\n")
        self.assertEqual(list(one.paths_in_commands()), ["examples/z.conf", "tools/x.py"])

    def test_rows_of_one_run_are_equal(self) -> None:
        tables = ["| | ours | theirs |\n|---|---|---|\n| tile | 1 | 2 |\n",
                  "| Times | ours | theirs |\n|---|---|---|\n| tile | 1 | 3 |\n"]
        every = [self.document(f"{number}.md", table) for number, table in enumerate(tables)]
        self.assertEqual(list(figures.differing_rows(every)), ["1.md: tile | 1 | 3; 0.md has tile | 1 | 2"])

    def test_names_with_a_version_are_equal(self) -> None:
        every = [self.document("0.md", "`rattle-kit-1a`"), self.document("1.md", "the kit rattle-kit-1b")]
        self.assertEqual(list(figures.differing_names(every)),
                         ["1.md: rattle-kit-1b; another document has rattle-kit-1a"])

    def test_limits_are_those_of_the_code(self) -> None:
        row = "| What | At most |\n|---|---|\n| nodes | 65, fixed |\n"
        self.assertIn("LIMITS.md, nodes: wf_ballot::NODES is 64",
                      list(figures.differing_limits(self.document("LIMITS.md", row))))


class Others(unittest.TestCase):
    def test_growth(self) -> None:
        self.assertEqual(measure.ratios([1, 2, 5]), [2, 2.5])
        self.assertTrue(measure.grows_well([1, 3, 9]))
        self.assertFalse(measure.grows_well([1, 2, 6.1]))
        self.assertEqual(measure.percentile(range(100), 0.99), 99)

    def test_waiting(self) -> None:
        self.assertIsNone(wanted.seconds_until(lambda: False, 0.02))
        self.assertTrue(wanted.is_so_within(lambda: True, 0))
        with self.assertRaises(wanted.Wrong):
            wanted.until(lambda: False, 0.02)

    def test_a_module_of_debian(self) -> None:
        self.assertIs(command.of_debian("socket"), socket)
        with contextlib.redirect_stderr(io.StringIO()) as told, self.assertRaises(SystemExit) as ended:
            command.of_debian("nowhere.at_all")
        self.assertEqual((ended.exception.code, told.getvalue()[:25]), (2, "missing: Python's nowhere"))

    def test_mutations_depend_on_the_draw_alone(self) -> None:
        for made in (Maps, Queries):
            one, other = (made(random.Random("1 canon 7")) for _ in range(2))
            self.assertEqual([one.next() for _ in range(50)], [other.next() for _ in range(50)])

    def test_crates(self) -> None:
        top = pathlib.Path(self.enterContext(tempfile.TemporaryDirectory()))
        (top / "crates.txt").write_text("# crates\na: std\nb: a  # a comment\nc staticlib: b std\n")
        self.assertEqual(repository.dependencies(top), {"a": ["std"], "b": ["a"], "c": ["b", "std"]})
        self.assertEqual(repository.below("c", top), {"a", "b", "c"})

    def test_a_kit_that_takes_names_and_one_that_does_not(self) -> None:
        usage = "echo usage: rt new FOLDER >&2; exit 2"
        stopped = "echo rt: rt ci runs at the top of the repository >&2; echo 0 passed, 1 failed; exit 2"
        folder = self.enterContext(tempfile.TemporaryDirectory())
        self.enterContext(unittest.mock.patch.dict(os.environ, PATH=f"{folder}:{os.environ['PATH']}"))
        program = pathlib.Path(folder) / "rt"
        for text, takes in ((usage, False), (stopped, True)):
            program.write_text(f"#!/bin/sh\n{text}\n")
            program.chmod(0o755)
            with self.subTest(text):
                self.assertIs(kit.ci_takes("wf_text"), takes)


if __name__ == "__main__":
    unittest.main()
