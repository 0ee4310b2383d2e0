"""Tests of the scripts as they are called: their help, the gate's count, and what wfarmctl has of its own."""

import contextlib
import hashlib
import io
import os
import pathlib
import re
import runpy
import subprocess
import sys
import types
import unittest
from concurrent.futures import ThreadPoolExecutor
from unittest import mock

import check_python
import ci
import definitions
import make_deb
import plant_bugs
from farmkit import tapes
from farmkit.processes import PUBLISHED
from farmkit.repository import TOP


def scripts() -> list[pathlib.Path]:
    """The scripts of tools/ and bench/, and the demo."""
    return [path for path in check_python.scripts() if path.parent in (TOP, TOP / "tools", TOP / "bench")]


class Help(unittest.TestCase):
    def test_each_script_says_what_it_is_for(self) -> None:
        def helped(path: pathlib.Path) -> "subprocess.CompletedProcess[str]":
            return subprocess.run([sys.executable, "-B", path, "--help"], capture_output=True, text=True)

        with ThreadPoolExecutor(os.cpu_count()) as pool:
            for path, ran in zip(scripts(), pool.map(helped, scripts())):
                # (what Debian packages, as git, GDAL or Selenium, need not be here)
                lacking = re.search(r"No module named '(\w+)'|^missing: |directory: '(git)'", ran.stderr)
                if lacking and not list((TOP / "tools").glob(f"{lacking[1]}*")):
                    continue
                with self.subTest(path):
                    self.assertEqual((ran.returncode, ran.stderr), (0, ""))
                    self.assertRegex(ran.stdout, r"(?m)^[A-Z].*[a-z]")

    def test_each_script_stands_in_a_page(self) -> None:
        pages = {"tools": TOP / "CONTRIBUTING.md", "bench": TOP / "bench" / "README.md"}
        for path in scripts():
            if path.parent.name in pages and path.suffix:
                with self.subTest(path):
                    self.assertIn(path.name, pages[path.parent.name].read_text(encoding="utf-8"))


class Planted(unittest.TestCase):
    def test_each_bug_applies(self) -> None:
        for path in sorted((TOP / "tools" / "planted").glob("*.diff")):
            with self.subTest(path.stem):
                ran = subprocess.run(["git", "apply", "--check", path], cwd=TOP, capture_output=True,
                                     text=True)
                self.assertEqual(ran.stderr, "")

    def test_what_a_play_returns_is_told(self) -> None:
        bug = min((TOP / "tools" / "planted").glob("*.diff")).stem
        for violations in ([], ["node 1 is suspended"]):
            played, told = mock.Mock(return_value=(violations, {})), io.StringIO()
            fakes = {"copy_crates": mock.DEFAULT, "compiled": mock.DEFAULT, "play": played}
            with (mock.patch.multiple(plant_bugs, **fakes), mock.patch("subprocess.run"),
                  contextlib.redirect_stdout(told)):
                self.assertEqual(plant_bugs.try_bugs([bug]), not violations)
            self.assertIn(violations[0] if violations else "NOT FOUND", told.getvalue())


class Gate(unittest.TestCase):
    def run_with(self, *programs: str) -> tuple[int, str]:
        """The status and the last line of the gate over programs that these texts are."""
        commands = [[sys.executable, "-c", text] for text in programs]
        code = f"import ci; ci.COMMANDS = {commands!r}; import sys; sys.argv[1:] = []; sys.exit(ci.main())"
        ran = subprocess.run([sys.executable, "-B", "-c", code], cwd=TOP / "tools", capture_output=True,
                             text=True)
        return ran.returncode, ran.stdout.splitlines()[-1]

    def test_the_last_line_is_over_both(self) -> None:
        well = "print('a line'); print('7 passed, 0 failed')"
        self.assertEqual(self.run_with(well, well), (0, "14 passed, 0 failed"))
        self.assertEqual(self.run_with(well, "print('5 passed, 2 failed'); exit(1)"),
                         (1, "12 passed, 2 failed"))

    def test_a_command_that_breaks_has_failed(self) -> None:
        well = "print('7 passed, 0 failed')"
        self.assertEqual(self.run_with(well, "exit(0)"), (1, "7 passed, 1 failed"))
        self.assertEqual(self.run_with(well, "print('5 passed, 0 failed'); exit(3)"),
                         (1, "12 passed, 1 failed"))

    def test_a_command_that_is_not_there_has_failed(self) -> None:
        with contextlib.redirect_stdout(io.StringIO()):
            self.assertEqual(ci.run(["/no/such/command"]), (0, 1))

    def test_ci_runs_what_the_readme_says(self) -> None:
        words = (TOP / ".ci" / "run").read_text().strip()
        self.assertTrue(os.access(TOP / words, os.X_OK))
        self.assertIn(f"`{words}`", (TOP / "README.md").read_text(encoding="utf-8"))

    def test_a_linter_that_is_not_there(self) -> None:
        self.assertEqual(check_python.why_not("no-such-linter", "1.0"), "no-such-linter is missing")
        self.assertRegex(check_python.why_not(sys.executable, "0.1"), "0.1 is wanted, and this is 3")


class Definitions(unittest.TestCase):
    def test_a_crate_in_the_index(self) -> None:
        crate, *files = definitions.section("wf_digest").splitlines()
        self.assertRegex(crate, r"^wf_digest: A running digest .*\.$")
        at = files.index("  crates/wf_digest/specs/Digest.antt: The running digest of a history.")
        self.assertIn("digest_at", files[at + 1].strip().split(", "))

    def test_lower_crates_come_first(self) -> None:
        found = definitions.in_order()
        self.assertLess(found.index("wf_text"), found.index("wf_def"))
        self.assertEqual(len(found), len(set(found)))


class Wfarmctl(unittest.TestCase):
    """It is shipped alone, and may not import farmkit: what both have is the same."""

    def setUp(self) -> None:
        self.tool = types.SimpleNamespace(**runpy.run_path(str(TOP / "tools" / "wfarmctl")))

    def test_it_stands_alone(self) -> None:
        self.assertNotIn("farmkit", (TOP / "tools" / "wfarmctl").read_text(encoding="utf-8"))

    def test_the_tools_of_the_package_stand_alone(self) -> None:
        for name in make_deb.MAP_TOOLS:
            path = TOP / "tools" / name
            for file in [path] if path.is_file() else path.glob("**/*.py"):
                self.assertNotIn("farmkit", file.read_text(encoding="utf-8"), str(file))

    def test_the_count_of_a_replacement(self) -> None:
        def count(own: int, *known: tuple[int, str]) -> int:
            joiner = types.SimpleNamespace(node=types.SimpleNamespace(number=1), count=own, mark="ours")
            return self.tool.next_count(joiner, [types.SimpleNamespace(known={1: each}) for each in known])

        self.assertEqual([count(0), count(0, (4, "other")), count(1), count(2, (1, "other"), (2, "ours"))],
                         [1, 5, 1, 2])
        # where each other node agreed to another folder first, and where an older one was agreed to
        self.assertEqual([count(1, (1, "ours"), (1, "other")), count(1, (2, "other"))], [2, 3])

    def test_the_digest_of_a_history(self) -> None:
        texts = [b"one", b"two", b"three"]
        digests = self.tool.digests_of(texts)
        self.assertEqual([bytes.fromhex(it) if isinstance(it, str) else it for it in digests],
                         [tapes.digest_of(texts[:count + 1]) for count in range(3)])
        self.assertEqual(tapes.digest_of(texts[:1]), hashlib.sha256(bytes(32) + b"one").digest())

    def test_the_line_of_status(self) -> None:
        for line in ("node 2 published 41 proposal running\n", "node 0 published 0 proposal none\n",
                     "node 1 published 4096 proposal published 4096\n", "replica published 7\n"):
            found = PUBLISHED.fullmatch(line.encode())
            assert found is not None
            theirs = self.tool.REPLICA.fullmatch(line) or self.tool.STATUS.fullmatch(line)
            self.assertIn(found[1].decode(), theirs.groups()[:2])


if __name__ == "__main__":
    unittest.main()
