#!/usr/bin/env python3
"""Makes each allocation of the built programs of cases fail in turn.

    python3 tools/fail_allocations.py                           those of CRATES below
    python3 tools/fail_allocations.py wf_test_map               this alone
    python3 tools/fail_allocations.py wf_test_map --case 503    the cases whose names hold this text

Run it after `rt ci`, or after `rt run < stdin` in each program of cases. Wants cc, and a C library that is
linked dynamically.

A program gets each case of its `stdin`, and each line `for` of one, as a table of its own. At each allocation
it forks: in the child the allocation fails, and the child goes on to its end. What the child prints has to be
one of these:

    ended         nothing, with status 1: the allocation failure was returned, and so the run ended
    unread        an error of the table, where the allocation is one by which the table is read
    as always     each answer is the expected one: something was lost that may be, such as a picture to be
                  kept
    503           a request is answered with 503 and no message, and each later one as if that request had
                  never come
    cut           a prefix of a response is written, since the writer failed; the messages and all later
                  responses are the expected ones
    named         the answer is the expected one but for the allocation failure, which it counts or names, or
                  where it ends
    again         the answer is another one, but the expected one where the case is asked again

Of wf_test_commands those about files, connections, clocks and limits are tried, the questions of
wf_test_failures. A fork would share those: so such a case runs once for each of its allocations, each time in
an empty folder, and is asked again in the same process. Its question makes its files anew: what is seen is
that a failure neither ends the process nor leaves it unable to answer.

Cases with more allocations than --most, or of wf_test_commands than 500, are tried at the first half of that
number, and then at evenly spaced ones. The status is 1 where anything else was printed.
"""

import collections
import os
import pathlib
import re
import subprocess
import sys
import tempfile
from concurrent.futures import ThreadPoolExecutor
from functools import cache
from itertools import chain

from farmkit.command import parser as parser_of
from farmkit.repository import TOP

CRATES = ["wf_test_map", "wf_test_commands"]
# the questions of which cases run once for each allocation; of wf_test_commands no others are tried
REPEATED = re.compile(r'"(\w+)" =>').findall(
    (TOP / "crates/wf_test_failures/src/questions.rt").read_text())
# how many runs such a case has at most, and what begins it for the second time
MOST_RUNS = 500
AGAIN = "case asked again"
EDGE = ("hear", "serve", "refuse", "serve_alone", "serve_published", "serve_cached")
# their input begins with a mapfile
PUBLISHED = ("serve_published", "serve_cached")
UNAVAILABLE = (
    b"sent 503, 104 bytes\nHTTP/1.1 503 Service Unavailable\r\nContent-Type: text/plain\r\nContent-Length: "
    b"4\r\nConnection: close\r\n\r\n503\n")
OUTCOME = re.compile(rb"^(?:(?:sent|cut) \d+, \d+ bytes|read failed|no request|heard [^\n]*)\n", re.MULTILINE)
# messages behind a response: a line each, and behind it the canonical text of its map, if it has one
MESSAGES = rb"(?:send [^\n]*\n(?:MAP\n.*?\nEND\n(?=send |\Z))?)*"
DIFFERENCE = re.compile(rb"line \d+: [^\n]*\n  expected: ([^\n]*)\n  given:    ([^\n]*)\n")
ONE_DIFFERS = re.compile(rb"(?:^|\n)\d+ cases, 1 differ, 0 faults of the table\n$")
UNREAD = re.compile(rb"(?:line \d+: [^\n]*\n)+0 cases, 0 differ, \d+ faults of the table\n")
ESCAPE = re.compile(rb"\\(?:x([0-9A-Fa-f]{2})|(.))")
MEANT = {b"n": b"\n", b"r": b"\r", b"t": b"\t", b"s": b" ", b"\\": b"\\"}


def unescaped(text):
    return ESCAPE.sub(lambda it: bytes.fromhex(it[1].decode()) if it[1] else MEANT[it[2]], text)


def tried_of(count, most):
    """The first allocations that are tried, and at which multiples the later ones are."""
    return (count, 1) if count <= most else (most // 2, -(-2 * count // most))


class Table:
    """The cases of a table, each with the named texts that it needs."""

    def __init__(self, path):
        self.texts, self.cases = {}, []
        lines = []
        for line in path.read_text().splitlines():
            word, _, name = line.partition(" ")
            if word in ("text", "case"):
                lines = [line]
                if word == "text":
                    self.texts[name] = lines
                else:
                    self.cases.append((name, lines))
            elif word == "for" and lines[-1].startswith("for "):
                # (each row is a case of its own)
                lines = [*lines[:-1], line]
                self.cases.append((self.cases[-1][0], lines))
            elif lines and line and not line.startswith("#"):
                lines.append(line)

    def needed(self, lines):
        """The texts that these lines name, by their names, each behind those that it names in turn."""
        found = {}
        for line in lines:
            if line[:3] in ("<& ", ">& "):
                found |= self.needed(self.texts[line[3:]]) | {line[3:]: self.texts[line[3:]]}
        return found

    def alone(self, lines):
        return "\n".join([*chain(*self.needed(lines).values()), *lines, ""]).encode()

    def input_of(self, lines):
        """The bytes of a case's input, or of a named text."""
        data = b""
        for line in lines:
            if line == "<" or line.startswith("< "):
                data += unescaped(line[2:].encode()) + b"\n"
            elif line.startswith("<. "):
                data += unescaped(line[3:].encode())
            elif line.startswith("<* "):
                count, _, text = line[3:].partition(" ")
                data += unescaped(text.encode()) * int(count)
            elif line.startswith("<& "):
                data += self.input_of(self.texts[line[3:]])
            elif line.startswith("for "):
                data += unescaped(line[4:].partition("=>")[0].strip().encode())
        return data


def lines_of_runs(answer):
    """The lines that an answer counts, as `3 times: LINE`, one by one."""
    runs = re.findall(rb"(\d+) times: (.*?)(?=\d+ times: |\Z)", answer, re.DOTALL)
    return [line for times, line in runs for _ in range(int(times))]


def blocks_of(answer):
    """What an answer of the edge tells of each request: the outcome, what was written, the messages."""
    starts = [it.start() for it in OUTCOME.finditer(answer)]
    return [answer[start:end] for start, end in zip(starts, [*starts[1:], len(answer)])]


def is_part(block, whole):
    """Whether a block is this one, but for a response of which a prefix is written."""
    whole = re.fullmatch(rb"(?:sent|cut) (\d+), \d+ bytes\n(.*?)(%s)" % MESSAGES, whole, re.DOTALL)
    cut = re.match(rb"cut (\d+), (\d+) bytes\n", block)
    if not whole or not cut or cut[1] != whole[1]:
        return False
    part = whole[2][:int(cut[2])]
    end = b"" if not part or part.endswith(b"\n") else b"\n"
    return block == cut[0] + part + end + whole[3]


def verdict(status, output, usual, is_reading, of_report):
    """What a run is, by its status and output, and whether the allocation may be the table's."""
    if status == 1 and not output:
        return "ended"
    if status == 1 and is_reading and UNREAD.fullmatch(output):
        return "unread"
    if status == 1:
        return of_report(output)
    return "as always" if (status, output) == (0, usual) else "wrong"


class Case:
    def __init__(self, program, table, name, lines):
        self.program, self.table, self.name, self.lines = program, table, name, lines
        self.ask = next((line for line in lines if line.startswith("ask ")), "ask ")
        self.question = self.ask.split()[1]

    def run(self, lines, **environment):
        """A run on these lines, in an empty folder."""
        with tempfile.TemporaryDirectory() as folder:
            return subprocess.run([self.program], input=self.table.alone(lines), cwd=folder,
                                  env={**os.environ, **environment}, capture_output=True)

    @cache
    def blocks_without(self, index):
        """What the edge tells where the request of this index never comes."""
        if self.question == "serve_cached":
            return blocks_of(unescaped(DIFFERENCE.search(self.run([*self.lines[:3], ">. x"]).stdout)[2]))[:1]
        pieces = self.table.input_of(self.lines).split(b"\0")
        first = 1 if self.question in PUBLISHED else 0
        left = pieces[:first + index] + pieces[first + index + 1:]
        if len(left) <= first:
            return []
        spelled = "".join(f"\\x{it:02x}" for it in b"\0".join(left))
        ran = self.run(["case without it", self.ask, f"<. {spelled}", ">. x"])
        return blocks_of(unescaped(DIFFERENCE.search(ran.stdout)[2]))

    def is_unavailable(self, index, expected, given):
        """Whether the answer is as if this request hadn't come, but for its 503."""
        block = UNAVAILABLE + (b"" if self.question == "hear" else b"send nothing\n")
        has_room = expected[index].startswith(b"sent")
        if given[index] != block and (has_room or not is_part(given[index], block)):
            return False
        return given[:index] + given[index + 1:] == self.blocks_without(index)

    def verdict_of_edge(self, expected, given):
        # (how often it was written depends on where the response ends)
        expected, given = (blocks_of(re.sub(rb"^\d+ writes\n", b"", it, flags=re.MULTILINE))
                           for it in (expected, given))
        if len(expected) != len(given):
            return "wrong"
        index = next((it for it in range(len(given)) if given[it] != expected[it]), None)
        if index is None:
            return "as always"
        if self.is_unavailable(index, expected, given):
            return "503"
        others = [it[:index] + it[index + 1:] for it in (expected, given)]
        is_cut = others[0] == others[1] and is_part(given[index], expected[index])
        return "cut" if is_cut else "wrong"

    def is_named(self, expected, given):
        """Whether an answer is the expected one but for the failure, which it counts or names, or ends at."""
        if self.question == "beginnings":
            read, refused, _ = map(int, re.findall(rb"\d+", expected))
            return given in [b"%d read, %d refused, 1 for memory\n" % it
                             for it in ((read - 1, refused), (read, refused - 1))]
        if self.question in ("each_byte", "gaps"):
            expected, given = lines_of_runs(expected), lines_of_runs(given)
            others = [pair for pair in zip(expected, given) if pair[0] != pair[1]]
            return len(expected) == len(given) and len(others) == 1 and others[0][0].startswith(others[0][1])
        if self.question == "canonical":
            # (the other reader reads what the quick one leaves)
            return given == expected + b"the quick reader leaves it\n"
        told = given.removesuffix(b"memory ran out\n")
        return self.question == "table" and told != given and expected.startswith(told)

    def verdict_of_report(self, output):
        """What a run is that reports another answer than the expected one."""
        differences = DIFFERENCE.findall(output)
        if len(differences) != 1 or not ONE_DIFFERS.search(output):
            return "wrong"
        answers = map(unescaped, differences[0])
        if self.question in EDGE:
            return self.verdict_of_edge(*answers)
        return "named" if self.is_named(*answers) else "wrong"

    def verdict_of_asked_again(self, output):
        """Likewise where the case is asked twice: the second answer has to be the expected one."""
        again = len(self.table.alone(self.lines).splitlines()) + 1
        told = [int(it) for it in re.findall(rb"^line (\d+): ", output, re.MULTILINE)]
        return "again" if told and max(told) < again else "wrong"

    def try_repeated(self, library, tried, reading):
        """Runs the case for each of these allocations."""
        for number in tried:
            ran = self.run([*self.lines, AGAIN, *self.lines[1:]], LD_PRELOAD=library,
                           FAIL_ALLOCATION=str(number))
            what = verdict(ran.returncode, ran.stdout, ran.stdout, number <= reading,
                           self.verdict_of_asked_again)
            yield number, what, b"status %d " % ran.returncode + ran.stdout[-2000:]

    def try_forked(self, library, first, every, reading, usual):
        """Runs the case once, with a child for each allocation that is tried."""
        with tempfile.NamedTemporaryFile() as results:
            ran = self.run(self.lines, LD_PRELOAD=library, FORK_ALLOCATIONS=results.name,
                           FORK_FIRST=str(first), FORK_EVERY=str(every))
            if ran.stdout != usual or ran.returncode:
                yield 0, "wrong", ran.stdout + ran.stderr
            what, output = "", b""
            for line in results:
                number, status, length = map(int, line.split())
                # -1: as the one before
                if length >= 0 or what == "unread":
                    output = results.read(length) if length >= 0 else output
                    what = verdict(os.waitstatus_to_exitcode(status), output, usual, number <= reading,
                                   self.verdict_of_report)
                yield number, what, b"status %d " % status + output[-2000:]

    def try_each(self, library, most):
        """How many allocations there are, how often each verdict came, and what was wrong."""
        def counted(lines):
            ran = self.run(lines, LD_PRELOAD=library, COUNT_ALLOCATIONS="1")
            return int(ran.stderr.split()[-1]), ran

        count, ran = counted(self.lines)
        reading, _ = counted([line if line != self.ask else "ask nothing" for line in self.lines])
        if ran.returncode:
            tried = [(0, "wrong", ran.stdout)]
        elif self.question in REPEATED:
            # the report comes after the second one then; so a few of the case's last aren't tried either
            count -= counted([])[0]
            first, every = tried_of(count, min(most, MOST_RUNS))
            numbers = [it for it in range(1, count + 1) if it <= first or it % every == 0]
            tried = self.try_repeated(library, numbers, reading)
        else:
            tried = self.try_forked(library, *tried_of(count, most), reading, ran.stdout)
        found, wrong = collections.Counter(), []
        for number, what, output in tried:
            found[what] += 1
            if what == "wrong":
                wrong.append((number, output))
        return count, found, wrong


def try_cases(crate, library, options):
    """Tries each case of a program; whether nothing was wrong."""
    table = Table(crate / "stdin")
    program = crate / "out" / crate.name
    cases = [Case(program, table, *it) for it in table.cases if options.case in it[0]]
    if crate.name == "wf_test_commands":
        cases = [it for it in cases if it.question in REPEATED]
    allocations, found, partly = 0, collections.Counter(), 0
    with ThreadPoolExecutor(options.jobs) as pool:
        tried = pool.map(lambda case: case.try_each(library, options.most), cases)
        for case, (count, verdicts, wrong) in zip(cases, tried):
            allocations += count
            found += verdicts
            partly += verdicts.total() < count
            if options.each:
                print(f"  {case.name}: {count} allocations, {dict(verdicts)}", flush=True)
            for number, output in wrong[:3]:
                print(f"  {case.name}: allocation {number}: {output[:2000]!r}", flush=True)
    told = ", ".join(f"{found[it]} {it}"
                     for it in ("ended", "unread", "as always", "503", "cut", "named", "again", "wrong"))
    print(f"{crate.name}: {len(cases)} cases, {allocations} allocations ({partly} cases tried in part), "
          f"{found.total()} failures: {told}", flush=True)
    return not found["wrong"]


def main():
    parser = parser_of(__doc__)
    parser.add_argument("crates", nargs="*", default=CRATES)
    parser.add_argument("--case", default="", help="only cases whose name holds this text")
    parser.add_argument("--each", action="store_true", help="a line for each case")
    parser.add_argument("--jobs", type=int, default=os.cpu_count(), help="how many run side by side")
    parser.add_argument("--most", type=int, default=10_000,
                        help="how many failures of one case are tried at most")
    options = parser.parse_args()
    with tempfile.TemporaryDirectory() as folder:
        library = f"{folder}/fail_allocation.so"
        source = pathlib.Path(__file__).with_name("fail_allocation.c")
        subprocess.run(["cc", "-O2", "-shared", "-fPIC", "-o", library, source, "-ldl"], check=True)
        right = [try_cases(TOP / "crates" / pathlib.Path(name).name, library, options)
                 for name in options.crates]
    return 0 if all(right) else 1


if __name__ == "__main__":
    sys.exit(main())
