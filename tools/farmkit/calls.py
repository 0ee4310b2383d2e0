"""The system calls of a program by which it changes files and sends bytes, as strace tells them, and what
they make of one folder."""

import os
import pathlib
import re
from collections import Counter
from collections.abc import Iterator, Sequence

from farmkit.folder import File, Folder, contents
from farmkit.wanted import is_so_within

# those that are followed, and those that would change a file in a way that nothing here follows
FOLLOWED = ("open openat creat close lseek write fsync fdatasync rename renameat renameat2 unlink unlinkat "
            "sendto sendmsg").split()
OTHERS = ("pwrite64 writev pwritev pwritev2 truncate ftruncate fallocate link linkat symlink symlinkat mkdir "
          "mkdirat rmdir sync syncfs sync_file_range sendfile splice copy_file_range io_uring_setup "
          "io_submit dup dup2 dup3 chdir fchdir").split()
# those that may be the last of a program, done or not
FINISHED = "write rename renameat renameat2 open openat unlink".split()
MOST_BYTES = 1 << 24
LINE = re.compile(r"(\d+) +(\w+)\((.*)\) += (-?\d+|\?)(?: .*)?")
UNFINISHED = re.compile(r"(\d+) +(\w+)\((.*?),? *<unfinished \.\.\.>")
END = re.compile(r"^\d+ +\+\+\+ (?:killed by|exited with) \w+ \+\+\+\n?\Z", re.MULTILINE)
TEXT = re.compile(r'"((?:\\x[0-9a-f]{2})*)"(\.\.\.)?')


class Unfollowed(Exception):
    """The trace doesn't say what became of the folder."""


def texts(words: str) -> list[bytes]:
    found = TEXT.findall(words)
    if any(cut for _, cut in found):
        raise Unfollowed(f"a text of over {MOST_BYTES} bytes")
    return [bytes.fromhex(spelled.replace("\\x", "")) for spelled, _ in found]


class Call:
    """A call: its name, what its arguments are, and its result; None where the program ended in it."""

    def __init__(self, name: str, words: str, result: int | None) -> None:
        self.name, self.words, self.result = name, words, result
        self.texts = texts(words)

    def handle(self) -> int:
        return int(self.words.split(",", 1)[0])


def traced(words: Sequence[str], trace: str | pathlib.Path, cut: tuple[str, int] | None = None) -> list[str]:
    """The command line that traces a program; `cut` is a call, and at which of them it is killed."""
    more = [] if cut is None else ["-e", f"inject={cut[0]}:signal=SIGKILL:when={cut[1]}"]
    # -D: the program is our own child, and strace a child of it
    return ["strace", "-D", "-f", "-q", "-xx", "-s", str(MOST_BYTES), "-e",
            "trace=" + ",".join("?" + name for name in FOLLOWED + OTHERS), *more, "-o", str(trace), *words]


def calls(trace: str | pathlib.Path, seconds: float = 10) -> Iterator[Call]:
    """The calls of a trace, once the program has ended."""
    file = pathlib.Path(trace)
    if not is_so_within(lambda: END.search(file.read_text()), seconds, 0.005):
        raise Unfollowed("the trace doesn't end")
    for line in file.read_text().splitlines()[:-1]:
        if found := LINE.fullmatch(line):
            yield Call(found[2], found[3], None if found[4] == "?" else int(found[4]))
        elif found := UNFINISHED.fullmatch(line):
            yield Call(found[2], found[3], None)
        elif "+++" not in line and "---" not in line and "???()" not in line:
            # (a call that a process didn't begin any more has no name)
            raise Unfollowed(f"a line of the trace: {line[:200]}")


class Watcher:
    """Is told of each call that changes the folder or sends bytes, before it is done."""

    def opened(self, name: str, file: File | None) -> None:
        """A file is opened by its name."""

    def written(self, name: str, file: File) -> None:
        """Bytes are written to a file, or it is truncated."""

    def synced(self, name: str, file: File | None) -> None:
        """A file is synced; None is the folder."""

    def renamed(self, old: str, new: str, file: File) -> None:
        """A file is renamed."""

    def sent(self, data: bytes) -> None:
        """Bytes are sent to a client or written to the standard output."""


class Handle:
    """What a program has open: a file of the folder or (None) the folder, and where it writes next."""

    def __init__(self, name: str, file: File | None) -> None:
        self.name, self.file, self.at = name, file, 0


class Follower:
    """Does the calls of one run of a program to a folder, but for the syncs of one kind, `without`: "own" are
    those of files that were found or have got their name, "second" those of others, "folder" that of the
    folder behind a rename."""

    def __init__(self, path: str, folder: Folder, watcher: Watcher, without: str | None = None) -> None:
        self.path, self.folder, self.watcher, self.without = os.fspath(path), folder, watcher, without
        self.handles: dict[int, Handle] = {}
        self.doubtful: Call | None = None
        self.last = ""

    def name_of(self, path: bytes) -> str | None:
        """The name in the folder that a path leads to; "" is the folder; None a path that leads elsewhere."""
        plain = os.path.normpath(os.fsdecode(path))
        if plain == self.path:
            return ""
        above, name = os.path.split(plain)
        return name if above == self.path else None

    def follow(self, call: Call) -> None:
        # what failed changed nothing; whether the call was done that the program ended in, the folder says
        if call.result is not None and call.result < 0:
            return
        if call.name in OTHERS:
            self.refuse(call)
        elif call.result is None:
            self.doubtful = call
        else:
            self.act(call)

    def refuse(self, call: Call) -> None:
        """A call that isn't followed, where it isn't of the folder."""
        handle = call.words.split(",", 1)[0]
        is_open = handle.isdigit() and int(handle) in self.handles
        if is_open or any(self.name_of(path) is not None for path in call.texts):
            raise Unfollowed(f"a call of {call.name}")

    def act(self, call: Call) -> None:
        if call.name in ("open", "openat", "creat"):
            self.open(call)
        elif call.name == "close":
            self.handles.pop(call.handle(), None)
        elif call.name == "lseek" and call.handle() in self.handles:
            self.handles[call.handle()].at = call.result or 0
        elif call.name == "write":
            self.write(call)
        elif call.name in ("fsync", "fdatasync"):
            self.sync(call)
        elif call.name in ("rename", "renameat", "renameat2"):
            self.rename(call)
        elif call.name in ("unlink", "unlinkat") and (name := self.name_of(call.texts[0])) is not None:
            self.folder.remove(name)
        elif call.name in ("sendto", "sendmsg"):
            self.watcher.sent(b"".join(call.texts)[:call.result])

    def open(self, call: Call) -> None:
        name, file = self.name_of(call.texts[0]), None
        if name is None or call.result is None:
            return
        if name:
            if "O_APPEND" in call.words:
                raise Unfollowed("a file that is opened to append")
            self.last = "open"
            file = self.folder.names.get(name)
            self.watcher.opened(name, file)
            if file is None:
                file = self.folder.create(name)
            elif "O_TRUNC" in call.words or call.name == "creat":
                self.watcher.written(name, file)
                file.truncate()
        self.handles[call.result] = Handle(name, file)

    def write(self, call: Call) -> None:
        data, handle = call.texts[0][:call.result], self.handles.get(call.handle())
        if handle is None and call.handle() == 1:
            self.watcher.sent(data)
        elif handle is not None and handle.file is not None:
            self.watcher.written(handle.name, handle.file)
            handle.file.write(handle.at, data)
            handle.at += len(data)

    def sync(self, call: Call) -> None:
        handle = self.handles.get(call.handle())
        if handle is None:
            return
        if self.kind_of_sync(handle.name) != self.without:
            self.watcher.synced(handle.name, handle.file)
            (handle.file or self.folder).sync()
        self.last = "sync"

    def kind_of_sync(self, name: str) -> str:
        if name == "":
            return "folder" if self.last == "rename" else "names"
        return "second" if name.endswith(".new") else "own"

    def rename(self, call: Call) -> None:
        old, new = map(self.name_of, call.texts[:2])
        if (old is None) != (new is None):
            raise Unfollowed("a file that is renamed into another folder")
        if old is not None and new is not None:
            self.watcher.renamed(old, new, self.folder.names[old])
            for handle in self.handles.values():
                if handle.file is self.folder.names[old]:
                    handle.name = new
            self.folder.rename(old, new)
            self.last = "rename"

    def end(self) -> None:
        """Compares the model with the folder; the call that the program ended in was done, or it wasn't."""
        real, last = contents(self.path), self.doubtful
        if self.folder.contents() != real and last is not None and last.name in FINISHED:
            last.result = len(last.texts[0]) if last.name == "write" else 1 << 20
            self.act(last)
        ours = self.folder.contents()
        if differ := sorted(name for name in {*real, *ours} if real.get(name) != ours.get(name)):
            raise Unfollowed(f"the calls don't lead to what is in the folder: {differ}")


def follow(trace: str | pathlib.Path, path: str, folder: Folder, watcher: Watcher,
           without: str | None = None) -> Counter[str]:
    """Does the calls of a trace to a folder, whose files are at the path. How many of each name."""
    follower, counts = Follower(path, folder, watcher, without), Counter[str]()
    for call in calls(trace):
        follower.follow(call)
        counts[call.name] += 1
    follower.end()
    return counts
