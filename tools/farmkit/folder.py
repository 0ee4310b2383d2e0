"""A folder on a disk as a program sees it, and what a power cut may leave of it by the rules of POSIX.

What was written to a file and not synced is lost from some byte on: a beginning of it is left. A name that
was made, or a file that was renamed, may be back as it was before until the folder is synced, each by itself;
a sync of the file alone settles nothing of its names.
"""

import pathlib
import random
from collections.abc import Callable, Mapping


Files = dict[str, bytes]


def contents(path: str | pathlib.Path) -> Files:
    """The files of a real folder."""
    return {file.name: file.read_bytes() for file in pathlib.Path(path).iterdir()}


def put(path: str | pathlib.Path, files: Files) -> None:
    """Puts these files into a real folder, in place of its own."""
    for file in pathlib.Path(path).iterdir():
        file.unlink()
    for name, content in files.items():
        (pathlib.Path(path) / name).write_bytes(content)


class File:
    """A file's bytes, with and without a name."""

    def __init__(self, content: bytes = b"") -> None:
        self.content = bytearray(content)
        self.synced = bytes(content)
        self.changes: list[tuple[int, bytes | None]] = []

    def write(self, at: int, data: bytes) -> None:
        self.content[at:at + len(data)] = data
        self.changes.append((at, data))

    def truncate(self) -> None:
        if self.content:
            self.content.clear()
            self.changes.append((0, None))

    def sync(self) -> None:
        self.synced = bytes(self.content)
        self.changes.clear()

    def left(self, count: int) -> bytes:
        """What is left if so many unsynced bytes are on the disk (a truncation counts as one)."""
        content = bytearray(self.synced)
        for at, data in self.changes:
            if count <= 0:
                break
            if data is None:
                content.clear()
                count -= 1
            else:
                content[at:at + len(data[:count])] = data[:count]
                count -= len(data)
        return bytes(content)

    def unsynced(self) -> int:
        return sum(1 if data is None else len(data) for _, data in self.changes)


class Folder:
    """The names in a folder, and the files that they stand for."""

    def __init__(self, contents: Mapping[str, bytes]) -> None:
        self.names = {name: File(content) for name, content in contents.items()}
        self.synced = dict(self.names)
        self.changes: list[tuple[str, str | None, File | None]] = []

    def create(self, name: str) -> File:
        self.names[name] = File()
        self.changes.append((name, None, self.names[name]))
        return self.names[name]

    def rename(self, old: str, new: str) -> None:
        self.names[new] = self.names.pop(old)
        self.changes.append((new, old, self.names[new]))

    def remove(self, name: str) -> None:
        del self.names[name]
        self.changes.append((name, None, None))

    def sync(self) -> None:
        self.synced = dict(self.names)
        self.changes.clear()

    def renamed(self) -> list[str]:
        """The names that were given to other files, and not synced."""
        return [new for new, old, _ in self.changes if old is not None]

    def contents(self) -> dict[str, bytes]:
        return {name: bytes(file.content) for name, file in self.names.items()}

    def left(self, keeps_name: Callable[[], object], count: Callable[[File], int]) -> dict[str, bytes]:
        """What a power cut leaves: the changes of names, and of each file the bytes, that these say."""
        names = dict(self.synced)
        for name, old, file in self.changes:
            if keeps_name():
                if old is not None and names.get(old) is file:
                    del names[old]
                if file is None:
                    names.pop(name, None)
                else:
                    names[name] = file
        return {name: file.left(count(file)) for name, file in names.items()}


def nothing(_: File | None = None) -> int:
    return 0


def everything(file: File | None = None) -> int:
    return 1 if file is None else file.unsynced()


def extremes(folder: Folder) -> list[dict[str, bytes]]:
    """What a power cut leaves where all names that weren't synced are kept or none, and all bytes or none."""
    ends: tuple[Callable[..., int], ...] = (nothing, everything)
    return [folder.left(names, count) for names in ends for count in ends]


def drawn(folder: Folder, draw: random.Random) -> dict[str, bytes]:
    """What a power cut may leave, at random; one in three times no names or all, and likewise bytes."""
    names: tuple[Callable[..., int], ...] = (nothing, everything, lambda: draw.random() < 1 / 2)
    counts: tuple[Callable[..., int], ...] = (nothing, everything,
                                              lambda file: draw.randint(0, file.unsynced()))
    return folder.left(draw.choice(names), draw.choice(counts))
