"""A block device that loses, at a power cut, what wasn't flushed: a loop device over a file that we serve, by
FUSE."""

import contextlib
import ctypes
import errno
import os
import pathlib
import struct
import subprocess
import tempfile
import threading
from collections.abc import Callable

from farmkit.command import lacks
from farmkit.processes import run

# what the kernel asks a file system for, by their numbers in linux/fuse.h, as are all forms below; it goes on
# where it is told that there is nothing else
GETATTR, SETATTR, OPEN, READ, WRITE, FSYNC, INIT = 3, 4, 14, 15, 16, 20, 26
UNANSWERED = FORGET, INTERRUPT, BATCH_FORGET = 2, 36, 42
MOST_WRITE = 1 << 17
DIRECT_IO = 1
# the answers that are always the same
CONSTANT = {
    INIT: struct.pack("<IIIIHHIIHHI28x", 7, 31, MOST_WRITE, 0, 12, 10, MOST_WRITE, 1, 32, 0, 0),
    OPEN: struct.pack("<QII", 0, DIRECT_IO, 0),
}
LIBC = ctypes.CDLL(None, use_errno=True)
HEAD = struct.Struct("<4xIQ24x")
ANSWER = struct.Struct("<IiQ")


class Disk:
    """The bytes of a device: what was flushed, and the writes since then, in their order."""

    def __init__(self, content: bytes) -> None:
        self.content = bytearray(content)
        self.flushed = bytearray(content)
        self.writes: list[tuple[int, bytes]] = []
        self.is_off = False
        self.left: int | None = None
        self.then: Callable[[], object] = bool
        self.lock = threading.Lock()

    def cut_at(self, count: int, then: Callable[[], object]) -> None:
        """Cuts the power after so many writes and flushes from now on, and calls `then` just before."""
        with self.lock:
            self.left, self.then = count, then

    def step(self) -> None:
        """Counts a write or a flush, and cuts the power where all were made that were left."""
        if self.left == 0 and not self.is_off:
            self.then()
            self.is_off = True
        if self.left:
            self.left -= 1

    def write(self, at: int, data: bytes) -> None:
        with self.lock:
            self.step()
            self.content[at:at + len(data)] = data
            if not self.is_off:
                self.writes.append((at, data))

    def flush(self) -> None:
        with self.lock:
            self.step()
            if not self.is_off:
                for at, data in self.writes:
                    self.flushed[at:at + len(data)] = data
                self.writes.clear()

    def off(self) -> None:
        """The power is off: nothing is written any more."""
        with self.lock:
            self.is_off = True

    def after(self, keeps: Callable[[], object]) -> bytearray:
        """The bytes after a power cut: of the unflushed writes those are kept that `keeps` says."""
        content = bytearray(self.flushed)
        for at, data in self.writes:
            if keeps():
                content[at:at + len(data)] = data
        return content


class Mounted:
    """A file, mounted over this one, whose bytes are those of a disk."""

    def __init__(self, disk: Disk, file: pathlib.Path) -> None:
        self.disk, self.file = disk, file
        self.channel = os.open("/dev/fuse", os.O_RDWR | os.O_CLOEXEC)
        settings = f"fd={self.channel},rootmode=100000,user_id=0,group_id=0"
        if LIBC.mount(b"cut_power", os.fsencode(file), b"fuse", 6, settings.encode()):
            os.close(self.channel)
            raise OSError(ctypes.get_errno(), "mount")
        self.thread = threading.Thread(target=self.serve, daemon=True)
        self.thread.start()

    def serve(self) -> None:
        with contextlib.suppress(OSError):
            while asked := os.read(self.channel, MOST_WRITE + 4096):
                kind, unique = HEAD.unpack_from(asked)
                if kind not in UNANSWERED:
                    error, given = self.answer(kind, asked[HEAD.size:])
                    with contextlib.suppress(OSError):
                        os.write(self.channel, ANSWER.pack(ANSWER.size + len(given), -error, unique) + given)

    def answer(self, kind: int, given: bytes) -> tuple[int, bytes]:
        """An error's number, or 0, and what is given back."""
        if kind in CONSTANT:
            return 0, CONSTANT[kind]
        if kind in (GETATTR, SETATTR):
            size = len(self.disk.content)
            return 0, struct.pack("<Q8xQQQ36xII12xI4x", 3600, 1, size, size // 512, 0o100600, 1, 4096)
        if kind in (READ, WRITE):
            at, size = struct.unpack_from("<8xQI", given)
            if kind == READ:
                return 0, bytes(self.disk.content[at:at + size])
            self.disk.write(at, given[40:40 + size])
            return 0, struct.pack("<II", size, 0)
        if kind == FSYNC:
            self.disk.flush()
            return 0, b""
        return errno.ENOSYS, b""

    def unmount(self) -> None:
        """Takes it away. Where something else still has the device, as a container that began meanwhile,
        its thread goes on: else it would read from what is opened next under the number of its channel."""
        LIBC.umount2(os.fsencode(self.file), 2)
        self.thread.join(1)
        if not self.thread.is_alive():
            os.close(self.channel)


class Machine:
    """A mounted disk with ext4, where a rename doesn't write out the file (`noauto_da_alloc`)."""

    def __init__(self, above: str | pathlib.Path, content: bytes | bytearray) -> None:
        below, self.folder = pathlib.Path(above) / "below", pathlib.Path(above) / "above"
        below.touch()
        self.folder.mkdir(exist_ok=True)
        self.disk = Disk(bytes(content))
        self.mounted = Mounted(self.disk, below)
        self.loop: str | None = None
        try:
            self.loop = run("losetup", "--find", "--show", str(below)).strip()
            run("mount", "-t", "ext4", "-o", "noauto_da_alloc", self.loop, str(self.folder))
        except subprocess.CalledProcessError:
            self.stop()
            raise

    def stop(self) -> None:
        """Takes everything down; what goes to the disk meanwhile is lost, if its power is off."""
        run("umount", str(self.folder), check=False)
        if self.loop:
            run("losetup", "-d", self.loop, check=False)
        self.mounted.unmount()


def formatted(size: int, above: str | pathlib.Path) -> bytes:
    with tempfile.NamedTemporaryFile(dir=above) as file:
        file.truncate(size)
        run("mkfs.ext4", "-q", "-F", file.name)
        return file.read()


def is_permitted(above: str | pathlib.Path) -> bool:
    """Whether a device may be made here."""
    if not lacks("losetup", "mkfs.ext4"):
        with contextlib.suppress(OSError, subprocess.CalledProcessError):
            Machine(above, formatted(16 << 20, above)).stop()
            return True
    return False


def fill(folder: pathlib.Path) -> None:
    """Fills the disk that a folder is on by a file in it."""
    with (folder / "filling").open("wb", buffering=0) as file, contextlib.suppress(OSError):
        while True:
            file.write(bytes(4096))


def make_room(folder: pathlib.Path) -> bool:
    """Takes away what filled a disk, where something did."""
    is_full = (folder / "filling").exists()
    (folder / "filling").unlink(missing_ok=True)
    return is_full
