"""What is on a device behind the calls that a program made on a worksheet's files, as `failing.c` lists them, where a sync that fails drops
what it was to bring there: a later sync that succeeds says nothing of it, and reads give it all the same, until the machine is restarted."""

from __future__ import annotations

import errno
import os
from collections.abc import Iterable, Iterator
from typing import NamedTuple

from model import Difference


class Call(NamedTuple):
    """A call of a program, with what it gave, whether it was failed, and what it was given."""

    name: str
    result: int
    failed: bool
    fd: int
    number: int
    text: str


# The errors of a sync after which the system may have dropped what wasn't on the device. One that a signal interrupted dropped nothing.
DROPS = (-errno.EIO, -errno.ENOSPC)


def calls_of(log: str) -> Iterator[Call]:
    """The calls that a log has, in their order."""
    with open(log) as file:
        for line in file:
            name, result, failed, fd, number, text = line.rstrip("\n").split(" ", 5)
            yield Call(name, int(result), failed == "1", int(fd), int(number), text)


def over(content: bytes, offset: int, new: bytes) -> bytes:
    """Bytes put over a content, and past its end."""
    content = content.ljust(offset, b"\0")
    return content[:offset] + new + content[offset + len(new) :]


class Stored:
    """A file as it is on the device: its bytes, the writes that no sync brought there yet, and whether its name is there."""

    def __init__(self, content: bytes, is_named: bool) -> None:
        self.content, self.is_named = content, is_named
        self.writes: list[tuple[int, bytes]] = []

    def bring(self) -> None:
        for offset, new in self.writes:
            self.content = over(self.content, offset, new)
        self.writes = []


class Device:
    """The files of a folder, by their names."""

    def __init__(self, folder: str) -> None:
        self.folder = os.path.realpath(folder)
        self.files: dict[str, Stored] = {}
        for name in os.listdir(folder):
            with open(f"{folder}/{name}", "rb") as file:
                self.files[name] = Stored(file.read(), True)
        self.has_dropped = False

    def take(self, calls: Iterable[Call]) -> None:
        """What the calls of one program leave on the device. Behind a sync that dropped something it makes no call on a file again."""
        opened: dict[int, Stored | Device | None] = {}
        for call in calls:
            file = opened.get(call.fd)
            if call.name == "open" and call.result >= 0:
                opened[call.result] = self.opened(call)
            elif call.name not in ("pwrite", "pread", "fsync", "fdatasync") or file is None:
                continue
            elif self.has_dropped:
                raise Difference(f"behind a sync that failed: {call}")
            elif call.name == "pwrite" and call.result > 0:
                assert isinstance(file, Stored)  # no folder is written
                file.writes.append((call.number, bytes.fromhex(call.text)))
            elif call.name in ("fsync", "fdatasync"):
                self.sync(file, call.result)

    def opened(self, call: Call) -> Stored | Device | None:
        """The file, or the folder itself, that was opened; nothing where it is neither."""
        path = os.path.realpath(os.path.join(self.folder, call.text))
        if path == self.folder:
            return self
        folder, name = os.path.split(path)
        if folder != self.folder:
            return None
        if name not in self.files:
            self.files[name] = Stored(b"", False)
        return self.files[name]

    def sync(self, file: Stored | Device, result: int) -> None:
        if result == 0:
            file.bring()
        elif result in DROPS:
            self.has_dropped = True
            if isinstance(file, Stored):
                file.writes = []

    def bring(self) -> None:
        """Brings the names of the folder to the device."""
        for file in self.files.values():
            file.is_named = True

    def restarted(self) -> dict[str, bytes]:
        """The files, by their names, that are there when the machine is started again: what no sync brought to the device is gone."""
        self.has_dropped = False
        return {name: file.content for name, file in self.files.items() if file.is_named}
