"""Small file systems in files, mounted where no other program sees them, which can be cut off as by a power cut: what isn't on the device at
that moment never comes there."""

from __future__ import annotations

import ctypes
import fcntl
import os
import struct
import subprocess
import sys
import time
from typing import NamedTuple

CLONE_NEWNS = 0x00020000
# `FS_IOC_SHUTDOWN` of Linux, and how: neither data nor the file system's own log is written before.
SHUTDOWN, NOLOGFLUSH = 0x8004587D, 2
# For how long something may hold a file system that is to be unmounted.
SECONDS = 20.0


class Kind(NamedTuple):
    """A kind of file system: the words that make one in a file, how large that file is, and the options of the mount."""

    name: str
    makes: list[str]
    mebibytes: int
    options: str = ""


EXT4 = ["mkfs.ext4", "-q", "-F"]
XFS = ["mkfs.xfs", "-q", "-f"]

KINDS = [
    Kind("ext4", EXT4, 16),
    Kind("xfs", XFS, 300),
    Kind("ext4 data=writeback", EXT4, 16, "data=writeback"),
    # It writes the end of a transaction without waiting for the rest, and tells by checksums whether all of it is there.
    Kind("ext4 journal_async_commit", EXT4, 16, "data=writeback,journal_async_commit"),
    Kind("xfs with blocks of 1,024 bytes", [*XFS, "-b", "size=1024"], 300),
    Kind("ext4 fast_commit", [*EXT4, "-O", "fast_commit"], 16),
    Kind("ext4 data=journal", EXT4, 16, "data=journal"),
]


class Missing(Exception):
    """What a machine lacks on which no file system can be made, mounted and cut off."""


def call(*words: str) -> None:
    """Runs a program of the system that must end well."""
    try:
        ran = subprocess.run(words, stdin=subprocess.DEVNULL, capture_output=True, text=True)
    except OSError as error:
        raise Missing(f"{words[0]}: {error.strerror}") from error
    if ran.returncode:
        raise Missing(f"{words[0]}: {ran.stderr.strip() or ran.returncode}")


def leave_mounts() -> None:
    """Takes this program into a mount namespace of its own: what it mounts no other program sees, and goes with it."""
    # What makes and mounts file systems lies where a user's PATH may not lead.
    os.environ["PATH"] += ":/usr/sbin:/sbin"
    if os.geteuid():
        raise Missing("it wants root")
    if ctypes.CDLL(None, use_errno=True).unshare(CLONE_NEWNS):
        raise Missing(f"no mount namespace of its own: {os.strerror(ctypes.get_errno())}")
    call("mount", "--make-rprivate", "/")
    if not os.path.exists("/dev/loop-control"):
        raise Missing("there are no loop devices")


class FileSystem:
    """A new file system in a file, mounted in a folder of its own."""

    def __init__(self, kind: Kind, folder: str) -> None:
        self.kind, self.image, self.place, self.is_mounted = kind, f"{folder}/image", f"{folder}/place", False
        os.makedirs(self.place, exist_ok=True)
        with open(self.image, "wb") as file:
            file.truncate(kind.mebibytes << 20)

    def make(self) -> None:
        call(*self.kind.makes, self.image)

    def mount(self) -> None:
        options = ["loop", self.kind.options] if self.kind.options else ["loop"]
        call("mount", "-o", ",".join(options), self.image, self.place)
        self.is_mounted = True

    def cut_off(self) -> None:
        """Lets nothing more come to the device: each later sync and write fails."""
        place = os.open(self.place, os.O_RDONLY | os.O_DIRECTORY | os.O_CLOEXEC)
        try:
            fcntl.ioctl(place, SHUTDOWN, struct.pack("I", NOLOGFLUSH))
        except OSError as error:
            raise Missing(f"{self.kind.name} can't be shut down: {error.strerror}") from error
        finally:
            os.close(place)

    def unmount(self) -> None:
        """An interpreter that was just being started may have a file open for a moment."""
        until = time.monotonic() + SECONDS
        while subprocess.run(["umount", self.place], capture_output=True).returncode:
            if time.monotonic() > until:
                raise Missing(f"{self.place} stays in use")
            time.sleep(0.02)
        self.is_mounted = False

    def remove(self) -> None:
        """Takes it away, mounted or not."""
        if self.is_mounted:
            self.unmount()
        os.remove(self.image)


def usable(folder: str) -> list[Kind]:
    """The kinds that can be made, mounted and cut off on this machine; the others are told."""
    kinds = []
    for kind in KINDS:
        system = FileSystem(kind, folder)
        try:
            system.make()
            system.mount()
            system.cut_off()
            kinds.append(kind)
        except Missing as missing:
            print(f"left out: {kind.name}: {missing}", file=sys.stderr)
        finally:
            system.remove()
    if not kinds:
        raise Missing("no file system can be cut off")
    return kinds
