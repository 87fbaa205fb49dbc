"""The files of worksheets in a folder: which there are, and how they get another name or are copied, so that a crash in the middle loses nothing."""

import contextlib
import fcntl
import json
import os
import shutil
import stat
import tempfile
from typing import Dict, Iterator, List, Set, Tuple

from .drafts import places_of
from .exported import FILES, NotExported, copy_of

MAGIC = b"TMWSHEET"
NOTE = ".tmhost-notebook-rename"  # what is to be renamed to what, while it is
ENDS = (".alt", ".json", ".new")  # of files that no worksheet is
LONGEST_NAME = 100  # characters
LOCKS = "/proc/locks"


class NotDone(Exception):
    """Nothing was done, for a reason that is reported to people."""


def is_name(name: str) -> bool:
    """Whether a worksheet may have a name: one of a file in the folder itself, that isn't hidden."""
    is_plain = name.isprintable() and "/" not in name and not name.startswith((".", "-")) and name.strip() == name
    return is_plain and 0 < len(name) <= LONGEST_NAME and not name.endswith(ENDS)


def is_sheet(path: str) -> bool:
    """Whether a plain file begins as a worksheet does."""
    try:
        file = os.open(path, os.O_RDONLY | os.O_NOFOLLOW | os.O_NONBLOCK | os.O_CLOEXEC)
        try:
            return stat.S_ISREG(os.fstat(file).st_mode) and os.read(file, len(MAGIC)) == MAGIC
        finally:
            os.close(file)
    except OSError:
        return False


def names_in(folder: str) -> List[str]:
    return sorted((name for name in os.listdir(folder) if is_name(name) and is_sheet(os.path.join(folder, name))), key=str.casefold)


def locked() -> Set[Tuple[int, int, int]]:
    """The files that a program has locked, by their devices' numbers and their own, as the kernel says."""
    found = set()
    with contextlib.suppress(OSError, ValueError, IndexError), open(LOCKS, encoding="ascii") as file:
        for line in file:
            if "->" not in line:  # else it waits for the lock
                major, minor, inode = line.split()[5].split(":")
                found.add((int(major, 16), int(minor, 16), int(inode)))
    return found


def facts_of(path: str) -> Dict[str, int]:
    """When a worksheet was changed last, in milliseconds, how many bytes its files have, and its own number with its device's."""
    reported = [os.stat(path + end) for end in FILES if os.path.exists(path + end)]
    first = reported[0]
    return {"changed": int(max(one.st_mtime for one in reported) * 1000), "size": sum(one.st_size for one in reported),
            "major": os.major(first.st_dev), "minor": os.minor(first.st_dev), "inode": first.st_ino}


def is_locked(path: str) -> bool:
    """Whether a program has a worksheet open."""
    facts = facts_of(path)
    return (facts["major"], facts["minor"], facts["inode"]) in locked()


# ---- other names


def sync_folder(path: str) -> None:
    folder = os.open(path, os.O_RDONLY | os.O_DIRECTORY | os.O_CLOEXEC)
    try:
        os.fsync(folder)
    finally:
        os.close(folder)


def is_still_at(path: str, file: int) -> bool:
    """Whether an open file is the one that has this name, and has no other: else another took its place before it was locked."""
    try:
        there, here = os.stat(path), os.fstat(file)
    except FileNotFoundError:
        return False
    return os.path.samestat(there, here) and here.st_nlink == 1


@contextlib.contextmanager
def held(path: str) -> Iterator[None]:
    """Holds the locks of a worksheet, as a program that has it open. Raises NotDone where one has."""
    names = [path + end for end in FILES if os.path.exists(path + end)]
    files = [os.open(name, os.O_RDONLY | os.O_CLOEXEC) for name in names]
    try:
        for file in files:
            fcntl.flock(file, fcntl.LOCK_EX | fcntl.LOCK_NB)
        if not all(map(is_still_at, names, files)):
            raise BlockingIOError
        yield
    except BlockingIOError:
        raise NotDone(f"{os.path.basename(path)} is in use: close it first") from None
    finally:
        for file in files:
            os.close(file)


def free_path(folder: str, name: str) -> str:
    """The path of a worksheet that is to have a name. Raises NotDone where it can't be one's, or a file has it already."""
    path = os.path.join(folder, name)
    if not is_name(name):
        raise NotDone("that is no name for a worksheet: it can't be hidden, nor have a slash, more than 100 characters, or the end of another file")
    if any(os.path.lexists(path + end) for end in FILES):
        raise NotDone(f"there is a file {name} already")
    return path


def rename(folder: str, old: str, new: str) -> None:
    """Gives a worksheet another name, with its drafts. What is to be done is noted first, so that it is done to its end after a crash."""
    was = os.path.join(folder, old)
    free_path(folder, new)
    with held(was):
        note = os.path.join(folder, NOTE)
        with contextlib.suppress(FileNotFoundError):
            os.remove(note + ".new")
        file = os.open(note + ".new", os.O_WRONLY | os.O_CREAT | os.O_EXCL | os.O_CLOEXEC, 0o600)
        with open(file, "w", encoding="utf-8") as written:
            json.dump([old, new], written)
            written.flush()
            os.fsync(file)
        os.replace(note + ".new", note)
        sync_folder(folder)
        finish_rename(folder)


def finish_rename(folder: str) -> None:
    """Gives a worksheet the name that a note says, as far as that isn't done yet, and drops the note. Whoever wrote that, it moves no other file."""
    note = os.path.join(folder, NOTE)
    try:
        with open(note, encoding="utf-8") as file:
            reported = json.load(file)
    except FileNotFoundError:
        return
    except ValueError:
        reported = None
    if isinstance(reported, list) and len(reported) == 2 and all(isinstance(name, str) and is_name(name) for name in reported):
        was, will = (os.path.join(folder, name) for name in reported)
        for one, other in [(was + end, will + end) for end in FILES] + list(zip(places_of(was), places_of(will))):
            if os.path.lexists(one) and not os.path.lexists(other):
                os.rename(one, other)
        sync_folder(folder)
    os.remove(note)
    sync_folder(folder)


def duplicate(folder: str, old: str, new: str) -> None:
    """Copies a worksheet, as it is at one moment, also while it is open, with the drafts that lie beside it."""
    was, will = os.path.join(folder, old), free_path(folder, new)
    with tempfile.TemporaryDirectory(prefix=".tmhost-notebook-", dir=folder) as place:
        try:
            copy = copy_of(was, place)
        except NotExported as error:
            raise NotDone(str(error)) from None
        drafts = places_of(was)[0]
        ends = [*reversed(FILES)]  # the first one last: without that there is no worksheet
        if os.path.dirname(drafts) == folder and os.path.exists(drafts):
            ends.insert(0, drafts[len(was) :])
            shutil.copyfile(drafts, copy + ends[0])
        for end in ends:
            with open(copy + end, "rb") as file:
                os.fsync(file.fileno())
        for end in ends:
            os.rename(copy + end, will + end)
        sync_folder(folder)
