"""The file of a text: locked while it is woven, and replaced as a whole."""
import contextlib
import ctypes
import errno
import fcntl
import os
import shutil
import stat
from typing import BinaryIO, Iterator, Optional, Tuple

from .sheets import remove
from tmhost_fences.aside import sync
from tmhost_fences.troubles import Trouble

LONGEST = 67_108_864  # bytes, as of a script of tmhost
HERE, EXCHANGE = -100, 2  # AT_FDCWD and RENAME_EXCHANGE of Linux
NO_FILE = "{} is no plain file"
Stamp = Optional[Tuple[int, int, int, int]]


class Changed(Trouble):
    """The text was saved while it was woven."""

    def __init__(self) -> None:
        super().__init__("the text was changed meanwhile, and stays as it is; the answers are kept: weave it again")


def text_of(data: bytes) -> str:
    return data.decode("utf-8", "surrogateescape")


def bytes_of(text: str) -> bytes:
    return text.encode("utf-8", "surrogateescape")


def stamp_of(path: str) -> Stamp:
    """What tells a file from the one that is there when it was saved again; None where there is none."""
    try:
        found = os.stat(path)
    except OSError:
        return None
    return found.st_dev, found.st_ino, found.st_size, found.st_mtime_ns


@contextlib.contextmanager
def opened(path: str) -> Iterator[BinaryIO]:
    """A file to be read. Nobody is waited for who would write into a pipe: that is none."""
    with open(path, "rb", opener=lambda name, flags: os.open(name, flags | os.O_NONBLOCK)) as file:
        if not stat.S_ISREG(os.fstat(file.fileno()).st_mode):
            raise Trouble(NO_FILE.format(path))
        yield file


def read(path: str) -> bytes:
    with opened(path) as file:
        data = file.read(LONGEST + 1)
    if len(data) > LONGEST:
        raise Trouble(f"{path} has more than {LONGEST:,} bytes")
    return data


@contextlib.contextmanager
def locked(path: str) -> Iterator[None]:
    """Keeps other weaves of the same text away."""
    with opened(path) as file:
        try:
            fcntl.flock(file, fcntl.LOCK_EX | fcntl.LOCK_NB)
        except BlockingIOError:
            raise Trouble(f"{path} is being woven by another tmhost-weave") from None
        except OSError:
            pass  # a file system without locks
        yield


@contextlib.contextmanager
def writing(name: str, kept: str) -> Iterator[None]:
    """Has an error of the system name the file that can't be written, and say what is kept."""
    try:
        yield
    except OSError as error:
        raise Trouble(f"{name} can't be written ({error.strerror or error}): {kept}") from None


def new_name(path: str) -> str:
    return path + ".tmhost-weave"


def put(path: str, data: bytes, old: Optional[bytes] = None) -> Stamp:
    """The file has these bytes or the old ones, whenever the machine stops. Where they don't fit, nothing is left of them. Where it is said which the old ones
    are, it is an error that there are others. Gives the stamp of the new file."""
    new = new_name(path)
    try:
        with open(new, "wb") as file:
            file.write(data)
            file.flush()
            os.fsync(file.fileno())
        if os.path.exists(path):
            shutil.copymode(path, new)
        stamp = stamp_of(new)
        if old is None:
            os.replace(new, path)
    except BaseException:
        remove(new)
        raise
    if old is not None:
        put_over(new, path, data, old)
    sync(os.path.dirname(path))
    return stamp


def exchange(one: str, other: str) -> bool:
    """Has each of two files take the place of the other, in one step; False where the system can't."""
    libc = ctypes.CDLL(None, use_errno=True)
    if not hasattr(libc, "renameat2"):
        return False
    if libc.renameat2(HERE, os.fsencode(one), HERE, os.fsencode(other), EXCHANGE) == 0:
        return True
    if ctypes.get_errno() == errno.ENOENT:
        raise FileNotFoundError(errno.ENOENT, os.strerror(errno.ENOENT), other)
    return False


def put_over(new: str, path: str, data: bytes, old: bytes) -> None:
    """Puts a new file with these data into the place of one with the old ones. Where that has others, since somebody has saved it in this moment, they get their
    place back, and so do those that were saved since."""
    try:
        if read(path) != old:
            raise Changed
        is_exchanged = exchange(new, path)
        if not is_exchanged:
            os.replace(new, path)
    except (OSError, Trouble):
        remove(new)
        raise
    if not is_exchanged:
        return
    there, expected = data, old
    while (found := read(new)) != expected:
        there, expected = found, there
        exchange(new, path)
    remove(new)
    if there is not data:
        raise Changed


def is_device(path: str) -> bool:
    """Whether it is one to which bytes are written, as /dev/null. It isn't replaced, as a file is."""
    return os.path.exists(path) and stat.S_ISCHR(os.stat(path).st_mode)


def refuse_other_than_files(option: str, path: str) -> None:
    """Refuses what is neither a file nor a folder, as a pipe, where a file is to be replaced."""
    if os.path.exists(path) and not os.path.isfile(path) and not os.path.isdir(path):
        raise Trouble(f"{option}: {NO_FILE.format(path)}")


def read_other(path: str) -> Optional[bytes]:
    """What stands in another file than the text; None where none is there."""
    return read(path) if os.path.isfile(path) else None


def write_to(device: str, data: bytes) -> None:
    try:
        with open(device, "wb") as file:
            file.write(data)
    except OSError as error:
        raise Trouble(f"nothing can be written to {device}: {error.strerror}") from None


def put_in_folder(path: str, data: bytes) -> None:
    """The same, in a folder that is made where it isn't there."""
    folder = os.path.dirname(path)
    is_made = not os.path.isdir(folder)
    os.makedirs(folder, exist_ok=True)
    try:
        put(path, data)
    except BaseException:
        if is_made:
            with contextlib.suppress(OSError):
                os.rmdir(folder)
        raise
