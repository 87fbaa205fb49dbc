"""Where things lie: the socket of a worksheet's keeper, and pictures."""

import contextlib
import hashlib
import os
from typing import Iterator

LONGEST_ADDRESS = 107  # bytes of a socket's path, for Linux
DEFAULT_FOLDER = "~/tmhost"  # of the worksheets of documents that have no name yet


def private_folder() -> str:
    """A folder of this user alone."""
    runtime = os.environ.get("XDG_RUNTIME_DIR", "")
    folder = os.path.join(runtime, "tmhost-texmacs") if os.path.isdir(runtime) else os.path.expanduser("~/.cache/tmhost-texmacs")
    os.makedirs(folder, mode=0o700, exist_ok=True)
    if os.stat(folder).st_uid != os.getuid():
        raise PermissionError(f"{folder} is another user's")
    os.chmod(folder, 0o700)
    return folder


def socket_of(sheet: str) -> str:
    """The socket of the program that keeps a worksheet open."""
    name = hashlib.sha256(os.fsencode(os.path.realpath(sheet))).hexdigest()[:24]
    return os.path.join(private_folder(), name + ".socket")


@contextlib.contextmanager
def address_of(path: str) -> Iterator[str]:
    """The path by which a socket is bound or found. Where it is too long for one it goes by its folder, which is held open for that."""
    if len(os.fsencode(path)) <= LONGEST_ADDRESS:
        yield path
        return
    folder = os.open(os.path.dirname(path), os.O_PATH | os.O_DIRECTORY)
    try:
        yield f"/proc/self/fd/{folder}/{os.path.basename(path)}"
    finally:
        os.close(folder)


def folder_of_pictures() -> str:
    return os.path.join(private_folder(), "pictures")


def sheet_of(name: str) -> str:
    """The worksheet of a session for which none is named."""
    return os.path.expanduser(os.path.join(DEFAULT_FOLDER, name.partition(":")[0] + ".tmhost"))
