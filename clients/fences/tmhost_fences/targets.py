"""Where a program may write what its user names a file for."""
import os
from typing import Iterable

from .troubles import Trouble

MAGIC = b"TMWSHEET"  # the first bytes of a worksheet


def begins_a_worksheet(path: str) -> bool:
    """Nothing but a file is opened: of a pipe that would wait for who writes into it."""
    if not os.path.isfile(path):
        return False
    try:
        with open(path, "rb") as file:
            return file.read(len(MAGIC)) == MAGIC
    except OSError:
        return False


def refuse_target(option: str, path: str, kept: Iterable[str]) -> None:
    """Refuses a file that can't be written there, or by which something would be lost: a worksheet, or one of those that are kept, by their real paths."""
    if not os.path.isdir(os.path.dirname(path) or "."):
        raise Trouble(f"{option}: there is no folder {os.path.dirname(path)}")
    if os.path.isdir(path):
        raise Trouble(f"{option}: {path} is a folder")
    if os.path.realpath(path) in kept or begins_a_worksheet(path):
        raise Trouble(f"{option}: {path} would be lost: name another file")
