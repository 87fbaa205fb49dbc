"""A worksheet beside a text that can't be read gets another name, so that what is made of the text begins again, and nothing is lost."""
import contextlib
import itertools
import os

from tmhost import Died
from tmhost.advice import DAMAGED, NOT_A_SHEET, SECOND, reason

UNREADABLE = (DAMAGED, NOT_A_SHEET)  # faults


def sync(folder: str) -> None:
    """Brings the names in a folder onto the disk."""
    opened = os.open(folder or ".", os.O_RDONLY)
    try:
        os.fsync(opened)
    finally:
        os.close(opened)


def fault_of(died: Died, path: str) -> str:
    """Its number, its name and where it is."""
    return reason(died, path).partition(": ")[0]


def free_name(path: str) -> str:
    """A name that is free, also for a second file."""
    names = (f"{path}.damaged{number or ''}" for number in itertools.count())
    return next(name for name in names if not os.path.lexists(name) and not os.path.lexists(name + SECOND))


def set_aside(path: str) -> str:
    """Gives a worksheet and its second file another name, and says which: it may be no worksheet, and somebody's."""
    new = free_name(path)
    for end in ("", SECOND):
        with contextlib.suppress(FileNotFoundError):
            os.rename(path + end, new + end)
    sync(os.path.dirname(path))
    return new
