"""Whose a worksheet beside a text is that can't be read: one that is known to be somebody else's isn't set aside."""
import contextlib
import os
import subprocess
import tempfile

from tmhost import Died, TmhostError, Worksheet, find_program
from tmhost.advice import DAMAGED, SECOND, advised
from tmhost_fences.troubles import Trouble

from .plan import MARK

HEAD = 65_536  # bytes of a file, in which the mark of a worksheet of weave stands
BEFORE_MARK = 10  # bytes at the front of each worksheet


def refuse_others(died: Died, path: str) -> None:
    """Refuses a worksheet that can't be read where it is known to be somebody else's."""
    is_of_others = has_other_sessions if died.number == DAMAGED else is_another_file
    if is_of_others(path):
        raise Trouble(f"{advised(died, path)}; it is none of tmhost-weave, so it stays as it is") from None


def has_other_sessions(path: str) -> bool:
    """Whether what stands before its damage is of somebody else. A weave makes its own session before all others."""
    with tempfile.TemporaryDirectory(prefix="tmhost-weave-") as folder, contextlib.suppress(TmhostError):
        new = os.path.join(folder, "rescued")
        subprocess.run([find_program(), "rescue", os.path.abspath(path), new], stdin=subprocess.DEVNULL, capture_output=True)
        with Worksheet(new) as sheet:
            return MARK.name not in sheet.sessions and bool(sheet.sessions or sheet.fields)
    return False


def is_another_file(path: str) -> bool:
    """Whether a file that is no worksheet never was one of weave. One that was cut or that has lost its front may have been."""
    heads = [head_of(name) for name in (path, path + SECOND) if os.path.isfile(name)]
    has_lost = not heads or len(heads[0]) <= BEFORE_MARK or not heads[0][:BEFORE_MARK].strip(b"\0")
    return not has_lost and not any(MARK.name.encode() in head for head in heads)


def head_of(path: str) -> bytes:
    with open(path, "rb") as file:
        return file.read(HEAD)
