"""What tests of clients share: the program that they run over, as found.py finds it; what is in a worksheet; processes; a folder."""

import os
import signal
import subprocess
import sys
import time
import unittest
from typing import List

from found import BUILT, CLIENTS, find_program

PROGRAM = find_program() or BUILT[0]

sys.path.insert(0, os.path.join(CLIENTS, "python"))
from tmhost import Died, Field, Worksheet  # noqa: E402


def missing() -> str:
    """Why there is no program to test with; nothing where there is one."""
    try:
        tried = subprocess.run([PROGRAM, "live", "--json", os.devnull + "/none"], stdin=subprocess.DEVNULL, capture_output=True)
    except OSError as error:
        return f"{PROGRAM} can't be started ({error.strerror}); TMHOST names another one"
    return f"{PROGRAM} knows no live --json" if tried.returncode == 2 else ""


WHY = missing()


def fields_of(sheet: str) -> List[Field]:
    """What a worksheet has. A program that was killed, or that ends, may hold it for a moment still."""
    for _ in range(1000):
        try:
            with Worksheet(sheet, program=PROGRAM) as worksheet:
                return worksheet.fields
        except Died as died:
            if died.number != 35:
                raise
            time.sleep(0.05)
    raise AssertionError("the worksheet stays in use")


def children_of(pid: int) -> List[int]:
    """The processes that this one has started and that it hasn't waited for."""
    try:
        with open(f"/proc/{pid}/task/{pid}/children", encoding="ascii") as file:
            return [int(word) for word in file.read().split()]
    except FileNotFoundError:
        return []


def heed_interrupts() -> None:
    """For a process that is about to start: a script that is started by `&` ignores SIGINT, and so would what it starts."""
    signal.signal(signal.SIGINT, signal.SIG_DFL)


class InFolder(unittest.TestCase):
    """A test with a folder of its own."""

    folder: str

    def place(self, name: str) -> str:
        return os.path.join(self.folder, name)
