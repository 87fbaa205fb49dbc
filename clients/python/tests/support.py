"""What the tests share: the program, a worksheet in a folder of its own, and an interpreter whose lines say what they are answered."""

import contextlib
import os
import shutil
import sys
import tempfile
import time
import unittest
from typing import Any, Callable, List, Tuple

HERE = os.path.dirname(os.path.realpath(__file__))
PACKAGE = os.path.dirname(HERE)
ROOT = os.path.dirname(os.path.dirname(PACKAGE))
sys.path[:0] = [PACKAGE, os.path.dirname(PACKAGE)]

from found import BUILT, find_program  # noqa: E402
from tmhost import Evaluation, InUse, LostItem, Refused, Worksheet  # noqa: E402

PROGRAM = find_program() or BUILT[0]
WORDS = [sys.executable, "-S", "-E", os.path.join(HERE, "interpreter.py")]
SECONDS = 120.0  # in which everything comes, on a slow machine too

needs_program = unittest.skipUnless(os.path.isfile(PROGRAM), "there is no tmhost: TMHOST names none, and none is on PATH or built")


def big(size: int, seed: str) -> str:
    """What the interpreter answers to `big SIZE SEED`."""
    return (seed + " ") * (size // (len(seed) + 1)) + "." * (size % (len(seed) + 1))


def eventually(opened: Any) -> Any:
    """What a call gives, which is done again while the worksheet is in use: after a kill it may be so for some milliseconds."""
    until = time.monotonic() + SECONDS
    while True:
        try:
            return opened()
        except InUse:
            if time.monotonic() > until:
                raise
            time.sleep(0.01)


def is_there(number: int) -> bool:
    """Whether a process runs. One that nobody has waited for doesn't."""
    try:
        with open(f"/proc/{number}/stat") as file:
            return file.read().rsplit(")", 1)[1].split()[0] != "Z"
    except FileNotFoundError:
        return False


class Case(unittest.TestCase):
    def setUp(self) -> None:
        self.folder = tempfile.mkdtemp(prefix="tmhost-python-test.")
        self.addCleanup(shutil.rmtree, self.folder)
        self.path = os.path.join(self.folder, "sheet")

    def open(self, **more: Any) -> Worksheet:
        """The worksheet, which is closed after the test."""
        words: Any = {"create": True, "program": PROGRAM, "timeout": SECONDS, **more}
        sheet: Worksheet = eventually(lambda: Worksheet(self.path, **words))
        self.addCleanup(sheet.close)
        return sheet

    def sheet(self, *names: str) -> Worksheet:
        """A worksheet with sessions of the interpreter for tests; those with a name that ends in `_tab` answer completions."""
        sheet = self.open()
        for name in names or ("a",):
            sheet.session(name, WORDS, tab=name.endswith("_tab"))
        return sheet

    def until(self, holds: Callable[[], object]) -> None:
        until = time.monotonic() + SECONDS
        while not holds():
            self.assertLess(time.monotonic(), until)
            time.sleep(0.01)

    def busy(self) -> Tuple[List[str], Callable[[], int]]:
        """The words of an interpreter that heeds nothing, and a call that waits for the number of its process."""
        script, mark = os.path.join(self.folder, "busy.py"), os.path.join(self.folder, "mark")
        with open(script, "w") as file:
            file.write(f"import os, time\nopen({mark!r}, 'w').write(str(os.getpid()))\nwhile True: time.sleep(1)\n")

        def number() -> int:
            self.until(lambda: os.path.exists(mark) and os.path.getsize(mark) > 0)
            with open(mark) as file:
                return int(file.read())

        return [sys.executable, script], number

    def assert_exact(self, sheet: Worksheet) -> None:
        """What the worksheet shows is what the program prints. Nothing may come of an interpreter meanwhile."""
        with contextlib.suppress(Refused):
            sheet.interrupt("nobody")  # after its reply are those of the looks at lost lines
        held = self.shown(sheet)
        sheet.refresh()
        self.assertEqual(self.shown(sheet), held)

    def shown(self, sheet: Any) -> Tuple[Any, ...]:
        return sheet.fields, list(sheet.sessions.items()), sheet.next_id

    def interrupt(self, evaluation: Evaluation) -> None:
        """Interrupts a line until it is answered: a signal may come before the line has begun. (One that comes before the interpreter has
        begun ends it, so that has to have answered a line before.)"""
        sheet, name = evaluation.cell.worksheet, evaluation.cell.session
        while not evaluation.done():
            self.assertIn(sheet.interrupt(name), ("sent", "idle"))
            time.sleep(0.02)

    def lost(self, *cells: Any) -> List[LostItem]:
        return [LostItem(cell.id, cell.input) for cell in cells]
