"""What the tests share: a worksheet in a folder of its own, the command in a pipe, and the command at a terminal."""
import os
import pty
import re
import select
import shutil
import signal
import struct
import subprocess
import sys
import tempfile
import termios
import time
import unittest
from fcntl import ioctl
from typing import Dict, List, Optional, Tuple, Union

HERE = os.path.dirname(os.path.realpath(__file__))
ROOT = os.path.dirname(os.path.dirname(os.path.dirname(HERE)))
COMMAND = os.path.join(os.path.dirname(HERE), "tmhost-repl")
INTERPRETER = [sys.executable, os.path.join(HERE, "interpreter.py")]
SECONDS = 120.0  # in which everything comes, beside other work too
LINE_END = "\u2028"

sys.path[:0] = [os.path.join(ROOT, "clients", name) for name in ("python", "fences", "")]
from tested import PROGRAM as PROGRAM, WHY, children_of as children_of, fields_of, heed_interrupts as heed_interrupts  # noqa: E402
from tmhost import Field, Worksheet as Worksheet  # noqa: E402


def environment(**more: str) -> Dict[str, str]:
    plain = {name: value for name, value in os.environ.items() if name not in ("INPUTRC", "NO_COLOR")}
    return {**plain, "TMHOST": PROGRAM, "TERM": "xterm", "INPUTRC": "/dev/null", "PYTHONUTF8": "1", **more}


class Screen:
    """What a terminal shows: enough of one for what readline and the program write."""

    def __init__(self, columns: int) -> None:
        self.columns = columns
        self.rows: List[List[str]] = [[]]
        self.row = self.column = 0
        self._begun = ""  # a sequence whose end hasn't come

    def feed(self, text: str) -> None:
        text = self._begun + text
        whole = re.sub(r"\x1b(\[[?0-9;]*)?\Z", "", text)
        self._begun, text = text[len(whole) :], whole
        for found in re.finditer(r"\x1b\[([?0-9;]*)([A-Za-z@])|\x1b.|[^\x1b]", text, re.DOTALL):
            if found[2]:
                self._sequence(found[1], found[2])
            elif len(found[0]) == 1:
                self._put(found[0])

    def _sequence(self, numbers: str, kind: str) -> None:
        count = int(numbers) if numbers.isdigit() else 1
        if kind == "A":
            self.row = max(0, self.row - count)
        elif kind == "C":
            self.column += count
        elif kind == "D":
            self.column = max(0, self.column - count)
        elif kind in "JK":
            del self.rows[self.row][self.column :]
            if kind == "J":
                del self.rows[self.row + 1 :]
        elif kind == "P":
            del self.rows[self.row][self.column : self.column + count]
        elif kind == "@":
            self.rows[self.row][self.column : self.column] = [" "] * count

    def _put(self, character: str) -> None:
        if character == "\r":
            self.column = 0
        elif character == "\n":
            self._down()
        elif character == "\b":
            self.column = max(0, self.column - 1)
        elif character >= " ":
            if self.column == self.columns:
                self._down()
                self.column = 0
            row = self.rows[self.row]
            row.extend(" " * (self.column + 1 - len(row)))
            row[self.column] = character
            self.column += 1

    def _down(self) -> None:
        self.row += 1
        while len(self.rows) <= self.row:
            self.rows.append([])

    def text(self) -> str:
        return "\n".join("".join(row).rstrip() for row in self.rows).rstrip("\n")


class Terminal:
    """The command at a terminal of 80 columns and 40 rows."""

    def __init__(self, words: List[str], columns: int = 80, input: Optional[str] = None, **more: str) -> None:
        """Its lines are typed, or come from the file `input`."""
        self.screen = Screen(columns)
        self.heard = b""
        self.is_over = False
        self.pid, self.end = pty.fork()
        if self.pid == 0:
            heed_interrupts()
            ioctl(0, termios.TIOCSWINSZ, struct.pack("HHHH", 40, columns, 0, 0))
            if input:
                os.dup2(os.open(input, os.O_RDONLY), 0)
            os.execve(sys.executable, [sys.executable, "-B", COMMAND, *words], environment(**more))
        self.status: Optional[int] = None

    def send(self, text: Union[str, bytes]) -> None:
        os.write(self.end, text.encode() if isinstance(text, str) else text)

    def gives_up(self) -> None:
        """Sends control-C at the prompt. Python's readline may miss one that comes before it waits again."""
        time.sleep(0.3)
        self.send("\x03")

    def _listen(self, seconds: float) -> bool:
        if not select.select([self.end], [], [], seconds)[0]:
            return True
        try:
            data = os.read(self.end, 65536)
        except OSError:  # the first may come to a read that had looked before the last words were there
            is_first, self.is_over = not self.is_over, True
            return is_first
        whole = self.heard + data
        self.heard = b""
        try:
            text = whole.decode("utf-8")
        except UnicodeDecodeError as error:
            text, self.heard = whole[: error.start].decode("utf-8"), whole[error.start :]
        self.screen.feed(text)
        return bool(data)

    def sees(self, pattern: str, seconds: float = SECONDS) -> str:
        """Waits until what is shown has the pattern; gives all that is shown then."""
        until = time.monotonic() + seconds
        while not re.search(pattern, self.screen.text(), re.MULTILINE):
            left = until - time.monotonic()
            if left < 0 or not self._listen(left):
                raise AssertionError(f"{pattern!r} isn't shown in:\n{self.screen.text()}")
        return self.screen.text()

    def look(self) -> None:
        """Takes what has come meanwhile."""
        self._listen(0.01)

    def ends(self, seconds: float = SECONDS) -> int:
        """Waits for its end; gives its status."""
        until = time.monotonic() + seconds
        while self.status is None and self._listen(0.1):
            if time.monotonic() > until:
                raise AssertionError(f"it doesn't end:\n{self.screen.text()}")
        if self.status is None:
            self.status = os.waitstatus_to_exitcode(os.waitpid(self.pid, 0)[1])
        return self.status

    def close(self) -> None:
        if self.status is None:
            os.kill(self.pid, signal.SIGKILL)
            os.waitpid(self.pid, 0)
            self.status = -9
        os.close(self.end)


class Case(unittest.TestCase):
    def setUp(self) -> None:
        if WHY:
            self.skipTest(WHY)
        self.folder = tempfile.mkdtemp(prefix="tmhost-repl-test.")
        self.addCleanup(shutil.rmtree, self.folder)
        self.sheet = os.path.join(self.folder, "sheet")

    def make(self, tab: bool = False, *inputs: str) -> None:
        """A worksheet with the session `t`, and fields with these inputs."""
        with Worksheet(self.sheet, create=True, program=PROGRAM) as worksheet:
            worksheet.session("t", INTERPRETER, tab)
            for text in inputs:
                worksheet.new("t", text)

    def fields(self) -> List[Field]:
        """What the worksheet has. A program that was killed may hold it for a moment still."""
        return fields_of(self.sheet)

    def pairs(self) -> List[Tuple[str, Optional[str]]]:
        """Inputs and answers, in order."""
        return [(field.input, str(field.answer) if field.answer else None) for field in self.fields()]

    def pipe(self, text: Union[str, bytes], *words: str, **more: str) -> Tuple[int, str, str]:
        """Status, output and errors of the command in a pipe."""
        data = text.encode() if isinstance(text, str) else text
        command = [sys.executable, "-B", COMMAND, *words]
        done = subprocess.run(command, input=data, capture_output=True, env=environment(**more), timeout=300)
        return done.returncode, done.stdout.decode("utf-8", "backslashreplace"), done.stderr.decode("utf-8", "backslashreplace")

    def terminal(self, *words: str, columns: int = 80, input: Optional[str] = None, **more: str) -> Terminal:
        terminal = Terminal(list(words) or [self.sheet, "t"], columns, input, **more)
        self.addCleanup(terminal.close)
        return terminal
