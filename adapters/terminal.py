"""A text as a terminal shows it at last: without colours, and with what was written over what, as progress bars do.

The terminal has as many lines and columns as the text wants, so it wraps nothing. It knows carriage returns, backspaces, and the
sequences of ECMA-48 that move the cursor, insert and erase. Every other sequence is dropped. A text without such bytes stays as it is.
"""
import re
import unicodedata
from typing import Callable, Dict, List, Tuple, Union

MARGIN = 80  # columns that the cursor reaches where nothing stands
TAB = 8  # columns between two stops
MOVES = re.compile(r"[\r\b\x1b]")
SEQUENCE = (
    r"\x1b\[(?P<numbers>[0-?]*)[ -/]*(?P<command>[@-~])"  # of control
    r"|\x1b[\]PX^_][^\x07\x1b]*(?:\x07|\x1b\\)"  # a string, as a window's title or a link
    r"|\x1b[ -/]*(?P<short>[0-~])"
    r"|\x1b"
)
WITHOUT_MOVES = re.compile(r"\x1b\[[0-?]*[ -/]*m|\r+(?=\n)|\r+\Z")  # colours, and carriage returns at the end of a line
TOKEN = re.compile(SEQUENCE + r"|(?P<control>[\r\b\n])|[^\x1b\r\b\n]+")
BETWEEN_LINES = re.compile(r"\x1b(?:[78M]|\[[\d;]*[ABEFJHdfsu])")
PLAIN = r"[ -~\u00a0-\u02ff\u2190-\u2319\u2500-\u25fc\u2800-\u28ff]"  # a column each, as in bars
BAR = re.compile(rf"(?:{PLAIN}|\r|\x1b\[0?K)*")
LONGEST_BAR = 4_096
ERASES_AFTER = re.compile(r"\x1b\[0?K")  # nothing, where the cursor is at the end

Cells = List[str]  # what stands in each column of a line; what is wider than one is followed by empty ones


def width(character: str) -> int:
    """How many columns a character takes."""
    if character < "\u0300":
        return 1
    if unicodedata.combining(character) or unicodedata.category(character) in ("Mn", "Me", "Cf"):
        return 0
    return 2 if unicodedata.east_asian_width(character) in "WF" else 1


class Line:
    """A line that is written over."""

    def __init__(self, text: str) -> None:
        self.cells: Cells = []
        self.is_changed = False
        self.append(text)

    def append(self, text: str) -> None:
        for character in text:
            columns = TAB - len(self.cells) % TAB if character == "\t" and len(self.cells) < MARGIN else width(character)
            if columns or not self.cells:
                self.cells += [character, *[""] * (columns - 1)]
            else:
                self.combine(len(self.cells), character)

    def combine(self, column: int, character: str) -> None:
        """Puts a character without a width to the one before it."""
        while column > 1 and not self.cells[column - 1]:
            column -= 1
        self.cells[column - 1] += character

    def part(self, column: int) -> None:
        """Takes apart what stands on both sides of a place, as a tab does: it is blank then."""
        if not 0 < column < len(self.cells) or self.cells[column]:
            return
        start, end = column, column
        while start and not self.cells[start]:
            start -= 1
        while end < len(self.cells) and not self.cells[end]:
            end += 1
        self.cells[start:end] = " " * (end - start)

    def put(self, column: int, new: Cells, replaced: int) -> None:
        """Puts cells in the place of some others."""
        self.is_changed = True
        if column > len(self.cells):
            self.cells += " " * (column - len(self.cells))
        self.part(column)
        self.part(column + replaced)
        self.cells[column:column + replaced] = new

    def write(self, column: int, text: str) -> int:
        """Writes a text over what stands at a column, and tells where it ends."""
        for piece in re.findall(r"\t|[^\t]+", text):
            if piece == "\t":
                stop = column + (TAB - column % TAB if column < MARGIN else 1)
                if stop > len(self.cells):
                    self.part(column)
                    self.cells += " " * (stop - len(self.cells))
                column = stop
                continue
            line = Line(piece)
            self.put(column, line.cells, len(line.cells))
            column += len(line.cells)
        return column

    def __str__(self) -> str:
        text = "".join(self.cells)
        return text.rstrip(" ") if self.is_changed else text


class Screen:
    """What is seen of a text."""

    def __init__(self) -> None:
        self.lines: List[Union[str, Line]] = [""]
        self.row = self.column = 0
        self.is_erased = False
        self.saved = (0, 0)
        self.shorts: Dict[str, Callable[[], None]] = {"7": self.save, "8": self.restore, "M": lambda: self.go(self.row - 1, self.column)}

    # ---- lines

    def line(self) -> Line:
        """The line of the cursor, for a change."""
        one = self.lines[self.row]
        if isinstance(one, str):
            one = self.lines[self.row] = Line(one)
        return one

    def length(self) -> int:
        one = self.lines[self.row]
        return len(self.line().cells) if isinstance(one, str) else len(one.cells)

    def write(self, text: str) -> None:
        one = self.lines[self.row]
        if isinstance(one, str) and not one and not self.column:
            self.lines[self.row] = text
            self.column = -1  # its end
            return
        self.column = self.line().write(self.at(), text)

    def at(self) -> int:
        """The column of the cursor."""
        if self.column < 0:
            self.column = self.length()
        return self.column

    def go(self, row: int, column: int) -> None:
        """Moves the cursor, no farther than to the last line, and not beyond the margin where nothing stands."""
        self.row = max(0, min(row, len(self.lines) - 1))
        self.column = max(0, column if column <= MARGIN else min(column, max(MARGIN, self.length())))

    def feed(self) -> None:
        self.row += 1
        self.column = 0
        if self.row == len(self.lines):
            self.lines.append("")

    def save(self) -> None:
        self.saved = (self.row, self.at())

    def restore(self) -> None:
        self.go(*self.saved)

    # ---- what a token does

    def control(self, character: str) -> None:
        if character == "\n":
            self.feed()
        elif character == "\r":
            self.column = 0
        else:
            self.column = max(0, self.at() - 1)

    def command(self, letter: str, numbers: str) -> None:
        """A sequence of control."""
        given = [int(number[:6]) if number.isdigit() else 0 for number in numbers.split(";")]
        first, count, column = given[0], max(1, given[0]), self.at()
        moves: Dict[str, Tuple[int, int]] = {
            "A": (self.row - count, column), "B": (self.row + count, column), "C": (self.row, column + count), "D": (self.row, column - count),
            "E": (self.row + count, 0), "F": (self.row - count, 0), "G": (self.row, count - 1), "`": (self.row, count - 1), "d": (count - 1, column),
            "H": (count - 1, max(1, *given[1:2], 1) - 1), "f": (count - 1, max(1, *given[1:2], 1) - 1)}
        if numbers[:1] in ("?", ">", "<", "="):
            return
        if letter in moves:
            self.go(*moves[letter])
        elif letter in "su":
            self.save() if letter == "s" else self.restore()
        elif letter in "KJ":
            self.erase(letter, first)
        elif letter in "P@X":
            self.shift(letter, count)

    def erase(self, letter: str, what: int) -> None:
        """Erases the line or all, after the cursor, before it, or both."""
        line, column = self.line(), self.at()
        if what == 0 or what >= 2:
            line.put(column, [], max(0, len(line.cells) - column))
        if what >= 1:
            line.put(0, [" "] * min(column + 1, len(line.cells)), column + 1)
        if letter == "K":
            return
        self.is_erased = True
        if what == 0 or what >= 2:
            del self.lines[self.row + 1:]
        if what >= 1:
            self.lines[:self.row] = [""] * self.row

    def shift(self, letter: str, count: int) -> None:
        """Takes characters away at the cursor, puts blanks there, or erases them."""
        line, column = self.line(), self.at()
        left = max(0, len(line.cells) - column)
        if letter == "@":
            line.put(column, [" "] * min(count, MARGIN) if left else [], 0)
        else:
            line.put(column, [" "] * min(count, left) if letter == "X" else [], min(count, left))

    def text(self) -> str:
        shown = "\n".join(map(str, self.lines))
        return shown.rstrip("\n") if self.is_erased else shown


def drawn(text: str) -> str:
    """One or more lines as they are seen in the end."""
    if not MOVES.search(text):
        return text
    screen = Screen()
    for token in TOKEN.finditer(text):
        if token["control"]:
            screen.control(token["control"])
        elif token["command"]:
            screen.command(token["command"], token["numbers"])
        elif token["short"]:
            screen.shorts.get(token["short"], lambda: None)()
        elif not token[0].startswith("\x1b"):
            screen.write(token[0])
    return screen.text()


def bar(states: List[str]) -> str:
    """What is seen of a bar, each of whose states is written over the one before it."""
    seen = ""
    for state in states:
        first, *after = ERASES_AFTER.split(state)
        seen = first + ("" if after else seen[len(first):])
        seen += "".join(after)
    return seen.rstrip(" ")


def folded_line(line: str) -> str:
    """A line that no other one writes over."""
    if "\r" not in line and "\b" not in line:
        bare = ERASES_AFTER.sub("", line)
        if "\x1b" not in bare:
            return bare
    elif "\b" not in line and BAR.fullmatch(line):
        states = line.split("\r")
        if max(map(len, states)) <= LONGEST_BAR:
            return bar(states)
    return drawn(line)


def folded(text: str) -> str:
    """A text as a terminal shows it at last."""
    if not MOVES.search(text):
        return text
    text = WITHOUT_MOVES.sub("", text)
    return drawn(text) if BETWEEN_LINES.search(text) else "\n".join(map(folded_line, text.split("\n")))


def folded_bytes(text: bytes) -> bytes:
    """The same of bytes, of which some may be no UTF-8."""
    if not re.search(rb"[\r\b\x1b]", text):
        return text
    return folded(text.decode("utf-8", "surrogateescape")).encode("utf-8", "surrogateescape")
