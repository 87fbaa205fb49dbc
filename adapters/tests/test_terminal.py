"""What terminal.py makes of texts, beside a small terminal that is written without a view to speed."""
import random
import re
import time
import unittest
from typing import Dict, List, Tuple

import terminal

# What programs write, and what is seen of it.
SEEN = [
    ("100%|####|\r 50%\x1b[K", " 50%"),
    (" 0%\r10%\r100%\ndone\n", "100%\ndone\n"),
    ("\x1b[31mred\x1b[0m \x1b[1;4mbold\x1b[m", "red bold"),
    ("\x1b[38;5;196mone\x1b[0m\r\ntwo\r\n", "one\ntwo\n"),
    ("abc\b\bX", "aXc"),
    ("working \b|\b/\b-\b\\", "working\\"),
    ("first\nsecond\x1b[A\r1st  \n2nd   \n", "1st\n2nd\n"),
    ("\x1b]0;a title\x07hi", "hi"),
    ("\x1b]8;;http://a.b/\x1b\\link\x1b]8;;\x1b\\", "link"),
    ("x\x1b(By\x1b[?25l", "xy"),
    ("old\n\x1b[H\x1b[2Jnew", "new"),
    ("waiting..\r          \rdone", "done"),
    ("a\tb\rXXXXX", "XXXXX   b"),
    ("\u4e2d\u6587\rab", "ab\u6587"),
    ("\u4e2d\u6587\ra", "a \u6587"),
    ("e\u0301a\rx", "xa"),
    ("a bell\x07 and \x02\x05", "a bell\x07 and \x02\x05"),
    ("an open \x1b]string", "an open string"),
    ("an end \x1b", "an end "),
    ("abcdef\x1b[4D\x1b[2P|", "ab|f"),
    ("ab\x1b[99999999999999999999Cx", "ab" + " " * (terminal.MARGIN - 2) + "x"),
]
PIECES = ["a", "bc", "def ", " ", "1234567890", "\r", "\b", "\b\b", "\n", "\x1b[K", "\x1b[1K", "\x1b[2K", "\x1b[J", "\x1b[1J", "\x1b[2J", "\x1b[A", "\x1b[2B", "\x1b[3C", "\x1b[D",
          "\x1b[5G", "\x1b[2;3H", "\x1b[H", "\x1b[P", "\x1b[2X", "\x1b[@", "\x1b[E", "\x1b[F", "\x1b[31m", "\x1b[0m", "\x1b]0;t\x07", "\x1b7", "\x1b8", "\x1b[?25h"]
LEAST = ["a", "bc", "12", "\r", "\b", "\n", "\x1b[K", "\x1b[32m"]  # as most programs have


class Reference:
    """A terminal, whose cells are each a place in a table."""

    def __init__(self) -> None:
        self.cells: Dict[Tuple[int, int], str] = {}
        self.row = self.column = self.rows = 0
        self.saved = (0, 0)

    def end_of(self, row: int) -> int:
        return max([column + 1 for at, column in self.cells if at == row], default=0)

    def go(self, row: int, column: int) -> None:
        self.row = min(max(row, 0), self.rows)
        self.column = max(0, min(column, max(terminal.MARGIN, self.end_of(self.row))))

    def character(self, one: str) -> None:
        if one == "\n":
            self.row, self.column = self.row + 1, 0
            self.rows = max(self.rows, self.row)
        elif one == "\r":
            self.column = 0
        elif one == "\b":
            self.column = max(0, self.column - 1)
        else:
            self.cells[self.row, self.column] = one
            self.column += 1

    def erase(self, is_erased: "set[Tuple[int, int]]") -> None:
        self.cells = {place: one for place, one in self.cells.items() if place not in is_erased}

    def shift(self, letter: str, count: int) -> None:
        row = [self.cells.get((self.row, column), " ") for column in range(self.end_of(self.row))]
        self.erase({place for place in self.cells if place[0] == self.row})
        here = self.column
        if letter == "P":
            del row[here:here + count]
        elif letter == "@" and here < len(row):
            row[here:here] = " " * count
        elif letter == "X":
            row[here:here + count] = " " * len(row[here:here + count])
        self.cells.update({(self.row, column): one for column, one in enumerate(row)})

    def sequence(self, letter: str, numbers: List[int]) -> None:
        count, row, column = max(1, numbers[0]), self.row, self.column
        if letter in "ABCDEFGH":
            second = max(1, numbers[1]) if len(numbers) > 1 else 1
            self.go(*{"A": (row - count, column), "B": (row + count, column), "C": (row, column + count), "D": (row, column - count),
                      "E": (row + count, 0), "F": (row - count, 0), "G": (row, count - 1), "H": (count - 1, second - 1)}[letter])
        elif letter in "JK":
            order = [place for place in self.cells if letter == "J" or place[0] == row]
            before = {place for place in order if place <= (row, column)}
            after = {place for place in order if place >= (row, column)}
            self.erase(after if numbers[0] == 0 else before if numbers[0] == 1 else before | after)
            if letter == "J" and numbers[0] != 1:
                self.rows = row
        elif letter in "P@X":
            self.shift(letter, count)

    def write(self, piece: str) -> None:
        found = re.fullmatch(r"\x1b\[([\d;]*)([A-Z@])", piece)
        if found:
            self.sequence(found[2], [int(number or 0) for number in found[1].split(";")])
        elif piece == "\x1b7":
            self.saved = (self.row, self.column)
        elif piece == "\x1b8":
            self.go(*self.saved)
        elif not piece.startswith("\x1b"):
            for one in piece:
                self.character(one)

    def text(self) -> str:
        return "\n".join("".join(self.cells.get((row, column), " ") for column in range(self.end_of(row))) for row in range(self.rows + 1))


def seen(text: str) -> str:
    """What nobody can see is left out: blanks at the ends of lines, and empty lines at the end."""
    return "\n".join(line.rstrip(" ") for line in text.split("\n")).rstrip("\n")


class Folding(unittest.TestCase):
    def test_what_programs_write(self) -> None:
        for written, wanted in SEEN:
            with self.subTest(written):
                self.assertEqual(terminal.folded(written), wanted)

    def test_a_text_without_such_bytes_is_unchanged(self) -> None:
        rng = random.Random(1)
        for _ in range(3_000):
            data = bytes(one for one in rng.choices(range(256), k=rng.randrange(60)) if one not in b"\r\b\x1b")
            self.assertEqual(terminal.folded_bytes(data), data)

    def test_a_stream_of_writes_is_what_a_terminal_shows(self) -> None:
        rng = random.Random(2)
        for number in range(8_000):
            pieces = rng.choices(PIECES if number % 2 else LEAST, k=rng.randrange(1, 25))
            reference = Reference()
            for piece in pieces:
                reference.write(piece)
            self.assertEqual(seen(terminal.folded("".join(pieces))), seen(reference.text()), pieces)

    def test_what_is_folded_has_nothing_more_to_fold(self) -> None:
        rng = random.Random(3)
        for _ in range(3_000):
            data = bytes(rng.choices(b"ab\n\r\b\x1b[K;3Jm]\x07\\\xc3\xa4\xff\t P", k=rng.randrange(40)))
            folded = terminal.folded_bytes(data)
            self.assertNotRegex(folded, b"[\r\b\x1b]")
            self.assertEqual(terminal.folded_bytes(folded), folded)

    def test_long_ones_take_a_moment(self) -> None:
        bar = "\r".join(f"{number / 1000:.1f}% |{'#' * (number // 2000):50}|" for number in range(100_000))
        coloured = "a\x1b[01;31m\x1b[Kbc\x1b[m\x1b[K\n" * 200_000
        far = "\x1b[9999C\n\x1b[9999;9999Hx" * 20_000
        begun = time.process_time()
        self.assertEqual(terminal.folded(bar), f"100.0% |{'#' * 49:50}|")
        self.assertEqual(terminal.folded(coloured), "abc\n" * 200_000)
        self.assertLess(len(terminal.folded(far)), 20 * len(far))
        self.assertLess(time.process_time() - begun, 30)
