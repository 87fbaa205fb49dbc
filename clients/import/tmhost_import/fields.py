"""The fields that cells become, and the script that makes them."""
import dataclasses
import os
import sys
from collections.abc import Iterator

from tmhost_fences import ipython
from tmhost_fences.fields import CONTROL, LINE_END, LONGEST_INPUT, SURROGATE, groups
from tmhost_fences.troubles import Trouble

from . import cutting
from .cells import Cell, Document, fenced, plain, prose_cell
from .prose import WORDS, parts_of, size_of
from .sessions import COMMAND, Sessions, language_of

MOST_FIELDS = 10_000
MOST_REPORTED = 10  # troubles, and cells that were too long
PYTHON = "python"


@dataclasses.dataclass(frozen=True)
class Field:
    session: str
    input: str
    place: str


@dataclasses.dataclass(frozen=True)
class Piece:
    """What may become a field: its text, and its place in the document."""

    place: str
    text: str


@dataclasses.dataclass(frozen=True)
class Lost:
    """Code that can't be cut into pieces that fields can hold: its place in the document, and its size."""

    place: str
    size: str

    def reported(self, what: str) -> str:
        return f"{self.place} {what}, since a statement of it is too long: it has {self.size}"


def too_long(text: str) -> str:
    return f"{size_of(text):,} bytes as an input, and a field has at most {LONGEST_INPUT:,}"


def misfit(lines: list[str]) -> str | None:
    """Why no field can have these lines as its input."""
    for number, line in enumerate(lines, 1):
        where = f" in line {number} of {len(lines)}" if len(lines) > 1 else ""
        if found := CONTROL.search(line):
            return f"no field can hold the control character U+{ord(found[0]):04X}{where}"
        if found := SURROGATE.search(line):
            return f"U+{ord(found[0]):04X}{where} is half of a character"
    return None


def reported(lines: list[str]) -> list[str]:
    more = len(lines) - MOST_REPORTED
    return [*lines[:MOST_REPORTED], *([f"and {more} more like these"] if more > 0 else [])]


class Sheet:
    """The worksheet that a document becomes. It is made whole or not at all. `is_split` says whether a cell is one field or several, where it
    isn't as its document has it."""

    def __init__(self, document: Document, given: dict[str, tuple[str, ...]], is_split: bool | None = None, has_prose: bool = False) -> None:
        self.sessions, self.is_split, self.has_prose = Sessions(given, has_prose), is_split, has_prose
        self.fields: list[Field] = []
        self.cuts = 0  # texts of prose that became several fields
        self.long: list[str] = []  # what is reported of cells that no field could hold
        self.lost: list[Lost] = []
        self.troubles: list[str] = []
        self.unknown: set[str] = set()  # sessions for which there is no interpreter
        self.left_out = document.left_out.copy()
        for cell in document.cells:
            self.add(cell)
        if self.troubles:
            raise Trouble(*reported(self.troubles))

    def add(self, cell: Cell) -> None:
        """Adds the fields of a cell, or says why there is none."""
        try:
            session = self.sessions.of_cell(cell)
        except Trouble as trouble:
            raise Trouble(f"{cell.place}: {trouble}") from trouble
        if session is None and cell.is_optional:
            self.left_out[f"{cell.kind}, for which there is no session"] += 1
        elif session is None:
            self.miss(cell.place, plain(cell.session or cell.hints[0]))
        elif self.language(session) == PYTHON and not cell.is_own:
            self.add_python(cell, session)
        else:
            self.add_fields(cell, session)

    def miss(self, place: str, session: str) -> None:
        """Says once of a session that there is no interpreter for it."""
        if session not in self.unknown:
            self.unknown.add(session)
            self.troubles.append(f"{place}: no interpreter is known for its session: say --session '{session}=WORDS'")

    def language(self, session: str) -> str:
        """The language of a session's interpreter by its words, of which an adapter's last path, or a profile, says it; else the last one."""
        names = [os.path.basename(word).removeprefix(COMMAND) for word in self.sessions.words[session]]
        return next((found for name in names if (found := language_of(name)) == name), names[-1])

    def add_python(self, cell: Cell, session: str) -> None:
        """Adds a cell without what of it is IPython's: the adapter for Python isn't IPython, and would refuse all of the cell."""
        made = ipython.plain_python(cell.text)
        self.left_out.update(f"lines {plain(ipython.beginning(line))}" for line in made.left_out)
        if made.other and self.has_prose:
            self.add(prose_cell(cell.place, fenced(cell.text, PYTHON)))
        elif made.other:
            self.left_out[f"cells {plain(made.other)}"] += 1
        elif made.code.strip() or not made.left_out:
            self.add_fields(dataclasses.replace(cell, text=made.code), session)

    def pieces_of(self, cell: Cell, session: str) -> Iterator[Piece]:
        """What a cell becomes, where fields can hold that."""
        is_split = not cell.is_whole if self.is_split is None else self.is_split
        if cell.is_prose:
            yield from (Piece(cell.place, part) for part in parts_of(cell.text))
        elif is_split and not cell.is_own and self.sessions.words[session] != WORDS:
            for group in groups(cell.text.split("\n"), self.language(session), sys.maxsize):
                yield Piece(f"{cell.place}, its line {group.at + 1}", group.input.replace(LINE_END, "\n"))
        else:
            yield Piece(cell.place, cell.text)

    def parts_of(self, cell: Cell, piece: Piece, session: str) -> list[str]:
        """What fields can hold of a piece: all of it, cut between statements where it is too long, or nothing. Of the two latter it tells."""
        if size_of(piece.text) <= LONGEST_INPUT:
            return [piece.text]
        if cell.is_prose:
            self.long.append(f"{piece.place} is left out: a paragraph, an item or a fence of it has {too_long(piece.text)}")
            return []
        parts = cutting.cut(piece.text, self.language(session)) or []
        if parts:
            self.long.append(f"{piece.place} is cut between statements into {len(parts)} fields: it has {too_long(piece.text)}")
        else:
            self.lost.append(Lost(piece.place, too_long(piece.text)))
        return parts

    def add_fields(self, cell: Cell, session: str) -> None:
        pieces = list(self.pieces_of(cell, session))
        self.cuts += cell.is_prose and len(pieces) > 1
        parts = [(piece.place, self.parts_of(cell, piece, session)) for piece in pieces]
        # Of code all or nothing: what stands after a statement may need it.
        if cell.is_prose or all(found for _, found in parts):
            for place, found in parts:
                for part in found:
                    self.add_field(session, part, place)

    def add_field(self, session: str, text: str, place: str) -> None:
        if len(self.fields) == MOST_FIELDS:
            raise Trouble(f"{place}: a worksheet has at most {MOST_FIELDS:,} fields, and this is one more")
        lines = text.split("\n")
        if reason := misfit(lines):
            self.troubles.append(f"{place}: {reason}")
        self.fields.append(Field(session, LINE_END.join(lines), place))

    def count_of_many_lines(self) -> int:
        return sum(LINE_END in field.input for field in self.fields)

    def script(self) -> list[str]:
        """The lines that make the worksheet out of an empty one, as `tmhost export script` writes them."""
        lines = [f"session {name} plain {' '.join(words)}" for name, words in self.sessions.words.items()]
        return lines + [f"new {after} {field.session} {field.input}" for after, field in enumerate(self.fields)]

    def replies(self) -> list[str]:
        """What the program tells of these lines."""
        return ["ok"] * len(self.sessions.words) + [f"field {number}" for number in range(1, len(self.fields) + 1)]

    def place_of_line(self, number: int) -> str:
        """The place in the document of what a line of the script makes."""
        at = number - 1 - len(self.sessions.words)
        return self.fields[at].place if 0 <= at < len(self.fields) else "its sessions"
