"""What is shown of an answer that is long: its beginning, and how much is left out. The worksheet has all that its adapter gave."""
import re
from typing import List, Tuple

from .answers import ANSWER, ERROR, PICTURE, Piece

LONGEST = 100_000  # bytes of an answer's text that are shown, where nobody says how many
NOTE = "[{:,} bytes are left out here by tmhost-weave]"
MARK = re.compile(r"^\[[0-9]+ bytes more\]$", re.MULTILINE)  # a line of an adapter, which has cut what its interpreter wrote


def size_of(text: str) -> int:
    return len(text.encode("utf-8", "surrogatepass"))


def beginning(text: str, most: int) -> str:
    """At most so many bytes of a text, up to the end of a line where one ends near there."""
    found = text.encode("utf-8", "surrogatepass")[:most].decode("utf-8", "ignore")
    end = found.rfind("\n")
    return found[:end] if 4 * end >= 3 * len(found) > 0 else found


def without_mark(piece: Piece) -> Tuple[str, List[str]]:
    """The text of a piece without the last line by which its adapter says how much it has left out itself, and that line, where there is one."""
    found = [] if piece.kind == PICTURE else list(MARK.finditer(piece.text))[-1:]
    if not found:
        return piece.text, []
    return piece.text[: found[0].start()].removesuffix("\n") + piece.text[found[0].end() :], [found[0][0]]


def noted(text: str, left_out: int, marks: List[str]) -> str:
    """What is shown of a text, how much weave leaves out, and what adapters left out before."""
    return "\n".join([*([text] if text else []), NOTE.format(left_out), *marks])


def cut(pieces: List[Piece], longest: int) -> Tuple[List[Piece], int]:
    """The pieces with at most so many bytes of texts and formulas, and how many are left out. Each error has as many for itself, so that what was printed
    before it never hides it. Marks of adapters count as no bytes, and stay."""
    found: List[Piece] = []
    rest, shown, left_out, note = longest, "", 0, -1
    in_errors = 0
    marks: List[str] = []
    for piece in pieces:
        text, own = without_mark(piece)
        size = size_of(text)
        if piece.kind == PICTURE or (piece.kind == ERROR and size <= longest):
            found.append(piece)
        elif piece.kind == ERROR:
            part = beginning(text, longest)
            found.append(Piece(ERROR, noted(part, size - size_of(part), own)))
            in_errors += size - size_of(part)
        elif note < 0 and size <= rest:
            found.append(piece)
            rest -= size
        elif note < 0:
            # A part of a formula is none, so it stands as text.
            note, shown, marks = len(found), beginning(text, rest), own
            left_out = size - size_of(shown)
            found.append(Piece(ANSWER, ""))
        else:
            left_out += size
            marks = marks + own
    if note >= 0:
        found[note] = Piece(ANSWER, noted(shown, left_out, marks))
    return found, left_out + in_errors
