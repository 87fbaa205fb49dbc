"""What is shown of an answer: its parts, in their forms."""
import re
from typing import List

from tmhost import Field

from .answers import ANSWER, ERROR, FORMULA, NO_ANSWER, PICTURE, Piece
from .formulas import parts_of
from .pictures import Pictures

ENDED = Piece(NO_ANSWER, "the interpreter ended")  # of code that was meant to end it
LONG_RUN = re.compile("`{255,}")  # cmark counts the backquotes of a fence up to 255, so a line of more would close any


def pieces_of(field: Field, is_in_container: bool, pictures: Pictures) -> List[Piece]:
    """What is shown of an answer: its formulas, its pictures, its errors, and its texts without the line feed at their ends. What shows nothing
    leaves nothing. In quotes and lists all is one text."""
    assert field.answer is not None
    parts = None if is_in_container else parts_of(field.answer.output)
    whole = [(field.answer.brief, ERROR if field.answer.errors else ANSWER)]
    return [Piece(PICTURE, pictures.add(text)) if kind == PICTURE else piece_of(text, kind) for text, kind in parts or whole if text.strip()]


def piece_of(text: str, kind: str) -> Piece:
    if kind == FORMULA:
        return Piece(FORMULA, text)
    text = LONG_RUN.sub(lambda found: "\\x60" * len(found[0]), text)
    return Piece(kind, text[:-1] if text.endswith("\n") else text)
