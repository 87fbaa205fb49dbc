"""The forms in which answers stand in a text: how they are written, and how they are found again."""
import dataclasses
import re
from typing import Any, List, Optional, Sequence, Tuple

from tmhost_fences.troubles import Trouble

ANSWER, ERROR, NO_ANSWER, FORMULA, PICTURE = "tmhost-answer", "tmhost-error", "tmhost-no-answer", "formula", "picture"
FORMULA_BEGINS, FORMULA_ENDS = "<!-- tmhost-answer -->", "<!-- /tmhost-answer -->"
# A remark in front, since a block of HTML that begins with one ends on its line, without an empty line after it.
FOLD_BEGINS = "<!-- tmhost-answer --><details><summary>Answer</summary>"
FOLD_ENDS = "<!-- tmhost-answer --></details>"
RUN = re.compile("`+")
SHOWN = re.compile(r"!\[\]\(([^()\s]+)\)")  # a picture in Markdown


@dataclasses.dataclass(frozen=True)
class Piece:
    """An answer or a part of it, or why there is none; `kind` is one of the five above. The text of a picture is where its file is."""

    kind: str
    text: str


@dataclasses.dataclass(frozen=True)
class Shown:
    """What stands after a fence. `is_left` is whether that stays as it stands, in each byte."""

    pieces: Tuple[Piece, ...] = ()
    is_folded: bool = False
    is_left: bool = dataclasses.field(default=False, compare=False)

    @property
    def answers(self) -> int:
        """How many of the pieces are answers, and no reasons why there is none."""
        return sum(piece.kind != NO_ANSWER for piece in self.pieces)


def longest_run(text: str) -> int:
    return max((len(run) for run in RUN.findall(text)), default=0)


def is_of_an_answer(info: str) -> bool:
    return info.strip() in (ANSWER, ERROR, NO_ANSWER)


def fenced(piece: Piece) -> List[str]:
    mark = "`" * max(3, longest_run(piece.text) + 1)
    return [mark + piece.kind, *piece.text.split("\n"), mark]


def blocks_of(shown: Shown) -> List[List[str]]:
    """The lines of each block of Markdown that is put after a fence."""
    blocks: List[List[str]] = []
    for piece in shown.pieces:
        if piece.kind in (FORMULA, PICTURE):
            blocks += [[FORMULA_BEGINS], [piece.text if piece.kind == FORMULA else f"![]({piece.text})"], [FORMULA_ENDS]]
        else:
            blocks.append(fenced(piece))
    return [[FOLD_BEGINS], *blocks, [FOLD_ENDS]] if shown.is_folded and blocks else blocks


def lines_of(shown: Shown, prefix: str, is_in_container: bool) -> List[str]:
    """These lines after the marks of the quotes and lists in which the fence stands. There, no empty line is put between blocks, since it
    would make a tight list a loose one."""
    lines: List[str] = []
    for block in blocks_of(shown):
        lines += ([] if is_in_container else [""]) + [(prefix + line).rstrip() if not line else prefix + line for line in block]
    return lines


class Finder:
    """Takes what an earlier weave put after a fence, from the tokens of a parser on."""

    def __init__(self, tokens: Sequence[Any], at: int, end: int, lines: List[str], first_line: int) -> None:
        self.tokens, self.at = tokens, at
        self.end = end  # the line after what was taken
        self.lines, self.first_line = lines, first_line

    def look(self, type: str) -> Optional[Any]:
        """The next block, where it has this type and nothing but empty lines is in front of it. References have no token, so it is looked at
        the lines."""
        token = self.tokens[self.at] if self.at < len(self.tokens) else None
        if token is None or token.type != type or token.map is None:
            return None
        return None if any(line.strip(" \t>") for line in self.lines[self.end : token.map[0]]) else token

    def take(self, token: Any, tokens: int = 1) -> None:
        self.at, self.end = self.at + tokens, token.map[1]

    def refuse(self, token: Any) -> Trouble:
        return Trouble(
            f"line {token.map[0] + 1 + self.first_line} begins an answer, but what follows isn't as tmhost-weave writes it: "
            "remove the answer, or mend it"
        )

    def mark(self, text: str) -> Optional[Any]:
        token = self.look("html_block")
        return token if token and token.content.strip() == text else None

    def answer(self) -> Optional[Piece]:
        """An answer in its fence. One that has lost its end takes in the beginning of the next fence, which no answer in its fence can hold."""
        token = self.look("fence")
        if token is None or not is_of_an_answer(token.info):
            return None
        lines = token.map[1] - token.map[0] - 2
        is_closed = lines == token.content.count("\n")
        if not is_closed or token.markup[0] != "`" or longest_run(token.content) >= len(token.markup):
            raise self.refuse(token)
        self.take(token)
        return Piece(token.info.strip(), token.content[:-1])

    def formula(self) -> Optional[Piece]:
        begin = self.mark(FORMULA_BEGINS)
        if not begin:
            return None
        self.take(begin)
        paragraph = self.look("paragraph_open")
        if not paragraph or paragraph.map[1] - paragraph.map[0] != 1:
            raise self.refuse(begin)
        text = str(self.tokens[self.at + 1].content)
        self.take(paragraph, 3)
        end = self.mark(FORMULA_ENDS)
        if not end:
            raise self.refuse(begin)
        self.take(end)
        picture = SHOWN.fullmatch(text)
        return Piece(PICTURE, picture[1]) if picture else Piece(FORMULA, text)

    def pieces(self) -> List[Piece]:
        found: List[Piece] = []
        piece = self.answer() or self.formula()
        while piece:
            found.append(piece)
            piece = self.answer() or self.formula()
        return found

    def shown(self) -> Shown:
        """All that stands after the fence. What isn't folded comes in front of a fold or without one."""
        begin = self.mark(FOLD_BEGINS)
        if begin:
            self.take(begin)
        pieces = self.pieces()
        if begin:
            end = self.mark(FOLD_ENDS)
            if not end:
                raise self.refuse(begin)
            self.take(end)
        return Shown(tuple(pieces), begin is not None)
