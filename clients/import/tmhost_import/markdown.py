"""The fenced blocks of a CommonMark text, and the text between them."""
import dataclasses
import re

from tmhost_fences.blocks import Block, blocks_of
from tmhost_fences.front import Sessions as Words
from tmhost_fences.front import KEY_OF_MAPPING, SESSIONS, front_of, matter_end, sessions_meant, why_misspelt
from tmhost_fences.troubles import Trouble

from .cells import Cell, Document, plain, prose_cell
from .fences import lines_of
from .prose import REFERENCE
from .sessions import Sessions

NO_LANGUAGE = "blocks without a language"
SWITCHED_OFF = "blocks that aren't to be evaluated"
WHOLE = ("whole", "pure")  # words of tmhost-weave at a fence that is one field
ANSWERS = ("tmhost-answer", "tmhost-error", "tmhost-no-answer")  # blocks that tmhost-weave puts into a text
# What it puts around a formula and, with more on the line, around answers that are folded.
ANSWER_BEGINS, ANSWER_ENDS = "<!-- tmhost-answer -->", "<!-- /tmhost-answer -->"
NO_ANSWER = re.compile(r"\*no answer(?:: \w+)?\*")
FORMULA = re.compile(r"\$.*\$")
MOST_NAMED = 5  # fences, in a message


def without_answers(lines: list[str], first: int) -> list[str]:
    """The lines, of which the first has this number, without the answers that aren't in blocks."""
    kept, begun = list[str](), 0
    for number, line in enumerate(lines, first):
        mark = line.lstrip(" \t>").rstrip(" \t")
        begun = begun or (number if mark == ANSWER_BEGINS else 0)
        if not begun and not mark.startswith(ANSWER_BEGINS):
            kept.append(line)
        if mark == ANSWER_ENDS:
            begun = 0
    if begun:
        raise Trouble(f"line {begun} begins an answer that has no end")
    return kept


def reported_of(lines: list[int]) -> list[str]:
    """What is reported of fences that stand in these lines, from 1, and look like answers of an export: a text of an author's own may have such, too."""
    if not lines:
        return []
    are = "fence was taken for an answer" if len(lines) == 1 else "fences were taken for answers"
    left = "it is left out" if len(lines) == 1 else "they are left out"
    return [f"{len(lines)} {are} of an export, the first in line {lines[0]}: {left}, and the code before each is one field. A fence with a word, as ```text, isn't taken"]


class Reader:
    """Takes the fences of a text, and with prose the lines between them. What is no field stays in the text where it stands. Of a text for
    tmhost-weave the fences of its own sessions are code, and of those that are given. Of another one whose code is in chunks
    (`{r, echo=FALSE}`), as in knitr and Quarto, no other block is."""

    def __init__(self, text: str, given: Words, has_prose: bool, has_chunks: bool) -> None:
        self.lines, self.has_prose, self.has_chunks = lines_of(text), has_prose, has_chunks
        front = front_of(self.lines)
        meant = sessions_meant(self.lines, KEY_OF_MAPPING)
        if meant:
            raise Trouble(why_misspelt(meant, SESSIONS))
        self.is_whole = front.is_whole
        self.document = Document(words=front.sessions)
        self.sessions = Sessions({**front.sessions, **given}, True)
        self.own = {*front.sessions, *given} if front.sessions else None
        self.at = front.lines or self.other_matter()  # lines that are taken
        self.blocks = blocks_of(self.lines, self.at)
        if self.at and has_prose:
            self.document.left_out["lines of front matter"] += self.at
        self.answers = self.find_answers()

    def other_matter(self) -> int:
        end = matter_end(self.lines)
        return end if self.lines[1:2] != [""] else 0

    def cell_of(self, block: Block) -> Cell | None:
        """The cell of a block that is code by its first word, a language or a session."""
        name = block.info.name
        if not name or not block.is_evaluated:
            return None
        if (name not in self.own) if self.own is not None else (self.has_chunks and not block.info.is_chunk):
            return None
        code = "\n".join(block.content).rstrip("\n")
        is_whole = self.is_whole or bool(block.info.flags(WHOLE))
        return Cell(f"the block in line {block.begin + 1}", code, None, (name,), True, f"blocks of {plain(name)}", is_whole=is_whole)

    def is_field(self, block: Block) -> bool:
        cell = self.cell_of(block)
        return cell is not None and bool(self.sessions.choices(cell))

    # ---- answers of an export

    def one_line(self, number: int, form: re.Pattern[str]) -> bool:
        """Whether this line, from 1, has this form, and stands alone between empty lines."""
        line, *below = self.lines[number - 1 : number + 1] or [""]
        return form.fullmatch(line) is not None and not self.lines[number - 2] and not any(below)

    def answer_end(self, block: Block, blocks: dict[int, Block]) -> int | None:
        """The last line of the answer that stands after a field as `tmhost export markdown` writes it; none where there is no such answer."""
        at = block.end + 2
        if self.one_line(at, NO_ANSWER) or self.one_line(at, FORMULA):
            return at
        found = blocks.get(at - 1)
        if not found or found.info_text or not found.is_closed or self.lines[at - 2]:
            return None
        return found.end + 2 if self.one_line(found.end + 2, FORMULA) else found.end

    def shows_nothing(self, block: Block, blocks: dict[int, Block]) -> bool:
        """Whether this can be a field of an export whose answer shows nothing: the next field follows after an empty line, or the end."""
        following = blocks.get(block.end + 1)
        return not any(self.lines[block.end :]) or (not self.lines[block.end] and following is not None and self.is_field(following))

    def find_answers(self) -> dict[int, int]:
        """The last lines of the answers, by where their fields begin. There are some where each field has one, or shows nothing: then it is an export."""
        by_line = {block.begin: block for block in self.blocks}
        fields = [block for block in self.blocks if self.is_field(block)]
        ends = {block.begin: self.answer_end(block, by_line) for block in fields}
        found = {begin: end for begin, end in ends.items() if end is not None}
        silent = {block.begin: block.end for block in fields if block.begin not in found and self.shows_nothing(block, by_line)}
        if not found or len(found) + len(silent) < len(fields):
            return {}
        self.document.left_out["answers"] += len(found)
        self.document.notes += reported_of([block.end + 2 for block in self.blocks if block.end + 1 < found.get(block.begin, 0) and block.end + 1 in by_line])
        return found | silent

    # ---- cells

    def take_text(self, end: int) -> None:
        """Takes the lines up to this one, from 0."""
        lines = without_answers(self.lines[self.at : end], self.at + 1)
        while lines and not lines[0].strip():
            self.at += 1
            del lines[0]
        text = "\n".join(lines).rstrip()
        if text and self.has_prose:
            self.document.cells.append(prose_cell(f"the text from line {self.at + 1} on", text))

    def count(self, block: Block, cell: Cell | None) -> None:
        """Counts a block that is neither a field nor an answer where no text is taken."""
        if cell:
            self.document.cells.append(cell)
        elif not block.info.name:
            self.document.left_out[NO_LANGUAGE] += 1
        elif not block.is_evaluated:
            self.document.left_out[SWITCHED_OFF] += 1
        else:
            self.document.left_out[f"blocks of {plain(block.info.name)}"] += 1

    def take(self, block: Block) -> None:
        """Takes the text up to a fence that is a field or an answer, and that one. Others are text."""
        if block.begin < self.at:
            return
        cell, is_field = self.cell_of(block), self.is_field(block)
        if not is_field and block.info_text not in ANSWERS:
            if not self.has_prose:
                self.count(block, cell)
            return
        self.take_text(block.begin)
        self.at = self.answers.get(block.begin, block.end)
        if cell and is_field:
            is_export = block.begin in self.answers
            is_answered = is_export and not NO_ANSWER.fullmatch(self.lines[self.at - 1])
            self.document.cells.append(dataclasses.replace(cell, is_answered=is_answered, is_own=is_export))

    def read(self) -> Document:
        for block in self.blocks:
            self.take(block)
        self.take_text(len(self.lines))
        self.tell()
        return self.document

    def tell(self) -> None:
        texts = [cell.text for cell in self.document.cells if cell.is_prose]
        if len(texts) > 1 and any(REFERENCE.search(text) for text in texts):
            self.document.notes.append("a reference like [1] is known in the field of prose alone in which it is defined")
        if len(texts) == len(self.document.cells) and self.blocks and texts:
            names = ", ".join(dict.fromkeys(plain(block.info_text) or "without a word" for block in self.blocks[:MOST_NAMED]))
            self.document.notes.append(f"no fence is of a language or a session that is known, so all of it is prose. Fences: {names}")


def read(text: str, given: Words, has_prose: bool, has_chunks: bool = False) -> Document:
    """The blocks, and with prose the text between them."""
    return Reader(text, given, has_prose, has_chunks).read()
