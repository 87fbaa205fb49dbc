"""What `tmhost export notebook` and `tmhost export markdown` wrote, with its prose as prose and all else byte for byte.

A field of prose has a session of prose by its name, and no answer: exports have no words of sessions. In a notebook an answer that shows nothing is
as none.
"""
import dataclasses
import json
import re
from collections.abc import Callable

from tmhost_fences.troubles import Trouble

from .fences import fences_of
from .prose import REFERENCE, open_end

IsProse = Callable[[str], bool]

STRING = rb'"((?:[^"\\]|\\.)*)"'
# A cell without outputs. In a text of JSON each quote has a backslash in front of it, so this stands at a cell and nowhere else.
CELL = re.compile(
    rb'\{"cell_type":"code","execution_count":null,"id":(?P<id>' + STRING + rb'),"metadata":(?P<about>\{"tmhost":\{"session":"(?P<session>[\w-]*)"\}\}),'
    rb'"outputs":\[\],"source":(?P<source>' + STRING + rb")\}"
)
FENCE = re.compile(r"(`{3,})([^`]*)")
NO_ANSWER = re.compile(r"\*no answer(?:: \w+)?\*")
FORMULA = "$"


@dataclasses.dataclass
class Made:
    """The text with its prose, how many fields are prose now, and which stay as they are, each with its place and the reason."""

    data: bytes
    count: int = 0
    left: list[str] = dataclasses.field(default_factory=list)


# ---- a notebook


def fields_of_prose(data: bytes, is_prose: IsProse) -> int:
    """How many cells of a notebook are fields of prose, as a reader of JSON sees them."""
    try:
        cells = json.loads(data)["cells"]
        return sum(cell["cell_type"] == "code" and not cell["outputs"] and is_prose(cell["metadata"]["tmhost"]["session"]) for cell in cells)
    except (ValueError, KeyError, TypeError, RecursionError) as error:
        raise Trouble("it is no notebook that tmhost export wrote") from error


def notebook_with_prose(data: bytes, is_prose: IsProse) -> Made:
    count = 0

    def cell(found: re.Match[bytes]) -> bytes:
        nonlocal count
        if not is_prose(found["session"].decode("ascii")):
            return found[0]
        count += 1
        return b'{"cell_type":"markdown","id":' + found["id"] + b',"metadata":' + found["about"] + b',"source":' + found["source"] + b"}"

    made = CELL.sub(cell, data)
    if count != fields_of_prose(data, is_prose):
        raise Trouble("it isn't as tmhost export notebook writes it: another program has written it since")
    return Made(made, count)


# ---- Markdown


@dataclasses.dataclass(frozen=True)
class Field:
    """A field of a text: its lines are `begin` up to `end`, from 0, and its input is `input`."""

    session: str
    input: str
    begin: int
    end: int
    is_answered: bool
    formula: str  # that stands there as it is, or nothing


class Reader:
    """Takes the fields of a text that `tmhost export markdown` wrote."""

    def __init__(self, lines: list[str]) -> None:
        self.lines, self.at = lines, 0

    def refuse(self) -> Trouble:
        return Trouble(f"line {self.at + 1}: it isn't as tmhost export markdown writes it")

    def line(self) -> str:
        """The line that comes next; nothing at the end."""
        return self.lines[self.at] if self.at < len(self.lines) else ""

    def fence(self) -> tuple[str, str]:
        """Takes a block: what stands at its first fence, and its text."""
        begin, found = self.at, FENCE.fullmatch(self.line())
        if not found:
            raise self.refuse()
        try:
            end = self.lines.index(found[1], begin + 1)
        except ValueError as error:
            raise self.refuse() from error
        self.at = end + 1
        return found[2], "\n".join(self.lines[begin + 1 : end])

    def blank(self) -> None:
        if self.at >= len(self.lines) or self.line():
            raise self.refuse()
        self.at += 1

    def formula(self) -> str:
        """Takes a formula, where one comes next."""
        line = self.line()
        self.at += line.startswith(FORMULA)
        return line if line.startswith(FORMULA) else ""

    def shows_nothing(self) -> bool:
        """Whether nothing stands after an input, whose answer shows nothing then: the next field follows, or the end."""
        if self.at >= len(self.lines):
            return True
        blank, following, *_ = [*self.lines[self.at : self.at + 2], ""]
        found = FENCE.fullmatch(following)
        return not blank and found is not None and found[2] != ""

    def answer(self) -> tuple[bool, str]:
        """Takes what stands after an input: whether it is an answer, and the formula in it."""
        if NO_ANSWER.fullmatch(self.line()):
            self.at += 1
            return False, ""
        if formula := self.formula():
            return True, formula
        if self.fence()[0]:
            raise self.refuse()
        if self.at + 1 < len(self.lines) and self.lines[self.at + 1].startswith(FORMULA):
            self.blank()
            return True, self.formula()
        return True, ""

    def field(self) -> Field:
        begin = self.at
        session, given = self.fence()
        if not session:
            raise self.refuse()
        if self.shows_nothing():
            return Field(session, given, begin, self.at, True, "")
        self.blank()
        is_answered, formula = self.answer()
        return Field(session, given, begin, self.at, is_answered, formula)

    def fields(self) -> list[Field]:
        found: list[Field] = []
        while self.at < len(self.lines):
            if found:
                self.blank()
            found.append(self.field())
        return found


def why_code(field: Field, formulas: list[str]) -> str | None:
    """Why a field of prose stays in its fence: what an interpreter wrote might become a part of it."""
    if REFERENCE.search(field.input) and any("[" in formula for formula in formulas):
        return "it has a reference, and a formula has a [, which might be a link by it"
    return open_end(field.input)


def codes(text: str, begin: int = 1) -> dict[int, tuple[str, list[str]]]:
    """The blocks that a reader of CommonMark finds, by their lines, of which the first has this number."""
    return {fence.line - 1 + begin: (fence.info, fence.lines) for fence in fences_of(text)}


def reads_as_before(parts: list[str], are_prose: list[bool]) -> bool:
    """Whether each field that isn't prose reads in the whole text as it does alone."""
    wanted, of_prose, begin = dict[int, tuple[str, list[str]]](), set[int](), 1
    for part, is_text in zip(parts, are_prose):
        end = begin + part.count("\n") + 1
        if is_text:
            of_prose.update(range(begin, end))
        else:
            wanted.update(codes(part, begin))
        begin = end + 1
    whole = codes("\n\n".join(parts) + "\n")
    return {line: code for line, code in whole.items() if line not in of_prose} == wanted


def markdown_with_prose(data: bytes, is_prose: IsProse) -> Made:
    text = data.decode("utf-8", "surrogateescape")
    lines = text.removesuffix("\n").split("\n") if text else []
    fields = Reader(lines).fields()
    formulas = [field.formula for field in fields if field.formula]
    parts, are_prose, left = list[str](), list[bool](), list[str]()
    for field in fields:
        is_one = is_prose(field.session) and not field.is_answered
        reason = why_code(field, formulas) if is_one else None
        if reason:
            left.append(f"the field in line {field.begin + 1} stays in its fence: {reason}")
        is_text = is_one and not reason
        if not is_text or field.input.strip():
            parts.append(field.input if is_text else "\n".join(lines[field.begin : field.end]))
            are_prose.append(is_text)
    if not reads_as_before(parts, are_prose):
        raise Trouble("with its prose as prose, what interpreters wrote would be read as something else")
    made = "\n\n".join(parts) + "\n" if parts else ""
    return Made(made.encode("utf-8", "surrogateescape"), sum(are_prose), left)


def with_prose(data: bytes, is_prose: IsProse) -> Made:
    return (notebook_with_prose if data.startswith(b"{") else markdown_with_prose)(data, is_prose)
