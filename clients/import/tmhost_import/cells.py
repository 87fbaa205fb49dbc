"""What a reader finds in a document: its cells, and what of it is left out."""
import collections
import dataclasses
import re

LONGEST_SHOWN = 100  # characters of a name from a document that a message shows
TAB = 4  # columns, in Markdown
RUN = re.compile("`+")


@dataclasses.dataclass(frozen=True)
class Cell:
    """A piece of code, and what the document says of the interpreter that evaluates it."""

    place: str
    text: str  # its lines, between line feeds
    session: str | None  # the name of its session, where the document gives one
    hints: tuple[str, ...]  # languages and kernels, the surest first, by which an interpreter is looked for
    is_optional: bool  # whether it is left out where there is no interpreter for it
    kind: str  # what it is called where it is left out
    is_prose: bool = False  # text between code: of the others only the place and the name of a session count
    is_answered: bool = False  # by an interpreter, as prose never is
    is_own: bool = False  # an input of tmhost's, which comes back as it was
    is_whole: bool = True  # evaluated as one, and so one field


@dataclasses.dataclass
class Document:
    cells: list[Cell] = dataclasses.field(default_factory=list)
    left_out: collections.Counter[str] = dataclasses.field(default_factory=collections.Counter)
    notes: list[str] = dataclasses.field(default_factory=list)
    words: dict[str, tuple[str, ...]] = dataclasses.field(default_factory=dict)  # of the sessions for which it says them


def plain(text: str) -> str:
    """A text of a document as a message may have it: on one line, in ASCII, cut where it is long."""
    return ascii(text[:LONGEST_SHOWN])[1:-1] + (".." if len(text) > LONGEST_SHOWN else "")


def shown(text: str) -> str:
    return f"'{plain(text)}'"


def prose_cell(place: str, text: str, session: str | None = None) -> Cell:
    """Text between code. Tabs become the spaces for which Markdown takes them, since exports have none in an input."""
    return Cell(place, text.expandtabs(TAB), session, (), False, "prose", True)


def code_text(text: str) -> str:
    """The lines of a cell, without line ends after the last."""
    return text.replace("\r\n", "\n").rstrip("\n")


def fenced(code: str, language: str) -> str:
    """A text of Markdown that shows code."""
    mark = "`" * max(3, 1 + max((len(run) for run in RUN.findall(code)), default=0))
    return f"{mark}{language}\n{code}\n{mark}"
