"""The lines that are sent (docs/use/SCRIPT.md), and what each changes when its reply has come."""

import dataclasses
import re
from typing import Any, Dict, Generic, Optional, Sequence, Tuple, Type, TypeVar, Union

from .errors import BadLine, Refused
from .mirror import Item, Mirror, Settles, out_of_step
from .reading import Asked, Exported, Interrupted, Made, OneField, Reply, Sheet, StopReply, Waited
from .values import LINE_END, Answer, Completions, Field, LostItem, Session, Text

R = TypeVar("R")
K = TypeVar("K", bound=Reply)
About = Tuple[Optional[int], Optional[str], Optional[int]]

NAME = re.compile(r"[A-Za-z0-9_-]{1,32}")
FORMATS = ("script", "markdown", "html", "notebook", "json")
NOT_IN_A_WORD = re.compile(r"[ \n]")  # else one word would be two, or a line of its own


def bytes_of(line: str) -> bytes:
    """A line as it is sent. One carriage return in front of a line feed is dropped by the host, so one that is the line's own gets another.
    Halves of characters go as they are: the host refuses them."""
    end = "\r\n" if line.endswith("\r") else "\n"
    return (line + end).encode("utf-8", "surrogatepass")


def input_of(text: str) -> str:
    """A text as a worksheet has it, in one line."""
    return text.replace("\n", LINE_END)


def length_of(text: str) -> int:
    """How many bytes a text has in a worksheet."""
    return len(input_of(text).encode("utf-8", "surrogatepass"))


def checked_name(name: str, refusal: str, number: int) -> str:
    """A name that no session may have could be a part of another line, so it isn't sent; the refusal is that of the host."""
    if not NAME.fullmatch(name):
        raise Refused(refusal, number)
    return name


def words_of(words: Union[str, Sequence[str]]) -> Tuple[str, ...]:
    """The words of a session: a string is cut at its spaces."""
    cut = tuple(word for word in words.split(" ") if word) if isinstance(words, str) else tuple(words)
    if any(NOT_IN_A_WORD.search(word) for word in cut):
        raise Refused("BadWords", 6)
    return cut


def matching(sessions: Dict[str, Session], wanted: Session) -> Optional[Session]:
    """The session with this name, which has to have these words."""
    found = sessions.get(wanted.name)
    if found and (found.words, found.tab) != (wanted.words, wanted.tab):
        raise Refused("SessionExists", 4)
    return found


def expected(reply: Reply, kind: Type[K]) -> K:
    return reply if isinstance(reply, kind) else out_of_step(f"{reply.type!r} of line {reply.line}")


def expect_done(reply: Reply) -> None:
    if reply.type != "done":
        out_of_step(f"{reply.type!r} of line {reply.line}")


@dataclasses.dataclass
class Command(Generic[R]):
    """`word` is the first word of its line; `about` is what those who listen get: its cell, its session, and after which cell it put
    its own."""

    word = ""
    is_reported = True  # to those who listen

    @property
    def length(self) -> int:
        """How many lines it has."""
        return 1

    @property
    def about(self) -> About:
        return None, None, None

    @property
    def line(self) -> str:
        return self.word

    @property
    def sent(self) -> bytes:
        """What is sent of it."""
        return bytes_of(self.line)

    def taken(self, mirror: Mirror, reply: Reply) -> R:
        """Changes the mirror by the reply, and gives what the caller gets."""
        raise NotImplementedError


@dataclasses.dataclass
class MakeSession(Command[Session]):
    name: str
    words: Tuple[str, ...]
    tab: bool
    word = "session"

    def __post_init__(self) -> None:
        checked_name(self.name, "BadName", 5)

    @property
    def about(self) -> About:
        return None, self.name, None

    @property
    def line(self) -> str:
        return " ".join(["session", self.name, "tab" if self.tab else "plain", *self.words])

    def taken(self, mirror: Mirror, reply: Reply) -> Session:
        expect_done(reply)
        made = Session(self.name, self.words, self.tab)
        mirror.add_session(made)
        return made


@dataclasses.dataclass
class New(Command[int]):
    after: int
    session: str
    input: str
    id: Optional[int] = None
    word = "new"

    def __post_init__(self) -> None:
        checked_name(self.session, "NoSession", 1)

    @property
    def about(self) -> About:
        return self.id, self.session, self.after

    @property
    def line(self) -> str:
        return f"new {self.after} {self.session} {self.input}"

    def taken(self, mirror: Mirror, reply: Reply) -> int:
        self.id = expected(reply, Made).id
        mirror.insert(Field(self.id, self.session, self.input), self.after)
        return self.id


@dataclasses.dataclass
class OfCell(Command[R]):
    id: int

    @property
    def about(self) -> About:
        return self.id, None, None

    @property
    def line(self) -> str:
        return f"{self.word} {self.id}"


@dataclasses.dataclass
class Set(OfCell[None]):
    input: str
    word = "set"

    @property
    def line(self) -> str:
        return f"set {self.id} {self.input}"

    def taken(self, mirror: Mirror, reply: Reply) -> None:
        expect_done(reply)
        mirror.renew(self.id, input=self.input)


@dataclasses.dataclass
class Remove(OfCell[None]):
    word = "remove"

    def taken(self, mirror: Mirror, reply: Reply) -> None:
        expect_done(reply)
        mirror.remove(self.id)


@dataclasses.dataclass
class Move(OfCell[None]):
    after: int
    word = "move"

    @property
    def about(self) -> About:
        return self.id, None, self.after

    @property
    def line(self) -> str:
        return f"move {self.id} {self.after}"

    def taken(self, mirror: Mirror, reply: Reply) -> None:
        expect_done(reply)
        mirror.move(self.id, self.after)


@dataclasses.dataclass
class Clear(OfCell[None]):
    word = "clear"

    def taken(self, mirror: Mirror, reply: Reply) -> None:
        expect_done(reply)
        mirror.renew(self.id)


@dataclasses.dataclass
class Eval(OfCell[None]):
    """`waiter` gets the answer. It has its place in the row when the reply comes, so no answer comes before it."""

    waiter: "Settles[Answer]"
    word = "eval"

    def taken(self, mirror: Mirror, reply: Reply) -> None:
        life = expected(reply, Asked).life
        mirror.ask(Item(self.id, None, self.waiter), mirror.field(self.id).session, life)


@dataclasses.dataclass
class Complete(OfCell[None]):
    """Of the input of a cell, or of a text in its place."""

    cursor: int
    waiter: "Settles[Optional[Completions]]"
    text: Optional[str] = None
    word = "complete"

    @property
    def line(self) -> str:
        asked = f"complete {self.id} {self.cursor}"
        return asked if self.text is None else f"{asked} {input_of(self.text)}"

    def taken(self, mirror: Mirror, reply: Reply) -> None:
        life = expected(reply, Asked).life
        mirror.ask(Item(self.id, self.cursor, self.waiter), mirror.field(self.id).session, life)


@dataclasses.dataclass
class OfSession(Command[R]):
    session: str

    def __post_init__(self) -> None:
        checked_name(self.session, "NoSession", 1)

    @property
    def about(self) -> About:
        return None, self.session, None

    @property
    def line(self) -> str:
        return f"{self.word} {self.session}"


@dataclasses.dataclass
class Stop(OfSession[Tuple[LostItem, ...]]):
    word = "stop"

    def taken(self, mirror: Mirror, reply: Reply) -> Tuple[LostItem, ...]:
        """Of one that ended an interpreter the mirror is changed by what was lost, as by an end."""
        if isinstance(reply, StopReply):
            return reply.lost
        expect_done(reply)
        return ()


@dataclasses.dataclass
class Interrupt(OfSession[str]):
    word = "interrupt"
    is_reported = False

    def taken(self, mirror: Mirror, reply: Reply) -> str:
        return expected(reply, Interrupted).outcome


@dataclasses.dataclass
class Wait(Command[bool]):
    seconds: Optional[int]
    word = "wait"
    is_reported = False

    @property
    def line(self) -> str:
        return "wait" if self.seconds is None else f"wait {self.seconds}"

    def taken(self, mirror: Mirror, reply: Reply) -> bool:
        return expected(reply, Waited).over == "idle"


@dataclasses.dataclass
class Checkpoint(Command[None]):
    word = "checkpoint"

    def taken(self, mirror: Mirror, reply: Reply) -> None:
        expect_done(reply)


@dataclasses.dataclass
class Print(Command[None]):
    """Its cells are shown as they come; the sheet after them is the reply."""

    word = "print"

    def taken(self, mirror: Mirror, reply: Reply) -> None:
        mirror.show_all(expected(reply, Sheet))


@dataclasses.dataclass
class Look(OfCell[bool]):
    """Prints one cell, and tells whether it was another than was thought."""

    word = "print"
    is_reported = False

    def taken(self, mirror: Mirror, reply: Reply) -> bool:
        field = expected(reply, OneField).field
        is_other = mirror.field(self.id) != field
        self.is_reported = is_other
        mirror.show(field)
        return is_other


@dataclasses.dataclass
class Export(Command[Optional[Text]]):
    format: str
    word = "export"
    is_reported = False

    def __post_init__(self) -> None:
        if self.format not in FORMATS:
            raise BadLine(self.line)  # it could be a part of another line, so it isn't sent

    @property
    def line(self) -> str:
        return f"export {self.format}"

    def taken(self, mirror: Mirror, reply: Reply) -> Optional[Text]:
        reported = expected(reply, Exported)
        return reported.text if reported.format == self.format else out_of_step(f"the format {reported.format!r} of line {reported.line}")


AnyCommand = Command[Any]
