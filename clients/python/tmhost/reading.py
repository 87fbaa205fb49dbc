"""Lines of JSON as the program writes them (docs/use/JSON.md), read strictly.

Members that aren't known are passed over, and so are objects without `line` of a type that isn't known. All else that isn't of the
protocol is a ProtocolError.
"""

import base64
import binascii
import dataclasses
import json
import re
from typing import Any, Callable, Dict, List, NoReturn, Optional, Tuple, Union

from .errors import ProtocolError
from .events import Answered, Banner, Completed, Default, Ended, Event, Partial, Warned
from .values import LINE_END, Answer, Block, Completions, Field, LostItem, Session, Text

KINDS = ("format", "channel")
BEYOND = 2**64
HALF = re.compile(rb"\\u[dD][89a-fA-F]")  # may stand for half of a character


@dataclasses.dataclass(frozen=True)
class Hello:
    protocol: int
    format: int
    version: str


@dataclasses.dataclass(frozen=True)
class Fault:
    number: int
    name: str
    offset: Optional[int]


@dataclasses.dataclass(frozen=True)
class End:
    """The input has come to its end, and all of it was taken."""


@dataclasses.dataclass(frozen=True)
class Reply:
    """What is reported of a line. `more` says that more will be reported of it. Types that have no members of their own are this one."""

    line: int
    type: str
    more: bool


@dataclasses.dataclass(frozen=True)
class Made(Reply):
    id: int


@dataclasses.dataclass(frozen=True)
class Asked(Reply):
    life: int


@dataclasses.dataclass(frozen=True)
class Refusal(Reply):
    name: str
    number: int


@dataclasses.dataclass(frozen=True)
class NothingDone(Reply):
    """Of a transaction, whose line `begin` has the number `first`: it is reported of its line `end`."""

    first: int


@dataclasses.dataclass(frozen=True)
class Waited(Reply):
    over: str


@dataclasses.dataclass(frozen=True)
class OneField(Reply):
    field: Field


@dataclasses.dataclass(frozen=True)
class Sheet(Reply):
    fields: Tuple[int, ...]
    next: int
    sessions: Tuple[Session, ...]


@dataclasses.dataclass(frozen=True)
class StopReply(Reply):
    session: str
    life: int
    lost: Tuple[LostItem, ...]


@dataclasses.dataclass(frozen=True)
class Interrupted(Reply):
    outcome: str


@dataclasses.dataclass(frozen=True)
class Exported(Reply):
    """`text` is None where the worksheet has none in this format."""

    format: str
    text: Optional[Text]


Reported = Union[Hello, Fault, End, Reply, Event]


def broken(what: str) -> NoReturn:
    raise ProtocolError(f"tmhost wrote {what}")


class Members:
    """The members of an object, each read as what it has to be."""

    def __init__(self, data: object) -> None:
        if not isinstance(data, dict):
            broken(f"{str(data)[:60]!r} where an object has to be")
        self.data: Dict[str, Any] = data

    def get(self, name: str) -> Any:
        if name not in self.data:
            broken(f"an object without {name!r}, of type {self.data.get('type')!r}")
        return self.data[name]

    def number(self, name: str) -> int:
        return number(self.get(name))

    def string(self, name: str) -> str:
        return string(self.get(name))

    def one_of(self, name: str, *names: str) -> str:
        value = self.string(name)
        return value if value in names else broken(f"{value[:60]!r} as {name!r}")

    def boolean(self, name: str) -> bool:
        value = self.get(name)
        return value if isinstance(value, bool) else broken(f"{name!r} that is neither true nor false")

    def list(self, name: str) -> List[Any]:
        value = self.get(name)
        return value if isinstance(value, list) else broken(f"{name!r} that is no list")

    def text(self, name: str) -> Text:
        return text(self.get(name))

    def or_none(self, name: str, read: Callable[[Any], Any]) -> Any:
        """None for null, which has to be there."""
        value = self.get(name)
        return None if value is None else read(value)


def number(value: object) -> int:
    if type(value) is int and 0 <= value < BEYOND:
        return value
    broken(f"{str(value)[:60]!r} where a number has to be")


def string(value: object) -> str:
    return value if isinstance(value, str) else broken(f"{str(value)[:60]!r} where a string has to be")


def text(value: object) -> Text:
    """BYTES: a string, or the base64 of what isn't UTF-8."""
    if isinstance(value, str):
        return value
    try:
        found = base64.b64decode(Members(value).string("base64").encode("ascii"), validate=True)
    except (binascii.Error, UnicodeEncodeError):
        broken("bytes that aren't base64")
    try:
        found.decode("utf-8")
    except UnicodeDecodeError:
        return found
    broken("base64 of what is UTF-8")


def data(value: object) -> bytes:
    """BYTES as they are."""
    found = text(value)
    return found.encode("utf-8") if isinstance(found, str) else found


def block(value: object) -> Block:
    """A block. An answer may have millions, so its members are looked at directly."""
    if not isinstance(value, dict) or not {"items", "kind", "tag"} <= value.keys():
        broken(f"{str(value)[:60]!r} where a block has to be")
    tag, kind, items = value["tag"], value["kind"], value["items"]
    if kind not in KINDS or not isinstance(items, list):
        broken(f"a block of the kind {str(kind)[:60]!r}")
    return Block(tag if isinstance(tag, str) else text(tag), kind, tuple([item if isinstance(item, str) else inner(item) for item in items]))


def inner(item: object) -> Union[str, bytes, Block]:
    return block(item) if isinstance(item, dict) and "kind" in item else text(item)


def answer(reported: Members) -> Answer:
    return Answer(reported.text("prompt"), block(reported.get("output")), reported.text("shown"))


def field(value: object) -> Field:
    """A field; the line feeds of its input stand for U+2028, which a line that is sent has for them."""
    reported = Members(value)
    state = reported.one_of("state", "empty", "waiting", "answered", "lost")
    return Field(
        reported.number("id"),
        reported.string("session"),
        reported.string("input").replace("\n", LINE_END),
        state,
        answer(reported) if state == "answered" else None,
        reported.string("reason") if state == "lost" else None,
    )


def session(value: object) -> Session:
    reported = Members(value)
    words = tuple(string(word) for word in reported.list("words"))
    return Session(reported.string("name"), words, reported.boolean("tab"), reported.or_none("life", number), reported.number("waiting"))


def lost_item(value: object) -> LostItem:
    reported = Members(value)
    return LostItem(reported.number("id"), reported.string("text"), reported.number("cursor") if "cursor" in reported.data else None)


def lost(reported: Members) -> Tuple[LostItem, ...]:
    return tuple(lost_item(item) for item in reported.list("lost"))


def completions(value: object) -> Completions:
    reported = Members(value)
    return Completions(reported.text("root"), tuple(text(one) for one in reported.list("rest")))


def outcome(reported: Members) -> str:
    """What came of an interrupt."""
    return reported.one_of("outcome", "sent", "idle", "failed")


# What is reported of a line, by its type: each gets the members of Reply, and reads those of its own.
REPLIES: Dict[str, Callable[[Tuple[int, str, bool], Members], Reply]] = {
    "made": lambda front, reported: Made(*front, reported.number("id")),
    "asked": lambda front, reported: Asked(*front, reported.number("life")),
    "refused": lambda front, reported: Refusal(*front, reported.string("name"), reported.number("number")),
    "undone": lambda front, reported: NothingDone(*front, reported.number("from")),
    "waited": lambda front, reported: Waited(*front, reported.one_of("over", "idle", "time")),
    "field": lambda front, reported: OneField(*front, field(reported.get("field"))),
    "sheet": lambda front, reported: Sheet(
        *front, tuple(number(one) for one in reported.list("fields")), reported.number("next"), tuple(session(one) for one in reported.list("sessions"))
    ),
    "stopped": lambda front, reported: StopReply(*front, reported.string("session"), reported.number("life"), lost(reported)),
    "interrupted": lambda front, reported: Interrupted(*front, outcome(reported)),
    "exported": lambda front, reported: Exported(*front, reported.string("format"), reported.or_none("text", text)),
}


def next_prompt(reported: Members) -> Optional[Text]:
    """The prompt for the next line; an older program doesn't tell it."""
    return reported.or_none("next", text) if "next" in reported.data else None


# What is reported without a line, by its type: of an interpreter, with its session and its life in front, or of the program.
EVENTS: Dict[str, Callable[[str, int, Members], Event]] = {
    "banner": lambda name, life, reported: Banner(name, life, block(reported.get("output")), reported.text("shown"), next_prompt(reported)),
    "answered": lambda name, life, reported: Answered(name, life, reported.number("id"), answer(reported), next_prompt(reported)),
    "completed": lambda name, life, reported: Completed(name, life, reported.number("id"), reported.or_none("told", completions)),
    "default": lambda name, life, reported: Default(name, life, reported.text("text")),
    "interrupted": lambda name, life, reported: Warned(name, life, outcome(reported)),
    "partial": lambda name, life, reported: Partial(name, life, data(reported.get("bytes"))),
    "ended": lambda name, life, reported: Ended(name, life, reported.string("reason"), lost(reported)),
}
OTHERS: Dict[str, Callable[[Members], Union[Hello, Fault, End]]] = {
    "hello": lambda reported: Hello(reported.number("protocol"), reported.number("format"), reported.string("version")),
    "fault": lambda reported: Fault(reported.number("number"), reported.string("name"), reported.number("offset") if "offset" in reported.data else None),
    "end": lambda reported: End(),
}


def without_doubles(pairs: List[Tuple[str, Any]]) -> Dict[str, Any]:
    made = dict(pairs)
    return made if len(made) == len(pairs) else broken("an object that has a member twice")


def data_of(line: bytes) -> Members:
    try:
        found = json.loads(line.decode("utf-8"), object_pairs_hook=without_doubles, parse_constant=lambda name: broken(name))
        if HALF.search(line):
            json.dumps(found, ensure_ascii=False).encode("utf-8")
    except (ValueError, RecursionError) as error:
        raise ProtocolError(f"tmhost wrote a line that is no JSON: {line[:60]!r}") from error
    return Members(found)


def read(line: bytes) -> Optional[Reported]:
    """What a line tells; None where it is of a type that isn't known and of no line."""
    reported = data_of(line)
    kind = reported.string("type")
    if "line" in reported.data:
        front = (reported.number("line"), kind, reported.boolean("more") if "more" in reported.data else False)
        return REPLIES[kind](front, reported) if kind in REPLIES else Reply(*front)
    if kind in EVENTS:
        return EVENTS[kind](reported.string("session"), reported.number("life"), reported)
    return OTHERS[kind](reported) if kind in OTHERS else None
