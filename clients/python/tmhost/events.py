"""What `listen` tells, in the order in which it came."""

import dataclasses
from typing import Optional, Tuple

from .errors import TmhostError
from .values import Answer, Block, Completions, LostItem, Text


@dataclasses.dataclass(frozen=True)
class Event:
    """The base of all events."""


@dataclasses.dataclass(frozen=True)
class OfLife(Event):
    """What came of the interpreter of a session; `life` is the number that it has in `Session`."""

    session: str
    life: int


@dataclasses.dataclass(frozen=True)
class Banner(OfLife):
    """The interpreter is ready; this is how it greets. `next` is its prompt for the next line, None where it isn't known."""

    output: Block
    text: Text
    next: Optional[Text] = None


@dataclasses.dataclass(frozen=True)
class Answered(OfLife):
    """A cell has its answer, which is on the disk. `next` is the interpreter's prompt for the next line, None where it isn't known."""

    id: int
    answer: Answer
    next: Optional[Text] = None


@dataclasses.dataclass(frozen=True)
class Completed(OfLife):
    """A request of completions was answered; None where the answer can't be read as one."""

    id: int
    completions: Optional[Completions]


@dataclasses.dataclass(frozen=True)
class Default(OfLife):
    """What the interpreter offers as the next input. It comes directly after what brought it."""

    text: Text


@dataclasses.dataclass(frozen=True)
class Partial(OfLife):
    """What the interpreter has written of a block that isn't closed: bytes of the protocol, as they came. It is reported to those who ask for it, is no
    promise and never kept: drop what came of a life when it has an answer, or another event of it comes."""

    data: bytes


@dataclasses.dataclass(frozen=True)
class Warned(OfLife):
    """The time that a `wait` of `run` may take is over, and the interpreter was at something: it was interrupted, and `outcome` is "sent",
    "idle" or "failed"."""

    outcome: str


@dataclasses.dataclass(frozen=True)
class Ended(OfLife):
    """The interpreter is gone, or couldn't be started, for another reason than a `stop`; with it went what it hadn't answered."""

    reason: str
    lost: Tuple[LostItem, ...]


@dataclasses.dataclass(frozen=True)
class Stopped(OfLife):
    """A `stop` ended the interpreter."""

    lost: Tuple[LostItem, ...]


@dataclasses.dataclass(frozen=True)
class Done(Event):
    """A command of this worksheet was done, and the mirror has it.

    `command` is the first word of its line: "session", "new", "set", "remove", "move", "clear", "eval", "complete", "stop" (one that had
    nothing to end), "checkpoint". After "print" any cell may be another one than was thought. `id` is its cell, `session` its session;
    of "new" and "move" `after` is the cell after which it was put, 0 for the first place.
    """

    command: str
    id: Optional[int] = None
    session: Optional[str] = None
    after: Optional[int] = None


@dataclasses.dataclass(frozen=True)
class Finished(Event):
    """The last event: `error` is None after `close`, and else why the worksheet ended."""

    error: Optional[TmhostError]
