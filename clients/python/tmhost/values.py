"""What a worksheet has: frozen values, which any thread may read."""

import dataclasses
import re
from typing import List, Literal, Optional, Tuple, Union

Text = Union[str, bytes]
"""Text of an interpreter: str where its bytes are UTF-8, else the bytes."""

Turn = Literal["running", "queued"]
"""Of a cell that waits: whether its line was sent to the interpreter, which works on it, or the banner or others before it come first."""

LINE_END = "\u2028"
"""Stands in an input for the end of a line, since an input is one line."""


CONTROL = re.compile(r"[\x00-\x08\x0b-\x1f\x7f]")
"""What `tmhost show` prints as `\\xNN`."""


def to_bytes(value: Text) -> bytes:
    return value if isinstance(value, bytes) else value.encode("utf-8")


def to_text(value: bytes) -> Text:
    """The form that the protocol has for these bytes."""
    try:
        return value.decode("utf-8")
    except UnicodeDecodeError:
        return value


def readable(value: Text) -> str:
    """A text to be shown: of bytes that aren't UTF-8 those that are no character stand as `\\xNN`."""
    return value if isinstance(value, str) else value.decode("utf-8", "backslashreplace")


def joined(parts: List[Text]) -> Text:
    """These texts one after the other. The whole may be UTF-8 where its parts aren't."""
    if all(isinstance(part, str) for part in parts):
        return "".join(part for part in parts if isinstance(part, str))
    return to_text(b"".join(to_bytes(part) for part in parts))


@dataclasses.dataclass(frozen=True)
class Block:
    """A block of an interpreter's output: texts and blocks under a tag. `kind` is "format" or "channel"."""

    tag: Text
    kind: str
    items: "Tuple[Union[str, bytes, Block], ...]"

    def find(self, tag: Text) -> "List[Block]":
        """The blocks with this tag, this one included, in the order in which they open."""
        found = [self] if self.tag == tag else []
        for item in self.items:
            if isinstance(item, Block):
                found += item.find(tag)
        return found

    @property
    def errors(self) -> "List[Block]":
        """The blocks in it that are errors, the outer ones alone: those of the channel `error`, and those of the channel `output` in another one."""
        if self.kind == "channel" and self.tag == "error":
            return [self]
        found: "List[Block]" = []
        for item in self.items:
            if isinstance(item, Block):
                found += [item] if self.is_output and item.is_output else item.errors
        return found

    @property
    def pictures(self) -> "List[Block]":
        """The blocks in it whose format is the MIME type of a picture and that have one text."""
        if self.kind == "format" and readable(self.tag).startswith("image/") and len(self.items) == 1 and not isinstance(self.items[0], Block):
            return [self]
        return [picture for item in self.items if isinstance(item, Block) for picture in item.pictures]

    @property
    def is_output(self) -> bool:
        return self.kind == "channel" and self.tag == "output"

    @property
    def plain(self) -> Text:
        """All texts in it at any depth, without the tags."""
        return joined([item.plain if isinstance(item, Block) else item for item in self.items])


@dataclasses.dataclass(frozen=True)
class Answer:
    """What an interpreter answered to a line.

    `prompt` is the one under which the line was asked, `output` the answer as a tree, and `text` the same as `tmhost show` prints it: the
    tags of blocks in braces, but for `verbatim` and `output`.
    """

    prompt: Text
    output: Block
    text: Text

    @property
    def shown_bytes(self) -> bytes:
        """`text` as bytes, whatever they are."""
        return to_bytes(self.text)

    @property
    def brief(self) -> str:
        """`text` with each picture in a few words, as `{image/png;base64: 5,120 bytes}`."""
        text = readable(self.text)
        for picture in self.output.pictures:
            tag, data = readable(picture.tag), readable(picture.plain)
            whole = CONTROL.sub(lambda found: f"\\x{ord(found[0]):02x}", f"{{{tag}:{data}}}")
            text = text.replace(whole, f"{{{tag}: {len(to_bytes(data)):,} bytes}}", 1)
        return text

    def find(self, tag: Text) -> List[Block]:
        """The blocks of the output with this tag, in the order in which they open."""
        return self.output.find(tag)

    @property
    def errors(self) -> List[Text]:
        """What the interpreter reports as errors in it."""
        return [error.plain for error in self.output.errors]

    def __str__(self) -> str:
        return readable(self.text)


@dataclasses.dataclass(frozen=True)
class Field:
    """A cell as it is at one moment.

    `state` is "empty"; "waiting" for an answer; "answered", with `answer`; or "lost", with the `reason`.
    """

    id: int
    session: str
    input: str
    state: str = "empty"
    answer: Optional[Answer] = None
    reason: Optional[str] = None

    @property
    def lines(self) -> List[str]:
        """The input, cut where a U+2028 stands for the end of a line."""
        return self.input.split(LINE_END)


@dataclasses.dataclass(frozen=True)
class Session:
    """An interpreter of a worksheet. `tab` says whether it answers completions. `life` is its number while it runs, counted from 1 over all
    that were started since the worksheet was opened, else None. `waiting` is how many lines and requests it has to answer."""

    name: str
    words: Tuple[str, ...]
    tab: bool
    life: Optional[int] = None
    waiting: int = 0


@dataclasses.dataclass(frozen=True)
class Completions:
    """What can stand at a cursor: `root` is what stands there already, and `rest` what may follow it."""

    root: Text
    rest: Tuple[Text, ...]

    @property
    def words(self) -> List[Text]:
        """The completions, each with the root."""
        return [joined([self.root, one]) for one in self.rest]


@dataclasses.dataclass(frozen=True)
class LostItem:
    """What an interpreter didn't answer: the line of a cell, or with a `cursor` a request of completions. `text` is the input as it was
    when it was asked."""

    id: int
    text: str
    cursor: Optional[int] = None
