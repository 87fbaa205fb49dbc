"""What a front end is sent for an answer: its texts, formulas, pictures and errors, in their order."""
import re
from typing import Any, Dict, List, NamedTuple, Optional

from tmhost import Answer, Block, readable

Content = Dict[str, Any]

OUTPUT, ERROR = ("channel", "output"), ("channel", "error")
BARE = (("format", "verbatim"), OUTPUT)  # whose tags `tmhost show` leaves out, too
TEXT, FORMULA = "text/plain", "text/latex"
# The formats of pictures, and what Jupyter calls them.
PICTURES = {"image/png;base64": "image/png", "image/jpeg;base64": "image/jpeg", "image/svg+xml": "image/svg+xml"}
NAMED = re.compile(r"([A-Za-z_][\w.]*): (.*)")  # the last line of a traceback


class Part(NamedTuple):
    """A part of an answer. `kind` is a MIME type, or "error"."""

    kind: str
    text: str


class Message(NamedTuple):
    """What is sent to a front end."""

    kind: str
    content: Content


class Error(NamedTuple):
    name: str
    value: str
    text: str

    @property
    def content(self) -> Content:
        return {"ename": self.name, "evalue": self.value, "traceback": self.text.split("\n")}


def error_of(text: str) -> Error:
    """An error that an interpreter has written: its last line may say its name."""
    lines = [line for line in text.split("\n") if line.strip()]
    last = lines[-1].strip() if lines else ""
    named = NAMED.fullmatch(last)
    return Error(named[1], named[2], text.strip("\n")) if named else Error("Error", last, text.strip("\n"))


def joined(parts: List[Part]) -> List[Part]:
    """The same parts, where texts that stand side by side are one."""
    found: List[Part] = []
    for part in parts:
        if found and part.kind == found[-1].kind and part.kind in (TEXT, "error"):
            part = Part(part.kind, found.pop().text + part.text)
        found.append(part)
    return found


def of_one_text(block: Block, tag: str) -> Optional[Part]:
    """The part that a formula or a picture is, which is a block with one text."""
    if block.kind != "format" or len(block.items) != 1 or isinstance(block.items[0], Block):
        return None
    text = readable(block.items[0])
    if tag in PICTURES:
        return Part(PICTURES[tag], "".join(text.split()) if tag.endswith(";base64") else text)
    return Part(FORMULA, text) if tag == "latex" else None


def parts(block: Block, is_in_output: bool = False) -> List[Part]:
    """The parts of a block. An error is one of the channel `error`, or of the channel `output` in another one."""
    tag = readable(block.tag)
    is_output = (block.kind, tag) == OUTPUT
    if (block.kind, tag) == ERROR or is_output and is_in_output:
        return [Part("error", readable(block.plain))]
    if one := of_one_text(block, tag):
        return [one]
    is_bare = (block.kind, tag) in BARE
    found = [] if is_bare else [Part(TEXT, "{" + tag + (":" if block.kind == "format" else "#"))]
    for item in block.items:
        found += parts(item, is_output) if isinstance(item, Block) else [Part(TEXT, readable(item))]
    return joined(found if is_bare else [*found, Part(TEXT, "}")])


def bundle(part: Part) -> Content:
    """The data of a value. A front end that knows no formulas and no pictures has a text, too."""
    if part.kind == TEXT:
        return {TEXT: part.text.strip("\n")}
    return {part.kind: part.text, TEXT: part.text if part.kind == FORMULA else f"<{part.kind}>"}


class Shown:
    """An answer as messages, and its first error."""

    def __init__(self, answer: Answer, count: int) -> None:
        reported = [part for part in parts(answer.output) if part.text.strip("\n")]
        errors = [error_of(part.text) for part in reported if part.kind == "error"]
        self.error = errors[0] if errors else None
        self.messages = [self.message(part, part is reported[-1] and not errors, count) for part in reported]

    def message(self, part: Part, is_value: bool, count: int) -> Message:
        """What was written before the value of a line is a stream."""
        if part.kind == "error":
            return Message("error", error_of(part.text).content)
        if part.kind == TEXT and not is_value:
            return Message("stream", {"name": "stdout", "text": part.text.strip("\n") + "\n"})
        content: Content = {"data": bundle(part), "metadata": {}}
        if is_value and part.kind in (TEXT, FORMULA):
            return Message("execute_result", {**content, "execution_count": count})
        return Message("display_data", content)
