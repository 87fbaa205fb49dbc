"""Texts as a terminal may show them, and how much room they take there."""

import re
import unicodedata
from typing import List, Optional

from tmhost import Text, readable

LINE_END = "\u2028"  # stands for the end of a line in an input
KEPT = "\t\u200c\u200d"  # the last two only join letters, as in Persian


def escaped(character: str) -> str:
    number = ord(character)
    return f"\\x{number:02x}" if number < 0x100 else f"\\u{number:04x}" if number < 0x10000 else f"\\U{number:08x}"


def is_harmless(character: str) -> bool:
    return character.isprintable() or character in KEPT or unicodedata.category(character) == "Zs"


def harmless_line(line: str) -> str:
    return line if line.isprintable() else "".join(c if is_harmless(c) else escaped(c) for c in line)


def harmless(text: Text) -> str:
    """The text with nothing in it that steers a terminal: what isn't seen stands as `\\xNN`, `\\uNNNN` or `\\UNNNNNNNN`. The program has
    done so with bytes below 32 already, and leaves those from 128 on as they are, some of which a terminal obeys."""
    return "\n".join(harmless_line(line) for line in readable(text).replace(LINE_END, "\n").split("\n"))


def last_lines(said: bytes, count: int) -> List[str]:
    """The last lines, so many at most, of what an interpreter has written beside its blocks, or in one that isn't complete."""
    text = re.sub(rb"\x02[^:#]*[:#]|[\x05\x1b]", b"", said).decode("utf-8", "replace")
    lines = [line for line in re.split(r"[\r\n]", text) if line.strip()]
    return [harmless_line(line.replace("\t", " ")) for line in lines[-count:]]


def last_line(said: bytes) -> str:
    return "".join(last_lines(said, 1))


def cut(text: str, width: int) -> str:
    """The front of a text that surely stands in so many columns."""
    while text and len(text) > 1 and (columns(text) or width + 1) > width:
        text = text[: min(len(text) - 1, width)]
    return text


def columns(text: str) -> Optional[int]:
    """How many columns of a terminal a text takes on one line; None where terminals differ."""
    if not text.isprintable() or any(unicodedata.category(c) in ("Mn", "Me") for c in text):
        return None
    return sum(2 if unicodedata.east_asian_width(c) in "WF" else 1 for c in text)


def rows(text: str, width: int) -> Optional[int]:
    """How many rows a text takes that was typed in, with the row on which it ends; None where that isn't sure."""
    total = 0
    for line in text.split("\n"):
        taken = columns(line)
        if taken is None or (taken and taken % width == 0):
            return None
        total += taken // width + 1
    return total


def after(prompt: str, text: str) -> str:
    """An input as it stands after its prompt, its further lines below its first one."""
    indent = " " * len(prompt.rsplit("\n", 1)[-1])
    return text.replace("\n", "\n" + indent)
