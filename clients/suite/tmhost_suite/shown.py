"""What of an answer is compared: its text as `tmhost show` prints it, its errors apart where that is wanted, and of a picture what it is."""
import dataclasses
import hashlib
import re
from typing import List, Union

from tmhost import Answer, Block

from .rules import FORMULAS, PICTURES, Rules

PICTURE, FORMULA = "image/", "latex"
CONTROL = re.compile(r"[\x00-\x08\x0b-\x1f\x7f]")
GONE = "\x00"  # stands for what is left out until the lines around it are joined; no text has it
BARE = (("format", "verbatim"), ("channel", "output"))


@dataclasses.dataclass(frozen=True)
class Shown:
    """`errors` is empty where they aren't apart: then they stand in the text."""

    text: str
    errors: str = ""


def printed(text: Union[str, bytes]) -> str:
    found = text if isinstance(text, str) else text.decode("utf-8", "backslashreplace")
    return CONTROL.sub(lambda character: f"\\x{ord(character[0]):02x}", found)


def picture(tag: str, data: str) -> str:
    """A picture in a few words, other ones for other bytes."""
    reported = data.encode("utf-8", "surrogateescape")
    return f"{{{tag}: {len(reported):,} bytes, sha256 {hashlib.sha256(reported).hexdigest()[:16]}}}"


def rendered(block: Block, rules: Rules, gone: List[Block]) -> str:
    if any(block is one for one in gone):
        return GONE
    tag = printed(block.tag)
    is_picture = block.kind == "format" and tag.startswith(PICTURE)
    if is_picture and PICTURES in rules.without or block.kind == "format" and tag == FORMULA and FORMULAS in rules.without:
        return GONE
    if is_picture:
        return picture(tag, printed(block.plain))
    inner = "".join(rendered(item, rules, gone) if isinstance(item, Block) else printed(item) for item in block.items)
    return inner if (block.kind, tag) in BARE else f"{{{tag}{'#' if block.kind == 'channel' else ':'}{inner}}}"


def has_more_than_text(block: Block) -> bool:
    """Whether something in a block isn't compared as it is printed."""
    tag = printed(block.tag)
    is_one = block.kind == "format" and (tag.startswith(PICTURE) or tag == FORMULA)
    return is_one or any(has_more_than_text(item) for item in block.items if isinstance(item, Block))


def shown_of(answer: Answer, rules: Rules) -> Shown:
    """Without line ends after it."""
    errors = answer.output.errors if rules.apart else []
    if not errors and not has_more_than_text(answer.output):
        return Shown(str(answer).rstrip("\n"))
    text = re.sub(f"\n?{GONE}", "", rendered(answer.output, rules, errors)).strip("\n")
    return Shown(text, "\n".join(printed(error.plain).strip("\n") for error in errors))
