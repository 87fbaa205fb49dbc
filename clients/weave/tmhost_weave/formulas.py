"""Which outputs are a formula that stands in Markdown as it is: the rule of docs/use/EXPORT.md (crates/sheet_notebook/specs/Formulas.antt)."""
import re
from typing import List, Optional, Tuple, Union

from tmhost import Block, readable

from tmhost_notebook.pictures import picture_of

from .answers import ANSWER, ERROR, FORMULA, PICTURE

NOT_PLAIN = re.compile(rb"[\x00-\x1f\x7f`]")
# An address of a link, an element, attributes of kramdown, and a brace that pandoc takes for an escaped one.
MARKUP = re.compile(rb"\] *\(|<(?! )|\{:|\\\\[{}]")
BRACE = re.compile(rb"\\.|[{}]", re.DOTALL)
CONTROL = re.compile(r"[\x00-\x08\x0b-\x1f\x7f]")


def closes(inside: bytes) -> bool:
    """Whether each brace that closes one has it, and none stays open; one after a backslash is none."""
    depth = 0
    for found in BRACE.findall(inside):
        depth += {b"{": 1, b"}": -1}.get(found, 0)
        if depth < 0:
            return False
    return depth == 0


def is_between(dollars: bytes, given: bytes) -> bool:
    size = len(dollars)
    if len(given) <= 2 * size or not (given.startswith(dollars) and given.endswith(dollars)):
        return False
    inside = given[size:-size]
    is_tight = size == 2 or all(32 < byte < 127 for byte in (inside[0], inside[-1]))
    return b"$" not in inside and not inside.endswith(b"\\") and closes(inside) and is_tight


def is_formula(given: bytes) -> bool:
    is_still = not NOT_PLAIN.search(given) and not MARKUP.search(given)
    return is_still and (is_between(b"$", given) or is_between(b"$$", given))


def formula_of(output: Block) -> Optional[str]:
    """The formula that an output is: a block `latex` with one text that is one."""
    if output.tag != "latex" or output.kind != "format" or len(output.items) != 1:
        return None
    text = output.items[0]
    return text if isinstance(text, str) and is_formula(text.encode("utf-8")) else None


def printed(item: Union[str, bytes]) -> str:
    """A text as `tmhost show` prints it."""
    return CONTROL.sub(lambda found: f"\\x{ord(found[0]):02x}", readable(item))


def error_of(item: Block) -> Optional[str]:
    """The text of a block that is an error."""
    errors = item.errors
    is_all = len(errors) == 1 and errors[0].plain == item.plain and not any(isinstance(one, Block) for one in errors[0].items)
    return printed(item.plain) if is_all else None


def part_of(block: Block) -> Optional[Tuple[str, str]]:
    """The formula, the picture or the error that a block is."""
    formula, picture, error = formula_of(block), picture_of(block), error_of(block)
    if formula is not None:
        return formula, FORMULA
    if picture is not None:
        return picture.address, PICTURE
    return None if error is None else (error, ERROR)


def parts_of(output: Block) -> Optional[List[Tuple[str, str]]]:
    """The texts, the formulas, the errors and the pictures of an output, each with its kind, where it has no other block: a formula alone, what
    is printed in front of a value, an error after that. The text of a picture is the address of its data."""
    items = output.items if (output.tag, output.kind) == ("verbatim", "format") else (output,)
    parts: List[Tuple[str, str]] = []
    for item in items:
        if isinstance(item, Block):
            part = part_of(item)
            if part is None:
                return None
            parts.append(part)
        elif parts and parts[-1][1] == ANSWER:
            parts[-1] = (parts[-1][0] + printed(item), ANSWER)
        else:
            parts.append((printed(item), ANSWER))
    return parts
