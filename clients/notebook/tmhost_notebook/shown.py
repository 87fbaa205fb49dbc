"""Answers as the page gets them: texts, errors and formulas, at most so many characters of them, and pictures."""

from typing import Any, Dict, List, Union

from tmhost import Answer, Block, readable

from .pictures import Picture, pictures_in

LONGEST = 20_000  # characters of an answer that the page gets unasked; the rest is asked for piece by piece
PIECE = 400_000  # characters of such a piece
LONG_FORMULA = 5_000  # characters of one that the page sets in one piece
LONGEST_FORMULAS = 50_000  # of the longer ones of an answer, which the page sets in pieces

SHOWN_WITHOUT_TAG = ("verbatim", "output")

# {"text": ..}, {"error": ..}, {"tex": ..}, or {"picture": its address, "text": what stands for it}; one that is drawn when asked for is "heavy".
Part = Dict[str, str]


class Parts:
    """The parts of an answer, up to `LONGEST` characters beside long formulas, and all of its pictures."""

    def __init__(self, pictures: Dict[int, Picture], errors: List[Block]) -> None:
        self.pictures = pictures
        self.errors = {id(error) for error in errors}
        self.parts: List[Part] = []
        self.left = LONGEST
        self.left_long, self.long = LONGEST_FORMULAS, 0  # characters that long formulas may have yet, and those that they have as text
        self.kind = "text"
        self.unset = 0  # characters of the longest formula that is too long to be set

    def text(self, text: str) -> None:
        text = text[: self.left]
        self.left -= len(text)
        if text and self.parts and list(self.parts[-1]) == [self.kind]:
            self.parts[-1][self.kind] += text
        elif text:
            self.parts.append({self.kind: text})

    def add(self, block: Block) -> None:
        """A block as `tmhost show` prints it, but for its formulas. Blocks lie at most 32 deep in one another."""
        picture = self.pictures.get(id(block))
        if picture is not None:
            self.parts.append({"heavy" if picture.is_heavy else "picture": picture.address, "text": named(block, picture)})
            return
        tag = readable(block.tag)
        tex = formula_of(block)
        if tex is not None and len(tex) <= min(LONG_FORMULA, self.left):
            self.parts.append({"tex": tex})
            self.left -= len(tex)
            return
        if tex is not None and LONG_FORMULA < len(tex) <= self.left_long and self.left > 0:
            self.parts.append({"tex": tex})
            self.left_long -= len(tex)
            self.long += len(text_of(block, {}))
            return
        self.unset = max(self.unset, len(tex or ""))
        is_error = id(block) in self.errors
        is_bare = tag in SHOWN_WITHOUT_TAG or is_error
        self.kind = "error" if is_error else self.kind
        if not is_bare:
            self.text("{" + tag + (":" if block.kind == "format" else "#"))
        for item in block.items:
            if self.left <= 0 and not self.pictures:
                return
            self.item(item)
        if not is_bare:
            self.text("}")
        self.kind = "text" if is_error else self.kind

    def item(self, item: Union[str, bytes, Block]) -> None:
        if isinstance(item, Block):
            self.add(item)
        else:
            self.text(readable(item))


def formula_of(block: Block) -> Union[str, None]:
    """The TeX of a block `latex` that has a text and nothing else."""
    if block.tag != "latex" or block.kind != "format" or len(block.items) != 1:
        return None
    [item] = block.items
    return item if isinstance(item, str) else None


def named(block: Block, picture: Picture) -> str:
    """What stands for a picture in a text."""
    return "{%s: %s}" % (readable(block.tag), picture.about)


def text_of(block: Block, pictures: Dict[int, Picture]) -> str:
    """A block as `tmhost show` prints it, but for its pictures."""
    picture = pictures.get(id(block))
    if picture is not None:
        return named(block, picture)
    text = "".join(text_of(item, pictures) if isinstance(item, Block) else readable(item) for item in block.items)
    tag = readable(block.tag)
    return text if tag in SHOWN_WITHOUT_TAG else "{" + tag + (":" if block.kind == "format" else "#") + text + "}"


def whole_text(answer: Answer, pictures: Dict[int, Picture]) -> str:
    return text_of(answer.output, pictures) if pictures else readable(answer.text)


def facts_of(answer: Answer) -> Dict[str, Any]:
    """An answer as the page shows it: its parts, the same as text, whether that is all of it, and how long the whole text is."""
    pictures = pictures_in(answer.output)
    errors = answer.output.errors
    parts = Parts(pictures, errors)
    parts.add(answer.output)
    text = whole_text(answer, pictures)
    is_cut = len(text) - parts.long > LONGEST
    return {"parts": parts.parts, "isError": bool(errors), "text": text[:LONGEST], "isCut": is_cut, "length": len(text), "unset": parts.unset}


def piece_of(answer: Answer, start: int) -> Dict[str, Any]:
    """A further piece of the text of an answer."""
    text = whole_text(answer, pictures_in(answer.output))
    return {"text": text[start : start + PIECE], "start": start, "length": len(text)}
