"""Answers as blocks that TeXmacs reads: texts under `verbatim`, pictures by the names of files. (Under `utf8` TeXmacs 2.1.4 reads letters of two texts twice: `\u00e9<b>` as
`\u00e9<less>b<gtr>`.)"""

import base64
import hashlib
import os
import re
from typing import List, Optional, Union

from tmhost import Block, readable

from . import scheme
from .scheme import Form, Name
from .trees import tree_text

Text = Union[str, bytes]

BEGIN, END = b"\x02", b"\x05"
PICTURES = {"image/png;base64": "png", "image/jpeg;base64": "jpg", "image/svg+xml": "svg"}
OPENED = BEGIN + b"verbatim:"  # an answer is one block, which is open from when its line was taken on


def data_of(text: Text) -> bytes:
    return text.encode("utf-8", "surrogateescape") if isinstance(text, str) else text


def escaped(text: Text) -> bytes:
    return re.sub(rb"[\x02\x05\x1b]", lambda found: b"\x1b" + found[0], data_of(text))


def whole(text: Text, prompt: Text = "") -> bytes:
    """A text as the whole answer to a line."""
    return OPENED + escaped(text) + closed(prompt)


def closed(prompt: Text) -> bytes:
    """The end of an answer, with the prompt of the next line."""
    return (BEGIN + b"prompt#" + escaped(prompt) + END if prompt else b"") + END


def command(form: str) -> bytes:
    """What TeXmacs is to do, in an answer."""
    return BEGIN + b"command:" + escaped(form) + END


def tree(form: List[Form]) -> bytes:
    """A tree of TeXmacs in an answer. Its texts have letters of the Cork encoding."""
    return BEGIN + b"scheme:" + escaped(scheme.written(form).encode("latin-1")) + END


def error(text: Text) -> bytes:
    """What an interpreter says of an error, as TeXmacs shows those of its own sessions."""
    lines = readable(text).strip("\n").expandtabs().split("\n")
    return tree([Name("errput"), [Name("document"), *map(tree_text, lines)]])


class Speech:
    """How blocks of a worksheet are written. `folder` gets the files of pictures, by their names alone known to TeXmacs."""

    def __init__(self, folder: str) -> None:
        self.folder = folder

    def part(self, block: Block) -> bytes:
        """A block of an answer, within the one that is open."""
        return self._inside(block) if block.kind == "format" and data_of(block.tag) in (b"verbatim", b"utf8") else self._block(block)

    def _inside(self, block: Block) -> bytes:
        return b"".join(self._block(item, block.is_output) if isinstance(item, Block) else escaped(item) for item in block.items)

    def _block(self, block: Block, is_in_output: bool = False) -> bytes:
        """A block, which is an error where it has that channel, or is one of `output` in another one."""
        tag = data_of(block.tag)
        if block.kind != "format":
            if tag == b"error" or block.is_output and is_in_output:
                return error(block.plain)
            if block.is_output:
                return self._inside(block)
            return BEGIN + tag + b"#" + self._inside(block) + END
        picture = self._picture(block)
        if picture is not None:
            return picture
        if tag == b"command":  # a worksheet orders nothing
            tag = b"verbatim"
        return BEGIN + (b"verbatim" if tag == b"utf8" else tag) + b":" + self._inside(block) + END

    def _picture(self, block: Block) -> Optional[bytes]:
        """A picture as a file in the folder: TeXmacs reads it there, and takes it into the document."""
        kind = PICTURES.get(data_of(block.tag).decode("utf-8", "replace"))
        if kind is None or len(block.items) != 1 or isinstance(block.items[0], Block):
            return None
        data = data_of(block.items[0])
        try:
            data = base64.b64decode(data) if kind != "svg" else data
        except ValueError:
            return None
        os.makedirs(self.folder, mode=0o700, exist_ok=True)
        path = os.path.join(self.folder, hashlib.sha256(data).hexdigest()[:16] + "." + kind)
        if not os.path.exists(path):
            with open(path, "wb") as file:
                file.write(data)
        return BEGIN + b"file:" + escaped(path) + b"?width=0.6par" + END


def next_prompt(prompt: Text) -> Text:
    """The prompt of the next line, as far as it can be known: the host tells it with the next answer. `In [N]: ` is counted on."""
    if isinstance(prompt, bytes):
        return prompt
    return re.sub(r"^(\D*)(\d+)([\]):]+ *)$", lambda found: f"{found[1]}{int(found[2]) + 1}{found[3]}", prompt)
