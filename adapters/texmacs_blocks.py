"""What a plugin of TeXmacs writes for a line, as the parts of one answer."""
import os
import re
import shutil
import subprocess
from typing import List, NamedTuple, Optional, Tuple, Union

import blocks
import pictures
import texmacs_trees
from blocks import Part

SEEN = 20.0  # seconds that PostScript has to become a picture
FILE = re.compile(rb"([^?]*)(?:\?.*)?", re.DOTALL)
COLOURS = re.compile(rb"\\(?:magenta|blue|red|black|green|brown|cyan)\b ?")
LABEL = re.compile(rb"\\mbox\{\\tt\(\\mathrm\{\\%(\w+)\}\) \}")  # as Maxima writes the number of a value
NAMED = re.compile(rb"(\\%\d+ =) ?\$([^$]*)\$")
TYPE = re.compile(rb"\\axiomtype\{([^{}]*)\}\s*")
NUMBER = re.compile(rb"\\leqno\(\d+\)|\\displaystyle\b\s*")  # of a formula, as Axiom writes it
PROMPT_STYLE = re.compile(rb"\\(?:red|black|blue|mathrm|text)\b ?|[{}$\\]")


class Node(NamedTuple):
    """A block: its tag with the separator, and what is in it."""

    tag: bytes
    items: "List[Union[bytes, Node]]"


class Stream:
    """What a plugin writes, cut into outer blocks and the text between them."""

    def __init__(self) -> None:
        self.rest = b""  # a block that isn't at its end

    def add(self, piece: bytes) -> List[Tuple[bool, bytes]]:
        """What is complete now: whether it is a block, and its bytes. A text counts as complete at once."""
        data, self.rest = self.rest + piece, b""
        found: List[Tuple[bool, bytes]] = []
        start = depth = 0
        for mark in re.finditer(rb"\x1b.|[\x02\x05]", data, re.DOTALL):
            at, byte = mark.start(), mark[0]
            if byte == b"\x02":
                if not depth and at > start:
                    found.append((False, data[start:at]))
                start = start if depth else at
                depth += 1
            elif byte == b"\x05" and depth:
                depth -= 1
                if not depth:
                    found.append((True, data[start:at + 1]))
                    start = at + 1
        if depth:
            self.rest = data[start:]
        elif start < len(data):
            found.append((False, data[start:]))
        return found


def parsed(data: bytes) -> Node:
    """An outer block; one that isn't at its end is closed there."""
    open_nodes = [Node(b"", [])]
    for found in re.finditer(rb"\x02([^\x02\x05:#]{0,64}[:#])?|\x05|((?:\x1b.|[^\x02\x05\x1b])+|\x1b)", data, re.DOTALL):
        if found[2] is not None:
            open_nodes[-1].items.append(re.sub(rb"\x1b([\x02\x05\x1b])", rb"\1", found[2]))
        elif found[0] != b"\x05":
            node = Node(found[1] or b"verbatim:", [])
            open_nodes[-1].items.append(node)
            open_nodes.append(node)
        elif len(open_nodes) > 1:
            open_nodes.pop()
    first = open_nodes[0].items[0] if open_nodes[0].items else Node(b"verbatim:", [])
    return first if isinstance(first, Node) else Node(b"verbatim:", [first])


def text_in(node: Node) -> bytes:
    return b"".join(text_in(item) if isinstance(item, Node) else item for item in node.items)


class Group:
    """The blocks and texts of a line."""

    def __init__(self) -> None:
        self.parts: List[Part] = []
        self.prompt: Optional[bytes] = None
        self.is_prompt_next = False
        self.prompt_begun = b""  # of a prompt that isn't a block, as Lisp's: a byte 5 ends it
        self.has_text = False  # a block has said something

    def take(self, is_block: bool, data: bytes) -> None:
        if not is_block and self.is_prompt_next:
            data = self._bare_prompt(data)
        if not is_block:
            self._text(data.replace(b"\r", b"").replace(b"\x05", b""))  # of what closes nothing
            return
        self._node(parsed(data))

    def _bare_prompt(self, data: bytes) -> bytes:
        """Takes a prompt that stands outside of blocks; what comes after it."""
        self.prompt_begun, end, rest = (self.prompt_begun + data).partition(b"\x05")
        if end:
            self.prompt, self.is_prompt_next = plain_prompt(self.prompt_begun), False
        return rest

    def _node(self, node: Node) -> None:
        if node.tag == b"prompt#" or self.is_prompt_next:
            self.prompt, self.is_prompt_next = plain_prompt(text_in(node)), False
            return
        if node.tag == b"channel:" and text_in(node) == b"prompt":
            self.is_prompt_next = True
            return
        if node.tag == b"command:":
            return
        self.has_text = True
        made = special(node)
        if made is not None:
            self.parts.append(made)
            return
        for item in node.items:
            if isinstance(item, Node):
                self._node(item)
            else:
                self._text(item.replace(b"\r\n", b"\n"))

    def _text(self, text: bytes) -> None:
        if self.parts and not self.parts[-1].format:
            text = self.parts.pop().text + text
        self.parts.append(Part(text))

    def answer(self, prompt: bytes, word: bytes = b"") -> bytes:
        """All that belongs to the line as one block, with a word after it."""
        parts = [part if part.format else Part(part.text.strip(b"\n\x00")) for part in [*self.parts, Part(word)]]
        return blocks.answer([part for part in parts if part.text.strip()], prompt)


def special(node: Node) -> Optional[Part]:
    """A formula or a picture; None of a text. It stands for what it shows, so an empty one is an empty text."""
    text = text_in(node)
    if node.tag == b"latex:":
        return formula(text)
    if node.tag == b"scheme:":
        shown = text.decode("utf-8", "surrogateescape")
        found = texmacs_trees.formula(shown)
        made = Part(b"", b"") if found is None else Part(found.encode("utf-8", "surrogateescape"), blocks.LATEX)
        return made if found else Part(texmacs_trees.as_text(shown).encode("utf-8", "surrogateescape"))
    if node.tag == b"file:":
        return picture_of_file(text)
    if node.tag in (b"ps:", b"postscript:"):
        return drawn(text) or Part(text)
    if node.tag == b"html:":
        return Part(without_tags(text))
    return None


def with_environments(tex: bytes) -> bytes:
    """Matrices of plain TeX, \\pmatrix{a & b\\cr ..}, by the words of LaTeX."""
    opened: List[bytes] = []  # what closes each brace that is open

    def word(found: "re.Match[bytes]") -> bytes:
        token = found[0]
        if token.startswith(b"\\cr"):
            return b"" if tex[found.end():].lstrip().startswith(b"}") else b"\\\\"
        if found[1]:
            opened.append(b"\\end{%b}" % found[1])
            return b"\\begin{%b}" % found[1]
        if token == b"{":
            opened.append(b"}")
            return token
        return opened.pop() if opened else token

    return re.sub(rb"\\(pmatrix|matrix)\{\s*|\\cr\b\s*|[{}]", word, tex)


def formula(text: bytes) -> Part:
    """A formula as one line of LaTeX. Colours go, and what stands before it, as gp's `%1 =`, comes into it."""
    kind = TYPE.fullmatch(text)
    if kind:
        return Part(kind[1].strip())
    if b"\\leqno" in text:
        text = NUMBER.sub(b"", text)
    words = b" ".join(LABEL.sub(rb"(\\mathtt{\\%\1})\\;", COLOURS.sub(b"", text)).split())
    found = NAMED.fullmatch(words)
    if found:
        words = b"$%b %b$" % found.groups()
    words = with_environments(words)
    if words.strip(b"$ ") == b"":
        return Part(b"")
    return Part(words, blocks.LATEX) if b"$" in words else Part(b"$" + words + b"$", blocks.LATEX)


def without_tags(text: bytes) -> bytes:
    """HTML as text. (Macaulay2 writes a byte 0 before each character.)"""
    shown = re.sub(rb"<[^<>]*>", b"", text.replace(b"\0", b""))
    for name, letter in ((b"&lt;", b"<"), (b"&gt;", b">"), (b"&quot;", b'"'), (b"&nbsp;", b" "), (b"&amp;", b"&")):
        shown = shown.replace(name, letter)
    return shown


def plain_prompt(text: bytes) -> bytes:
    """A prompt without the colours that some have."""
    return PROMPT_STYLE.sub(b"", text).strip() + b" "


def picture_of_file(name: bytes) -> Part:
    """A picture with its bytes: the plugin takes its file away."""
    found = FILE.fullmatch(name)
    path = found[1] if found else name
    try:
        with open(path, "rb") as file:
            data = file.read(blocks.LONGEST)
    except OSError:
        return Part(b"[no file " + os.path.basename(path) + b"]")
    return pictures.picture(data) or drawn(data) or Part(b"[" + os.path.basename(path) + b"]")


def drawn(data: bytes) -> Optional[Part]:
    """PostScript, or PDF, as a picture, by Ghostscript; None where that isn't here or has drawn nothing."""
    if shutil.which("gs") is None or not data.lstrip().startswith((b"%!", b"%PDF")):
        return None
    words = ["gs", "-q", "-dSAFER", "-dBATCH", "-dNOPAUSE", "-dEPSCrop", "-r110", "-dTextAlphaBits=4", "-dGraphicsAlphaBits=4", "-dLastPage=1",
             "-sDEVICE=png16m", "-sOutputFile=-", "-"]
    try:
        done = subprocess.run(words, input=data, stdout=subprocess.PIPE, stderr=subprocess.DEVNULL, timeout=SEEN)
    except (OSError, subprocess.TimeoutExpired):
        return None
    return pictures.picture(done.stdout)
