"""Blocks as interpreters may write them, and what is read of them, by docs/use/PROTOCOL.md and docs/use/SCRIPT.md: apart from the program's own text."""

from __future__ import annotations

import random
import re
from typing import NamedTuple, Optional, Union

from area import escaped

MOST_DEPTH = 32
MOST_PROMPT = 1_024

# What may stand in a text: lines that look like replies, events or objects, bytes that are no UTF-8, control bytes, quotes and escapes.
PIECES = [
    b"ok\n", b"answered 1\n", b"bad line 7\n", b"field 9\n", b"ended a Ended lost 1\n", b"#1 a\n> x\n?\n", b"?", b"? Ended", b"banner a\n",
    b'{"line":3,"type":"done"}\n', b'{"type":"end"}', b'{"base64":"YQ=="}', b'"', b"\\", b'\\"', b"\\u0041", b"\\x41", b"{latex:x}", b"{", b"}",
    b"\0", b"\x01", b"\x08", b"\t", b"\n", b"\x0b", b"\x0c", b"\r", b"\r\n", b"\x10", b"\x1f", b" ", b"\x7f", b"\x02", b"\x05", b"\x1b", b"\x1b\x1b",
    b"\x80", b"\xff", b"\xc3", b"\xe2\x82", b"\xf0\x9f\x98", b"\xed\xa0\x80", b"\xc0\xbc", b"\xf4\x90\x80\x80", b"\xef\xbf\xbe", b"\xef\xbb\xbf",
    b"x", b"x^2", b"some text ", "\u00e9".encode(), "\u20ac".encode(), "\U0001f600".encode(), "\u2028".encode(), "\u0085".encode(), "\u202e".encode(),
]

NAMES = [b"verbatim", b"verbatim", b"verbatim", b"output", b"latex", b"html", b"scheme", b"prompt", b"input", b"error", b'"', b"\\", b"{", b"\x7f",
         b"\xe9", b"\xc3\xa9", b"a b", b"\xff\xfe", b"n" * 64, b"}" * 63 + b"\x80"]

# The bytes that are escaped in the canonical spelling, and those that must be: a 27 alone may stand for itself.
EACH = rb"[\x02\x05\x1b]"
NEEDED = rb"[\x02\x05]|\x1b(?=[\x02\x05\x1b]|\Z)"


class Block(NamedTuple):
    """A block: its name, `:` of a format or `#` of a channel, and the texts and blocks in it."""

    name: bytes
    mark: bytes
    items: tuple[Union[bytes, "Block"], ...]


Item = Union[bytes, Block]


class Read(NamedTuple):
    """What is read of an outer block: its prompt and its default input, where it has them, and its output."""

    prompt: Optional[bytes]
    default: Optional[bytes]
    output: Block


def text_of(rng: random.Random, most: int) -> bytes:
    """Some pieces, or any bytes."""
    return b"".join(rng.choice(PIECES) if rng.random() < 0.85 else rng.randbytes(rng.randint(1, 4)) for _ in range(rng.randint(0, most)))


def long_text_of(rng: random.Random) -> bytes:
    """A text that is cut where a prompt is too long, now and then inside a character."""
    return b"x" * rng.randint(MOST_PROMPT - 5, MOST_PROMPT) + "\u20ac".encode() * rng.randint(1, 3)


def block_of(rng: random.Random, depth: int = 1) -> Block:
    """A random block, with random ones in it."""
    items: list[Item] = []
    for _ in range(rng.randint(0, 4)):
        nested = depth < MOST_DEPTH and rng.random() < 0.4 / depth
        items.append(block_of(rng, depth + 1) if nested else text_of(rng, 4))
    if rng.random() < 0.25:
        items.append(Block(b"prompt", b"#", (long_text_of(rng) if rng.random() < 0.1 else text_of(rng, 3),)))
    if rng.random() < 0.2:
        items.insert(rng.randint(0, len(items)), Block(b"input", b"#", (text_of(rng, 3),)))
    name = b"verbatim" if rng.random() < 0.5 else rng.choice(NAMES)
    return Block(name, rng.choice([b":", b":", b":", b"#"]), tuple(items))


def tower_of(rng: random.Random, levels: int) -> Block:
    """A block with so many levels."""
    block = Block(b"verbatim", b":", (text_of(rng, 2),))
    for _ in range(levels - 1):
        block = Block(rng.choice(NAMES), rng.choice([b":", b"#"]), (text_of(rng, 1), block, text_of(rng, 1)))
    return block


def completions_of(rng: random.Random) -> Block:
    """What an answer to a request of completions may be, and what looks like one."""
    strings = [b'"' + re.sub(rb'(["\\])', rb"\\\1", text_of(rng, 2)) + b'"' for _ in range(rng.randint(0, 4))]
    wrong = rng.choice([b"", b"3", b"(list 1)", b'("tuple")', b'(tuple "a)', b"(tuple x)", b"(tuple", b'""', b"\n \t"])
    text = wrong if rng.random() < 0.2 else b"(tuple " + rng.choice([b" ", b"\n", b""]).join(strings) + b")"
    inner = Block(b"scheme", b":", (rng.choice([b"", b" "]) + text + rng.choice([b"", b"\n"]),))
    return inner if rng.random() < 0.7 else Block(b"verbatim", b":", (b" ", inner, rng.choice([b"", b"\n", b"x"])))


def spelled(block: Block, rng: Optional[random.Random] = None) -> bytes:
    """The canonical spelling of a block, or a random one: a 27 that needs none before it may stand alone."""
    inner = b""
    for item in block.items:
        if isinstance(item, Block):
            inner += spelled(item, rng)
            continue
        inner += re.sub(rng.choice([EACH, NEEDED]) if rng else EACH, b"\x1b\\g<0>", item)
    return b"\x02" + block.name + block.mark + inner + b"\x05"


def all_text(block: Block) -> bytes:
    """All texts in a block, without the tags."""
    return b"".join(all_text(item) if isinstance(item, Block) else item for item in block.items)


def opened(block: Block) -> list[Block]:
    """A block and the blocks in it, in the order in which they open."""
    return [block] + [inner for item in block.items if isinstance(item, Block) for inner in opened(item)]


def is_channel(block: Block, name: bytes) -> bool:
    return block.mark == b"#" and block.name == name


def is_apart(block: Block) -> bool:
    """Whether it is a prompt or a default input."""
    return is_channel(block, b"prompt") or is_channel(block, b"input")


def without(block: Block) -> Block:
    """A block without the prompts and default inputs in it, its texts joined."""
    items: list[Item] = []
    for item in block.items:
        if isinstance(item, Block):
            items += [] if is_apart(item) else [without(item)]
        elif item and items and isinstance(items[-1], bytes):
            items[-1] += item
        elif item:
            items.append(item)
    return Block(block.name, block.mark, tuple(items))


def read(block: Block) -> Read:
    """What is read of an outer block."""
    texts = [[all_text(one) for one in opened(block) if is_channel(one, name)] for name in (b"prompt", b"input")]
    prompt, default = (found[-1] if found else None for found in texts)
    output = Block(b"verbatim", b":", ()) if is_apart(block) else without(block)
    return Read(None if prompt is None else prompt[:MOST_PROMPT], default, output)


def quoted(text: bytes) -> bytes:
    return b'"' + escaped(re.sub(rb'(["\\])', rb"\\\1", text)) + b'"'


def shown(block: Block) -> bytes:
    """A block as a worksheet shows it."""
    inner = b"".join(shown(item) if isinstance(item, Block) else escaped(item, b"\t\n") for item in block.items)
    return inner if block.name + block.mark in (b"verbatim:", b"output#") else b"{" + escaped(block.name) + block.mark + inner + b"}"


def printed(block: Block) -> bytes:
    """A block with all its tags, on one line."""
    inner = b"".join(printed(item) if isinstance(item, Block) else escaped(item) for item in block.items)
    return b"{" + escaped(block.name) + block.mark + inner + b"}"


SPACE = rb"[\t\n\x0c\r ]*"
STRING = rb'"(?:[^"\\]|\\.)*"'


def scheme_text(output: Block) -> Optional[bytes]:
    """The text of an output that tells completions."""
    blocks = [item for item in output.items if isinstance(item, Block)]
    if output.name + output.mark == b"scheme:":
        return None if blocks else all_text(output)
    texts = b"".join(item for item in output.items if isinstance(item, bytes))
    if output.name + output.mark != b"verbatim:" or not re.fullmatch(SPACE, texts) or len(blocks) > 1:
        return None
    return scheme_text(blocks[0]) if blocks and blocks[0].name == b"scheme" else None if blocks else b""


def completions_in(output: Block) -> Optional[list[bytes]]:
    """The root and the completions that an output tells, or nothing where it can't be read as some."""
    text = scheme_text(output)
    if text is None:
        return None
    if re.fullmatch(SPACE + rb'(?:"")?' + SPACE, text):
        return [b""]
    strings = re.fullmatch(rb"(?s)%b\(%btuple%b((?:%b%b)*)\)%b" % (SPACE, SPACE, SPACE, STRING, SPACE, SPACE), text)
    found = re.findall(rb"(?s)" + STRING, strings[1]) if strings else []
    texts = [re.sub(rb'\\(["\\])', rb"\1", one[1:-1]) for one in found]
    return (texts or [b""]) if strings else None
