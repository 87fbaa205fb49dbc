"""What stands in a worksheet's file, by docs/trust/FORMAT.md and docs/use/SCRIPT.md: a reader of records, payloads and ops apart from the program's
own text, and a worksheet that takes ops as long as they are allowed."""

from __future__ import annotations

import struct
from typing import Callable, NamedTuple, Union

HEADER = b"TMWSHEET\x01"
LINE_END = "\u2028".encode()  # of a line of an input
OPEN = ord("R")
LONGEST = 33_554_432
REASONS = ["StartRefused", "Ended", "ReadFault", "SendFault", "Stalled", "BadTag", "TooDeep", "TooLong", "Stopped"]
NAME = set(b"0123456789abcdefghijklmnopqrstuvwxyzABCDEFGHIJKLMNOPQRSTUVWXYZ_-")


class Block(NamedTuple):
    """A block: its tag, its mark, and texts and blocks by turns."""

    tag: bytes
    mark: bytes
    items: list[bytes | Block]


# A part of an op: a number, some bytes, words, or an output.
Part = Union[int, bytes, list[bytes], Block]


class Op(NamedTuple):
    """An op, as its kind and its parts. Which parts each kind has `op_of` says."""

    kind: int
    parts: tuple[Part, ...]


# What a field shows: an answer with the prompt in front of it, the reason why its line was lost, or nothing.
Outcome = Union[tuple[bytes, Block], str, None]


class Unreadable(Exception):
    """Bytes that are the payload of no op."""


class Refused(Exception):
    """An op that the worksheet doesn't allow."""


class Parts:
    """The parts of a payload, from left to right."""

    def __init__(self, payload: bytes) -> None:
        self.rest = payload

    def take(self, count: int) -> bytes:
        if len(self.rest) < count:
            raise Unreadable
        part, self.rest = self.rest[:count], self.rest[count:]
        return part

    def number(self, width: int = 4) -> int:
        return int.from_bytes(self.take(width), "big")

    def text(self, width: int) -> bytes:
        return self.take(self.number(width))


def items_of(parts: Parts, depth: int) -> list[bytes | Block]:
    """The texts and blocks up to the end of a block, where they are spelled canonically."""
    items: list[bytes | Block] = []
    text = b""
    while (byte := parts.number(1)) != 5:
        if byte == 2:
            items, text = items + [text, block_of(parts, depth + 1)], b""
            continue
        if byte == 27 and (byte := parts.number(1)) not in (2, 5, 27):
            raise Unreadable
        text += bytes([byte])
    return items + [text]


def block_of(parts: Parts, depth: int = 1) -> Block:
    """What stands behind the first byte of a block: its tag, its mark, and texts and blocks by turns."""
    tag = b""
    while (byte := parts.number(1)) not in b":#":
        if byte < 32 or len(tag) == 64:
            raise Unreadable
        tag += bytes([byte])
    if not tag or depth > 32:
        raise Unreadable
    return Block(tag, bytes([byte]), items_of(parts, depth))


def flag_of(parts: Parts) -> int:
    flag = parts.number(1)
    if flag > 1:
        raise Unreadable
    return flag


def output_of(parts: Parts) -> Block:
    if parts.number(1) != 2:
        raise Unreadable
    return block_of(parts)


def reason_of(parts: Parts) -> int:
    reason = parts.number(1)
    if not 1 <= reason <= len(REASONS):
        raise Unreadable
    return reason


def op_of(payload: bytes) -> Op:
    """The op of a payload."""
    parts = Parts(payload)
    kind = parts.number(1)
    op: tuple[Part, ...]
    if kind == 1:
        op = parts.text(1), flag_of(parts), [parts.text(2) for _ in range(parts.number(1))]
    elif kind == 2:
        op = parts.number(), parts.text(1), parts.text(2)
    elif kind == 3:
        op = parts.number(), parts.text(2)
    elif kind in (4, 6, 9):
        op = (parts.number(),)
    elif kind == 5:
        op = parts.number(), parts.number()
    elif kind == 7:
        op = parts.number(), parts.text(2), output_of(parts)
    elif kind == 8:
        op = parts.number(), reason_of(parts)
    else:
        raise Unreadable
    if parts.rest:
        raise Unreadable
    return Op(kind, op)


def is_text(text: bytes, longest: int, below: bytes = b"") -> bool:
    try:
        text.decode()
    except UnicodeDecodeError:
        return False
    return len(text) <= longest and all(byte >= 32 or byte in below for byte in text)


def escaped(text: bytes, kept: bytes = b"") -> bytes:
    """A text in print: bytes below 32, and 127, as `\\x` and two digits."""
    return b"".join(b"\\x%02x" % byte if (byte < 32 or byte == 127) and byte not in kept else bytes([byte]) for byte in text)


def printed(block: Block) -> bytes:
    tag, mark, items = block
    inner = b"".join(escaped(item, b"\t\n") if isinstance(item, bytes) else printed(item) for item in items)
    return inner if tag + mark in (b"verbatim:", b"output#") else b"{" + escaped(tag) + mark + inner + b"}"


class Sheet:
    """A worksheet: its fields by number, their order, its sessions, and the next number."""

    def __init__(self) -> None:
        self.fields: dict[int, tuple[bytes, bytes, Outcome]] = {}  # by number: the session, the input, and what is shown
        self.order: list[int] = []
        self.sessions: list[bytes] = []
        self.next = 1

    def field(self, number: int) -> tuple[bytes, bytes, Outcome]:
        if number not in self.fields:
            raise Refused
        return self.fields[number]

    def put(self, number: int, after: int) -> None:
        self.order.insert(self.order.index(after) + 1 if after else 0, number)

    def take(self, op: Op) -> None:
        """Does an op that is allowed, and raises Refused at another."""
        self.TAKES[op.kind - 1](self, *op.parts)

    def make_session(self, name: bytes, _: int, words: list[bytes]) -> None:
        named = 1 <= len(name) <= 32 and set(name) <= NAME and name not in self.sessions
        if not named or not 1 <= len(words) <= 16 or not all(word and is_text(word, 1_024) for word in words) or len(self.sessions) == 64:
            raise Refused
        self.sessions.append(name)

    def make_field(self, after: int, session: bytes, given: bytes) -> None:
        if session not in self.sessions or after and after not in self.fields or not is_text(given, 4_095, b"\t") or self.next > 1_000_000:
            raise Refused
        self.fields[self.next] = session, given, None
        self.put(self.next, after)
        self.next += 1

    def set_input(self, number: int, given: bytes) -> None:
        session, _, _ = self.field(number)
        if not is_text(given, 4_095, b"\t"):
            raise Refused
        self.fields[number] = session, given, None

    def remove(self, number: int) -> None:
        self.field(number)
        del self.fields[number]
        self.order.remove(number)

    def move(self, number: int, after: int) -> None:
        self.field(number)
        if after:
            self.field(after)
        place = self.order.index(number)
        if after == number or after == (self.order[place - 1] if place else 0):
            raise Refused
        self.order.remove(number)
        self.put(number, after)

    def show(self, number: int, outcome: Outcome) -> None:
        session, given, _ = self.field(number)
        self.fields[number] = session, given, outcome

    def clear(self, number: int) -> None:
        self.show(number, None)

    def answer(self, number: int, prompt: bytes, output: Block) -> None:
        if len(prompt) > 1_024:
            raise Refused
        self.show(number, (prompt, output))

    def lose(self, number: int, reason: int) -> None:
        self.show(number, REASONS[reason - 1])

    def start_at(self, number: int) -> None:
        if not self.next <= number <= 1_000_001:
            raise Refused
        self.next = number

    # By kind, from 1. Which parts the op of each has `op_of` says.
    TAKES: tuple[Callable[..., None], ...] = make_session, make_field, set_input, remove, move, clear, answer, lose, start_at

    def text(self) -> bytes:
        """The worksheet in print."""
        text = b""
        for number in self.order:
            session, given, outcome = self.fields[number]
            if isinstance(outcome, tuple):
                prompt, output = outcome[0], printed(outcome[1])
            else:
                prompt, output = b"> ", b"?" + (b" " + outcome.encode() if outcome else b"")
            lines = b"\n. ".join(map(escaped, given.split(LINE_END)))
            text += b"#%d %s\n%s%s\n%s" % (number, session, escaped(prompt), lines, output)
            text += b"" if output.endswith(b"\n") else b"\n"
        return text


def record_at(area: bytes, gate: int) -> bytes | None:
    """The payload of the record behind a gate, or nothing where none stands there."""
    if gate + 5 > len(area):
        return None
    (length,) = struct.unpack(">I", area[gate + 1 : gate + 5])
    if not 1 <= length <= LONGEST or gate + 5 + length >= len(area):
        return None
    return area[gate + 5 : gate + 5 + length]


def has_header(area: bytes) -> bool:
    return len(area) >= 11 and area.startswith(HEADER)


def rescued(first: bytes, second: bytes) -> tuple[int, int | None, Sheet] | None:
    """What a rescue finds in two files: how many ops, the offset of the gate where it stops if it isn't closed, and the worksheet; or
    nothing where one of them has no header."""
    if not has_header(first):
        return None
    area = second if first[9:10] == b"B" else first
    if not has_header(area):
        return None
    gate, kept, sheet = 10, 0, Sheet()
    while area[gate] == OPEN:
        payload = record_at(area, gate)
        try:
            if payload is None:
                raise Unreadable
            sheet.take(op_of(payload))
        except (Unreadable, Refused):
            return kept, gate, sheet
        gate, kept = gate + 5 + len(payload), kept + 1
    return kept, None, sheet
