"""Records of a worksheet's file, by docs/trust/FORMAT.md, as they are written."""

from __future__ import annotations

import struct
from collections.abc import Iterable

from area import HEADER, OPEN


def record(*parts: bytes) -> bytes:
    payload = b"".join(parts)
    return bytes([OPEN]) + struct.pack(">I", len(payload)) + payload


def short(text: bytes) -> bytes:
    return bytes([len(text)]) + text


def long(text: bytes) -> bytes:
    return struct.pack(">H", len(text)) + text


def number(value: int) -> bytes:
    return struct.pack(">I", value)


def area_of(records: Iterable[bytes], selector: bytes = b"A") -> bytes:
    return HEADER + selector + b"".join(records) + b"\x00"
