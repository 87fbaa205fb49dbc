"""Lines that a worksheet is told which are no commands, or are refused, and inputs of fields."""

from __future__ import annotations

import random

LONGEST_LINE = 65_536
LONGEST_INPUT = 4_095

# Lines of no form.
BAD_LINES = [
    b"foo", b" print", b"print ", b"print 01", b"print -1", b"print 1 ", b"print 4294967296", b"wait ", b"wait 0", b"wait 01", b"wait 1000001", b"wait x", b"wait 1 ",
    b"wait\r\r", b"\r\r", b" ", b"\xef\xbb\xbfprint", b"checkpoint ", b"checkpoint 1", b"session", b"session ", b"session a", b"session a ", b"session a tabs p", b"new 0", b"new",
    b"new x a", b"new 01 a x", b"set", b"set ", b"set x y", b"remove", b"remove ", b"remove 1 ", b"remove 01", b"remove +1", b"remove 10000000000", b"move 1", b"move 1  2",
    b"move 1 2 ", b"clear -1", b"clear 1\xff", b"eval", b"eval 1 2", b"eval 01", b"complete", b"complete 1", b"complete 1 ", b"complete x 1", b"complete 1 01", b"complete 1 x y", b"complete 1  1 x", b"stop",
    b"interrupt", b"interrupt ", b"interrupt a b", b"interrupt \xc3\xa9", b"interrupt " + b"n" * 33, b"PRINT", b"evil 1", b"print\t1", b"print\x00", b"\x00", b"\xff\xfe",
    b'{"line":1,"type":"done"}', b"ok", b"answered 1", b"%", b"wait\x0c",
]

# Lines that are refused, whatever the worksheet is.
REFUSED_LINES = [
    b"new 0  x", b"new 0 nobody x", b"session  tab p", b"session a.b plain p", b"session " + b"n" * 33 + b" plain p", b"session \xff plain p", b"stop ", b"stop nobody", b"stop \xff\x01",
    b"stop a b", b"interrupt nobody", b"interrupt -", b"set 0", b"set 4294967295 x", b"remove 0", b"clear 0", b"move 0 0", b"eval 0", b"complete 0 0", b"complete 4294967295 4294967295",
    b"complete 0 0 ", b"complete 4294967295 9 \x10",
    b"print 0", b"print 4294967295", b"session w plain", b"session w plain ", b"session w tab p  q", b"session w tab p\x01", b"session w tab \xff", b"session w tab" + b" p" * 17,
    b"session w plain " + b"p" * 1_025,
]

PARTS = ["x", "^2", " ", "  ", "\t", "\x7f", "\u0080", "\u0085", "\u009f", "\u00e9", "\u20ac", "\u2028", "\ufeff", "\U0001f600", "\u202e", '"', "\\", "\\n", "{", "}", "$", "#", "print", "wait"]


def input_of(rng: random.Random) -> bytes:
    """An input that a field may have."""
    text = "".join(rng.choice(PARTS) for _ in range(rng.randint(0, 6))).encode()
    return text + b"x" * (LONGEST_INPUT - len(text)) if rng.random() < 0.01 else text


def wrong_input_of(rng: random.Random) -> bytes:
    """One that it may not have."""
    wrong = rng.choice([b"\x00", b"\x01", b"\x1f", b"\r.", b"\x10", b"\xff", b"\xc3", b"\xed\xa0\x80", b"\xc0\xbc", b"x" * LONGEST_INPUT])
    return b"x" + wrong + b"."


def remark_of(rng: random.Random) -> bytes:
    """A line that does nothing: empty, or a remark of any bytes, once in a while as long as a line may be."""
    if rng.random() < 0.3:
        return b""
    if rng.random() < 0.01:
        return b"#" + b"x" * (LONGEST_LINE - 1)
    return b"#" + rng.randbytes(rng.randint(0, 8)).replace(b"\n", b"").rstrip(b"\r")


def garbage_of(rng: random.Random) -> bytes:
    """A line that isn't known: of the list, of random bytes, or too long. A capital in front makes a known word unknown."""
    chance = rng.random()
    if chance < 0.02:
        return rng.choice([b"#", b"set 1 ", b"print", b"wait "]) + b"x" * rng.choice([LONGEST_LINE, LONGEST_LINE + 1, 140_000])
    if chance < 0.3:
        return b"E" + rng.randbytes(rng.randint(0, 8)).replace(b"\n", b"").rstrip(b"\r")
    return rng.choice(BAD_LINES)
