"""Writes at most so many MiB of blocks of one shape: `shapes.py SHAPE MIB`. Each text is made from a fixed seed."""
import random
import sys

rng = random.Random(7)
words = [bytes(rng.choices(b"abcdefghijklmnopqrstuvwxyz 0123456789+-*/=()\n", k=rng.randint(3, 60))) for _ in range(4000)]


def text(n):
    return b"".join(rng.choices(words, k=n))


def mixed_block(depth):
    kind = rng.random()
    if kind < 0.45:
        body = text(rng.randint(1, 4)) + b"\x02prompt#In] \x05"
    elif kind < 0.6:
        body = text(rng.randint(20, 400))
    elif kind < 0.75:
        body = text(2) + b"\x1b\x02\x1b\x05\x1b\x1b\x1b[31m" + text(2)
    elif kind < 0.95 and depth < 8:
        body = b"".join(mixed_block(depth + 1) + text(1) for _ in range(rng.randint(1, 4)))
    else:
        body = b""
    return b"\x02" + rng.choice([b"verbatim:", b"latex:", b"scheme:", b"output#"]) + body + b"\x05"


def mixed():
    """short answers, long ones, prompts, nested formats, escapes, noise"""
    return mixed_block(1) + rng.choice([b"", b"\n", b"noise\n"])


def block(body):
    return b"\x02verbatim:" + body + b"\x05"


def letters(n):
    return bytes(rng.choices(b"abcdefghijklmnopqrstuvwxyz", k=n))


def utf8():
    return "".join(rng.choices("äöüßéèàçñαβγδεжзийк漢字仮名∑∫√", k=4000)).encode()


def line():
    return letters(29) + b"\n"


# a pool of pieces for each shape; the pieces of `mixed` are all different
shapes = {
    "mixed": None,
    "long texts": lambda: block(letters(100_000)),
    "lines": lambda: block(b"".join(line() for _ in range(300))),
    "utf-8": lambda: block(utf8()),
    "line feeds": lambda: block(b"\n" * 10_000),
    "escapes": lambda: block(b"".join(rng.choice([b"\x1b\x02", b"\x1b\x05", b"\x1b\x1b", b"\x1b["]) for _ in range(5_000))),
    "noise": lambda: letters(20_000) + block(b"x"),
    "tiny blocks": lambda: b"\x02a:\x05",
    "32 levels": lambda: b"\x02a:" * 32 + b"\x05" * 32,
    "no block end": lambda: letters(20_000),
    "deep escapes": lambda: b"\x02a:\x1b\x02\x1b\x05" * 32 + b"\x05" * 32,
}

shape, target = sys.argv[1], int(sys.argv[2]) << 20
pool = None if shape == "mixed" else [shapes[shape]() for _ in range(50)]
out = sys.stdout.buffer
written = 0
# where the one block begins that is never closed, within its limit
opens = target - (15 << 20) if shape == "no block end" else None
while True:
    if opens is not None and written >= opens:
        written += out.write(b"\x02verbatim:")
        opens = None
    piece = mixed() if pool is None else b"".join(rng.choices(pool, k=1 if len(pool[0]) > 1000 else 1000))
    if written + len(piece) > target:
        break
    out.write(piece)
    written += len(piece)
