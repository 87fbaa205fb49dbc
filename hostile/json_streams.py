"""Streams for `blocks`: noise and blocks in any spelling, and now and then what breaks one, or leaves it open."""

from __future__ import annotations

import random

from json_blocks import MOST_DEPTH, block_of, spelled, tower_of
from json_plays import FAULTS, noise_of

# What is no whole block, wherever it ends.
OPEN = [b"\x02", b"\x02a", b"\x02verbatim:", b"\x02verbatim:x\x1b", b"\x02verbatim:\x02prompt#> \x05"]


def part_of(rng: random.Random) -> bytes:
    """A block, with noise around it."""
    block = tower_of(rng, rng.randint(1, MOST_DEPTH)) if rng.random() < 0.05 else block_of(rng)
    return noise_of(rng) + spelled(block, rng) + noise_of(rng)


def stream_of(rng: random.Random) -> bytes:
    """A random stream: a few are any bytes."""
    if rng.random() < 0.05:
        return rng.randbytes(rng.randint(0, 200)) if rng.random() < 0.5 else bytes(rng.choice(b"\x02\x05\x1ba:#") for _ in range(rng.randint(0, 60)))
    whole = b"".join(part_of(rng) for _ in range(rng.randint(0, 6)))
    chance = rng.random()
    if chance < 0.2:
        return whole + rng.choice(FAULTS) + part_of(rng)
    if chance < 0.35:
        return whole + rng.choice(OPEN)
    if chance < 0.5:
        return whole[: rng.randint(0, len(whole))]
    return whole
