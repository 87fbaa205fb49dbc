"""Interpreters that follow a play: what each writes as its banner and as the answer to each line that it reads, and when it ends.

An interpreter that holds writes nothing until a word stands in the worksheet's file, which a line of the script puts there, or, where it
traps interrupts, until it is interrupted. So lines can be told while something waits, and what comes between them is the same in each run.
"""

from __future__ import annotations

import random
from typing import NamedTuple, Optional

from json_blocks import MOST_DEPTH, Block, Read, block_of, completions_of, read, spelled, text_of, tower_of

# What breaks a stream: a bad tag, or blocks too deep in one another.
FAULTS = [b"\x02\x01", b"\x02:", b"\x02a\x02", b"\x02" + b"n" * 65, b"\x02a:" * (MOST_DEPTH + 1)]

# The parts of a piece that is written at once are read at once: no more of it than a pipe holds.
MOST_AT_ONCE = 60_000

# Where the worksheet was taken away, so that nothing will come any more, a hold is over too.
HEAD = """hold() { until [ "$open" ] || grep -aqsF "$1" sheet sheet.alt; do [ -e sheet ] || exit; sleep 0.01; done; open=; }
say() { for piece; do cat "$0.$piece"; done; }
"""


class Act(NamedTuple):
    """What is done once, for the banner or for a line that was read: `says` writes a block, `deaf` the same and hears nothing more, `faulty`
    ends in a fault of the stream, behind a block where `told` is there, `half` ends in a block, `leaves` ends, and `hangs` does nothing."""

    kind: str
    pieces: tuple[bytes, ...] = ()
    told: Optional[Read] = None
    token: Optional[str] = None


class Play(NamedTuple):
    """The acts of one interpreter: the last one is that of all lines to come."""

    traps: bool
    banner: Act
    answers: tuple[Act, ...]

    def act(self, at: int) -> Act:
        """The act behind so many answers, or the banner for -1."""
        return self.banner if at < 0 else self.answers[min(at, len(self.answers) - 1)]

    def acts(self) -> list[Act]:
        return [self.banner, *self.answers]


def noise_of(rng: random.Random) -> bytes:
    """What no block is: any bytes but the one that begins one."""
    return text_of(rng, 2).replace(b"\x02", b"") if rng.random() < 0.3 else b""


def cut(rng: random.Random, text: bytes) -> tuple[bytes, ...]:
    """A text in pieces."""
    places = sorted(rng.randint(0, len(text)) for _ in range(rng.randint(1, 2)))
    return tuple(text[start:end] for start, end in zip([0, *places], [*places, len(text)]))


def saying_of(rng: random.Random, kind: str, completes: bool) -> Act:
    """An act that writes a block, with noise around it and now and then a block behind it, which answers nothing."""
    size = rng.random()
    if completes and rng.random() < 0.7:
        block = completions_of(rng)
    elif size < 0.02:
        block = tower_of(rng, rng.randint(MOST_DEPTH - 2, MOST_DEPTH))
    else:
        block = block_of(rng)
    text = spelled(block, rng)
    if kind == "says" and rng.random() < 0.2:
        return Act(kind, cut(rng, noise_of(rng) + text + noise_of(rng)), read(block))
    behind = rng.choice(FAULTS) if kind == "faulty" else spelled(block_of(rng), rng) if rng.random() < 0.1 else b""
    whole = noise_of(rng) + text + noise_of(rng) + behind
    # What is after the block must be read with it.
    return Act(kind, (whole,), read(block)) if len(whole) <= MOST_AT_ONCE or not behind else Act("says", (text,), read(block))


def faulty_of(rng: random.Random) -> Act:
    """An act that breaks the stream without an answer, once in a while by its length."""
    if rng.random() < 0.02:
        return Act("faulty", (b"\x02verbatim:" + b"x" * 16_777_300,))
    return Act("faulty", (noise_of(rng) + rng.choice([b"", b"\x02verbatim:"]) + rng.choice(FAULTS),))


def act_of(rng: random.Random, completes: bool, is_last: bool) -> Act:
    """A random act. The last one is done for all lines to come."""
    chance = rng.random()
    if chance < (0.4 if is_last else 0.85):
        return saying_of(rng, "says", completes)
    if chance < 0.87 and not is_last:
        # Long outputs, as base64 or not.
        whole = (b"\xff" if rng.random() < 0.5 else b"") + rng.choice([b"x", b"\n\x01", "\u20ac".encode()]) * 30_000
        return Act("says", (b"\x02verbatim:" + whole + b"\x05",), read_of(whole))
    if chance < 0.92:
        return saying_of(rng, rng.choice(["deaf", "faulty"]), completes)
    if chance < 0.95:
        return faulty_of(rng)
    kind = rng.choice(["half", "half", "leaves", "hangs"])
    return Act(kind, (rng.choice([b"\x02verbatim:hal", b"\x02ver", b"\x02latex:\x02"]),) if kind == "half" else ())


def read_of(text: bytes) -> Read:
    """What is read of a plain text."""
    return Read(None, None, Block(b"verbatim", b":", (text,)))


def play_of(rng: random.Random, name: str, completes: bool, holds: bool) -> Play:
    """A random play. The words for which it holds have its name."""
    count = rng.randint(1, 5)
    acts = [act_of(rng, completes, False) if rng.random() < 0.03 else saying_of(rng, "says", False)]
    acts += [act_of(rng, completes, place == count - 1) for place in range(count)]
    for place, act in enumerate(acts):
        # The last act is done again and again, and would hold once alone.
        if holds and place < count and rng.random() < 0.4:
            acts[place] = act._replace(token=f"OPEN.{name}.{place}.")
    # One whose banner hears nothing more would lose its first line, or not.
    banner = acts[0]._replace(kind="says") if acts[0].kind == "deaf" else acts[0]
    return Play(rng.random() < 0.4, banner, tuple(acts[1:]))


def quick_act_of(rng: random.Random) -> Act:
    """An act that waits for nothing."""
    while (act := act_of(rng, False, False)).kind in ("deaf", "hangs"):
        pass
    return act


def quick_play_of(rng: random.Random) -> Play:
    """A play of such acts."""
    return Play(False, saying_of(rng, "says", False), tuple(quick_act_of(rng) for _ in range(rng.randint(2, 5))))


def changed(rng: random.Random, play: Play) -> Play:
    """A play some of whose acts are others."""
    return play._replace(answers=tuple(act if rng.random() < 0.6 else quick_act_of(rng) for act in play.answers))


def lines_of(act: Act, pieces: list[int]) -> list[str]:
    """What the shell does for an act, with the numbers of its pieces."""
    hold = [f"hold {act.token}"] if act.token else []
    say = ["say " + " ".join(map(str, pieces))]
    ways = {
        "says": say,
        "faulty": say,
        "deaf": ["exec 0<&-", *say, "exec sleep 1000"],
        "half": [*say, "exit"],
        "leaves": ["exit"],
        "hangs": ["exec sleep 1000"],
    }
    return hold + ways[act.kind]


def write_play(play: Play, path: str) -> None:
    """Writes the play for the shell, and its pieces beside it."""
    parts, count = [], 0
    for act in play.acts():
        numbers = list(range(count, count + len(act.pieces)))
        for number, piece in zip(numbers, act.pieces):
            with open(f"{path}.{number}", "wb") as file:
                file.write(piece)
        parts.append("\n".join(lines_of(act, numbers)))
        count += len(act.pieces)
    *first, last = parts
    text = "\nIFS= read -r line || exit\n".join(first) + f"\nwhile IFS= read -r line; do\n{last}\ndone\n"
    with open(path, "w") as file:
        file.write(("trap open=1 INT\n" if play.traps else "") + HEAD + text)
