"""Random scripts for `run` that both of its forms do in one order: at most one session is at something at a time, and a `wait` stands behind it."""

from __future__ import annotations

import random
from typing import Callable, Optional

from area import Sheet
from json_cases import NO_PROGRAMS, Case
from json_lines import LONGEST_LINE, REFUSED_LINES, garbage_of, input_of, remark_of
from json_plays import Play, quick_play_of
from records import area_of

# Lines of `live` that a plain `run` knows too, which then takes the script as `live` does.
OTHERS = (b"print ", b"interrupt ")


def other_line(rng: random.Random, has_others: bool) -> bytes:
    """A line that does nothing, is refused or isn't known, by both forms; one of `live` only in some scripts."""
    makers: list[Callable[[], bytes]] = [lambda: remark_of(rng), lambda: garbage_of(rng), lambda: rng.choice(REFUSED_LINES)]
    while True:
        line = rng.choice(makers)()
        if len(line) <= LONGEST_LINE and (has_others or not line.startswith(OTHERS)):
            return line


def change_of(rng: random.Random, names: list[bytes], count: int) -> list[bytes]:
    """Commands one after another that only change the worksheet, which a plain run takes together."""

    def id() -> int:
        return rng.randint(1, count + 1)

    ways: list[Callable[[], bytes]] = [
        lambda: b"new %d %s %s" % (rng.choice([0, id()]), rng.choice(names), input_of(rng)),
        lambda: b"set %d %s" % (id(), input_of(rng)),
        lambda: b"move %d %d" % (id(), rng.choice([0, id()])),
        lambda: b"clear %d" % id(),
        lambda: b"remove %d" % id(),
    ]
    return [rng.choices(ways, [8, 3, 2, 2, 1])[0]() for _ in range(rng.choice([1, 2, 5, 20]))]


def evaluation_of(rng: random.Random, count: int) -> list[bytes]:
    """Evaluations, each with a wait behind it, so that only one session is at something."""
    return [line for _ in range(rng.randint(1, 3)) for line in (b"eval %d" % rng.randint(1, count + 1), b"wait")]


def run_case(rng: random.Random) -> Case:
    """A script over an empty worksheet, with the plays of its sessions."""
    plays: dict[bytes, Optional[Play]] = {}
    shells: dict[str, Play] = {}
    sessions: list[bytes] = []
    for place in range(rng.randint(1, 3)):
        name, words = b"s%d" % place, [b"sh", b"../r%d" % place]
        if rng.random() < 0.1:
            plays[name], words = None, rng.choice(NO_PROGRAMS)
        else:
            plays[name] = shells[f"r{place}"] = quick_play_of(rng)
        sessions.append(b" ".join([b"session", name, b"plain", *words]))
    lines, count, has_others = list(sessions), 0, rng.random() < 0.3
    for _ in range(rng.choice([2, 6, 20])):
        some = change_of(rng, list(plays), count)
        count += sum(line.startswith(b"new ") for line in some)
        lines += some
        lines += evaluation_of(rng, count) if rng.random() < 0.7 else []
        lines += [other_line(rng, has_others)] if rng.random() < 0.5 else []
        lines += [rng.choice([b"print", b"stop " + rng.choice(list(plays)), b"checkpoint", b"wait"])] if rng.random() < 0.4 else []
    text = b"".join(line + b"\n" for line in [*lines, b"wait", b"print"])
    return Case({"sheet": area_of([])}, Sheet(), {}, plays, shells, text, "nothing", 0)
