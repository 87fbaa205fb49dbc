"""Cases: a worksheet to begin with, interpreters, a script, and now and then what stands in the way."""

from __future__ import annotations

import random
from typing import Callable, NamedTuple, Optional

from area import REASONS, Sheet, op_of
from json_blocks import block_of, spelled, text_of, without
from json_lines import input_of
from json_plays import Play, play_of
from json_scripts import LAST_ID, MOST_SESSIONS, Maker, Room, Spare
from records import area_of, long, number, record, short

# Words that start nothing: no file, a folder, a file that is no program.
NO_PROGRAMS = [[b"../missing"], [b"/"], [b"sheet"], [b"\xe2\x82\xac", b"a"], [b"../missing"] * 16, [b"../" + b"x" * 1_000]]


class Case(NamedTuple):
    """The files to begin with, of which there may be none, the worksheet in them with whether its sessions answer requests and with their words, the
    plays by the names of their sessions and by those of their files, the lines, and what stands in the way: `nothing`, `missing` files, a `folder`
    as the input, a `limit` of the files' size, or `damage`."""

    files: dict[str, bytes]
    sheet: Sheet
    sessions: dict[bytes, tuple[bool, list[bytes]]]
    plays: dict[bytes, Optional[Play]]
    shells: dict[str, Play]
    text: bytes
    trouble: str
    limit: int


class Beginning:
    """A worksheet that is made of records."""

    def __init__(self) -> None:
        self.sheet, self.records = Sheet(), list[bytes]()
        self.sessions: dict[bytes, tuple[bool, list[bytes]]] = {}

    def does(self, *parts: bytes) -> None:
        payload = b"".join(parts)
        self.sheet.take(op_of(payload))
        self.records.append(record(payload))

    def session(self, name: bytes, tab: bool, words: list[bytes]) -> None:
        self.does(b"\x01", short(name), bytes([tab, len(words)]), *map(long, words))
        self.sessions[name] = tab, words

    def field(self, rng: random.Random, name: bytes) -> None:
        """A field with an answer, a reason, or neither."""
        id, chance = self.sheet.next, rng.random()
        self.does(b"\x02", number(rng.choice([0, *self.sheet.order])), short(name), long(input_of(rng)))
        if chance < 0.6:
            prompt = text_of(rng, 3)[:1_024]
            self.does(b"\x07", number(id), long(prompt), spelled(without(block_of(rng))))
        elif chance < 0.8:
            self.does(b"\x08", number(id), bytes([rng.randint(1, len(REASONS))]))


def rooms_of(rng: random.Random, holds: bool) -> tuple[list[Spare], dict[str, Play]]:
    """Sessions with their words, and the plays by the names of their files."""
    spare, shells = list[Spare](), dict[str, Play]()
    for place in range(rng.randint(1, 4)):
        name, tab = rng.choice([b"s%d", b"S-%d", b"_%d" + b"n" * 29]) % place, rng.random() < 0.5
        if rng.random() < 0.1:
            spare.append(Spare(name, rng.choice(NO_PROGRAMS), Room(None, tab)))
            continue
        shells[f"p{place}"] = play = play_of(rng, str(place), tab, holds)
        spare.append(Spare(name, [b"sh", b"../p%d" % place], Room(play, tab)))
    if rng.random() < 0.005:
        spare += [Spare(b"x%d" % place, [b"../missing"], Room(None, False)) for place in range(MOST_SESSIONS + 3)]
    rng.shuffle(spare)
    return spare, shells


def beginning_of(rng: random.Random, spare: list[Spare], high: bool) -> tuple[Beginning, dict[bytes, Room]]:
    """A worksheet that has some of the sessions, which are taken out, and fields in them."""
    begun, rooms = Beginning(), dict[bytes, Room]()
    while spare and rng.random() < 0.6 and len(rooms) < MOST_SESSIONS:
        name, words, room = spare.pop()
        begun.session(name, room.tab, words)
        rooms[name] = room
    for _ in range(rng.choice([0, 0, 1, 4]) if rooms else 0):
        begun.field(rng, rng.choice(list(rooms)))
    if high:
        begun.does(b"\x09", number(LAST_ID - rng.randint(0, 2)))
    return begun, rooms


def files_of(rng: random.Random, begun: Beginning) -> dict[str, bytes]:
    """The files of a worksheet, which lies in the second one now and then."""
    if rng.random() < 0.2:
        return {"sheet": area_of([], b"B"), "sheet.alt": area_of(begun.records)}
    return {"sheet": area_of(begun.records)}


def write_lines(maker: Maker, rng: random.Random) -> None:
    """Writes the lines of a script."""
    moves: list[tuple[Callable[[], None], float]] = [(maker.session, 1), (maker.evaluate, 8), (maker.complete, 3), (maker.release, 2), (maker.change, 5)]
    moves += [(maker.look, 4), (maker.stall, 0.02), (maker.many, 0.02)]
    while not maker.rooms and maker.spare and rng.random() < 0.95:
        maker.session()
    for _ in range(rng.choice([3, 15, 40, 80])):
        if rng.random() < 0.06 and maker.rooms:
            maker.stop(rng.choice(list(maker.rooms)))
        rng.choices([move for move, _ in moves], [weight for _, weight in moves])[0]()
        while len(maker.spare) > 10:
            maker.session()
    maker.finish()


def hindered(rng: random.Random, files: dict[str, bytes]) -> tuple[dict[str, bytes], str, int]:
    """Now and then something stands in the way."""
    trouble = rng.choice(["missing", "folder", "limit", "damage", "damage"]) if rng.random() < 0.08 else "nothing"
    if trouble == "missing":
        files = {}
    elif trouble == "damage":
        name = rng.choice(list(files))
        data = bytearray(files[name])
        at = rng.randrange(len(data))
        data[at] ^= 1 << rng.randrange(8)
        files = files | {name: bytes(data) if rng.random() < 0.6 else bytes(data[:at])}
    return files, trouble, max(map(len, files.values()), default=0) + rng.randint(0, 600)


def case_of(rng: random.Random) -> Case:
    """A random case."""
    high = rng.random() < 0.05
    spare, shells = rooms_of(rng, not high)
    plays = {name: room.play for name, _, room in spare}
    begun, rooms = beginning_of(rng, spare, high)
    maker = Maker(rng, begun.sheet, rooms, spare)
    write_lines(maker, rng)
    files, trouble, limit = hindered(rng, files_of(rng, begun))
    # What a damage leaves may be another worksheet, of which nothing is known.
    text = b"print\nprint 1\nfoo\ncheckpoint\nprint\n" if trouble == "damage" else maker.text()
    return Case(files, begun.sheet, begun.sessions, plays, shells, text, trouble, limit)
