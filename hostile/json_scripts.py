"""Random scripts for `live` whose events come in one order: at most one session says something at a time, and a `wait` stands behind it.

`Maker` follows what its lines do as far as it must, to know who will say something next. An interpreter that holds or hangs says nothing, so
any lines may come while lines and requests wait in it.
"""

from __future__ import annotations

import random
from typing import NamedTuple, Optional

from area import Sheet
from json_lines import REFUSED_LINES, garbage_of, input_of, remark_of, wrong_input_of
from json_plays import Play

MOST_ITEMS = 1_024
MOST_FIELDS = 10_000
MOST_SESSIONS = 64
LAST_ID = 1_000_000


class Outlook(NamedTuple):
    """What a wait will come to: the words that aren't there yet for which it would hold, in order, how it is over (`idle`, `ended`),
    `deaf` where the interpreter hears nothing more, or never (`stuck`), and behind how many answers."""

    shut: list[str]
    end: str
    at: int


class Room:
    """A session: how its interpreter plays, where its words are one, and how far its life has come, where one goes on."""

    def __init__(self, play: Optional[Play], tab: bool) -> None:
        self.play, self.tab = play, tab
        self.end()

    def end(self) -> None:
        self.is_deaf, self.at = False, -1
        self.waiting: list[tuple[int, bool]] = []

    def is_quiet(self, opened: set[str]) -> bool:
        """Whether nothing is said where an item waits."""
        act = self.play.act(self.at) if self.play else None
        return act is not None and (act.kind == "hangs" or act.token is not None and act.token not in opened)

    def outlook(self, opened: set[str], more: int = 0) -> Outlook:
        """What a wait will come to with so many items more."""
        assert self.play
        shut, at, left = list[str](), self.at, len(self.waiting) + more
        while True:
            act = self.play.act(at)
            if act.token and act.token not in opened:
                shut.append(act.token)
            if act.kind not in ("says", "deaf"):
                return Outlook(shut, "stuck" if act.kind == "hangs" else "ended", at)
            left -= at >= 0
            at += 1
            if left == 0 or act.kind == "deaf":
                return Outlook(shut, "ended" if left else "deaf" if act.kind == "deaf" else "idle", at)


class Spare(NamedTuple):
    """A session that a line may make, and its words."""

    name: bytes
    words: list[bytes]
    room: Room


class Maker:
    """The lines of a script, and what it must know of the worksheet behind them."""

    def __init__(self, rng: random.Random, sheet: Sheet, rooms: dict[bytes, Room], spare: list[Spare]) -> None:
        self.rng, self.rooms, self.spare, self.lines = rng, rooms, spare, list[bytes]()
        self.fields: dict[int, tuple[bytes, bytes]] = {id: (field[0], field[1]) for id, field in sheet.fields.items()}
        self.next_id, self.opened = int(sheet.next), set[str]()
        # The fields whose inputs are words for which interpreters hold.
        self.kept: set[int] = set()

    def say(self, line: bytes) -> None:
        self.lines.append(line)

    def waits_for(self) -> list[bytes]:
        """The sessions in which an item waits."""
        return [name for name, room in self.rooms.items() if room.waiting]

    def is_in_flight(self, id: int) -> bool:
        return any((id, False) in room.waiting for room in self.rooms.values())

    def some_id(self) -> int:
        """The number of a field, now and then of none."""
        ids = list(self.fields)
        if not ids or self.rng.random() < 0.05:
            ids = [0, self.next_id, self.next_id + 1, 4_294_967_295]
        return self.rng.choice(ids)

    def new(self, after: int, name: bytes, text: bytes, is_valid: bool = True) -> bool:
        """A new field, and whether it is made."""
        self.say(b"new %d %s %s" % (after, name, text) if text or self.rng.random() < 0.5 else b"new %d %s" % (after, name))
        is_there = name in self.rooms and (after == 0 or after in self.fields)
        if not is_there or not is_valid or len(self.fields) >= MOST_FIELDS or self.next_id > LAST_ID:
            return False
        self.fields[self.next_id] = name, text
        self.next_id += 1
        return True

    def open(self, token: str) -> bool:
        """Puts a word into the worksheet's file for which an interpreter holds."""
        if not self.new(0, self.rng.choice(list(self.rooms)), token.encode()):
            return False
        self.kept.add(self.next_id - 1)
        self.opened.add(token)
        return True

    def session(self) -> None:
        """Makes one of the sessions that are still to be made."""
        if not self.spare:
            return
        name, words, room = self.spare.pop()
        self.say(b" ".join([b"session", name, b"tab" if room.tab else b"plain", *words]))
        if len(self.rooms) < MOST_SESSIONS:
            self.rooms[name] = room
            self.new(0, name, input_of(self.rng))

    def stop(self, name: bytes) -> None:
        self.say(b"stop " + name)
        if name in self.rooms:
            self.rooms[name].end()

    def wait_for(self, room: Room, end: str, at: int) -> None:
        """A wait behind what makes a session speak, which comes to this end."""
        self.say(self.rng.choice([b"wait", b"wait", b"wait 1000", b"wait 1000000"]))
        if end == "ended":
            return room.end()
        room.waiting, room.at, room.is_deaf = [], at, end == "deaf"

    def alone(self, name: bytes) -> bool:
        """Whether no other session waits; now and then the others are stopped for that."""
        others = [other for other in self.waits_for() if other != name]
        if others and self.rng.random() < 0.5:
            return False
        for other in others:
            self.stop(other)
        return True

    def lose(self, line: bytes) -> None:
        """Asks an item that is lost at once. The commands after it would find it waiting still, where they are one group with it: a line
        that is no command parts them from it."""
        self.say(line)
        if self.rng.random() < 0.5:
            self.say(b"clear 0")
        self.say(b"print 0")

    def ask(self, id: int, line: bytes, completes: bool) -> None:
        """Asks an item that is accepted, and waits for what comes of it, where it isn't quiet."""
        name = self.fields[id][0]
        room = self.rooms[name]
        if room.play is None or room.is_deaf:
            self.lose(line)
            return room.end()
        if room.is_quiet(self.opened):
            self.say(line)
            return room.waiting.append((id, completes))
        view = room.outlook(self.opened, 1)
        if view.end == "stuck" or not self.alone(name) or not all(self.open(token) for token in view.shut):
            return
        self.say(line)
        self.wait_for(room, view.end, view.at)

    def evaluate(self) -> None:
        """Evaluates a field, most times one that may be."""
        id = self.some_id()
        if self.is_in_flight(id) and self.rng.random() < 0.7:
            return
        if id not in self.fields or self.is_in_flight(id) or len(self.rooms[self.fields[id][0]].waiting) >= MOST_ITEMS:
            return self.say(b"eval %d" % id)
        self.ask(id, b"eval %d" % id, False)

    def complete(self) -> None:
        """Asks for completions at a cursor of a field's input, or of another text, now and then at one that it doesn't have."""
        id = self.some_id()
        if id not in self.fields:
            return self.say(b"complete %d 0" % id)
        name, text = self.fields[id]
        own = b""
        if self.rng.random() < 0.4:
            text = input_of(self.rng)
            own = b" " + text
        fronts = {len(text.decode()[:count].encode()) for count in range(min(len(text), 40) + 1)}
        cursor = self.rng.choice(sorted(fronts)) if self.rng.random() < 0.8 else self.rng.randint(0, min(len(text), 30) + 2)
        line, room = b"complete %d %d%s" % (id, cursor, own), self.rooms[name]
        if not room.tab or cursor not in fronts or len(room.waiting) >= MOST_ITEMS:
            return self.say(line)
        self.ask(id, line, True)

    def many(self) -> None:
        """More requests than may wait, in a session that waits quietly."""
        for id, (name, _) in self.fields.items():
            room = self.rooms[name]
            if room.tab and room.waiting:
                for _ in range(MOST_ITEMS + 3 - len(room.waiting)):
                    self.say(b"complete %d 0" % id)
                room.waiting += [(id, True)] * (MOST_ITEMS - len(room.waiting))
                return

    def release(self) -> None:
        """Has one of the sessions go on that wait quietly, or ends it."""
        if not self.waits_for():
            return
        name = self.rng.choice(self.waits_for())
        room, chance = self.rooms[name], self.rng.random()
        assert room.play
        view = room.outlook(self.opened)
        if chance < 0.15 or not self.alone(name):
            return self.stop(name)
        if not room.play.traps and (chance < 0.3 or view.end == "stuck"):
            self.say(b"interrupt " + name)
            return self.wait_for(room, "ended", 0)
        if view.end == "stuck" or not all(self.open(token) for token in view.shut[1:]):
            return self.stop(name)
        if room.play.traps and room.at >= 0 and self.rng.random() < 0.5:
            self.say(b"interrupt " + name)
        elif not self.open(view.shut[0]):
            return self.stop(name)
        self.wait_for(room, view.end, view.at)

    def stall(self) -> None:
        """A wait whose time is over, where all that wait are quiet."""
        if not self.waits_for():
            return
        self.say(b"wait 1")
        for name in self.waits_for():
            self.rooms[name].end()

    def change(self) -> None:
        """A command that changes fields, or is refused."""
        rng, id = self.rng, self.some_id()
        is_valid = rng.random() < 0.9
        text = input_of(rng) if is_valid else wrong_input_of(rng)
        after = rng.choice([0, self.some_id()])
        kind = rng.randrange(8)
        if kind < 3:
            self.new(after, rng.choice(list(self.rooms) + [b"nobody"] * (rng.random() < 0.1) or [b"a"]), text, is_valid)
        elif kind == 3:
            self.say(b"move %d %d" % (id, after))
        elif kind == 4:
            self.say(b"clear %d" % id)
        elif id in self.kept:
            self.say(b"print %d" % id)
        elif kind == 5:
            self.say(b"remove %d" % id)
            if not self.is_in_flight(id):
                self.fields.pop(id, None)
        else:
            self.say(b"set %d %s" % (id, text))
            if is_valid and id in self.fields and not self.is_in_flight(id):
                self.fields[id] = self.fields[id][0], text

    def look(self) -> None:
        """A line that changes nothing but the journal."""
        rng = self.rng
        idle = [name for name, room in self.rooms.items() if not room.waiting]
        lines = [b"print", b"print %d" % self.some_id(), b"print %d" % self.some_id(), remark_of(rng), remark_of(rng), garbage_of(rng), garbage_of(rng)]
        lines += [rng.choice(REFUSED_LINES), b"checkpoint"]
        lines += [b"interrupt " + name for name in idle[:2]] + [b"session %s plain p" % name for name in idle[:1]]
        lines += [] if self.waits_for() else [b"wait", b"wait 1", b"wait 3"]
        self.say(rng.choice(lines))

    def finish(self) -> None:
        """Now and then comes to an end of all that waits, and prints."""
        while self.waits_for() and self.rng.random() < 0.8:
            self.release()
        if self.rng.random() < 0.7:
            self.say(b"print")

    def text(self) -> bytes:
        """The lines with their ends, of which the last may lack its own."""
        ends = [self.rng.choice([b"\n", b"\n", b"\n", b"\r\n"]) for _ in self.lines]
        if ends and self.rng.random() < 0.2:
            ends[-1] = b""
        return b"".join(line + end for line, end in zip(self.lines, ends))
