"""Random lists of events for a host: commands of all kinds, among them refused ones, and what comes of the calls on interpreters."""

from __future__ import annotations

import random
from typing import NamedTuple, Union

# What stands after an event's word: a number, some bytes, or a list of them.
Given = Union[int, bytes, list[bytes]]


class Event(NamedTuple):
    """A command, by its word and what follows it; or `again`, by which the host is closed, and opened again on its disk."""

    word: str
    given: tuple[Given, ...] = ()


class ChildEvent(NamedTuple):
    """What came of a call on the child of a life: the session, the number of the life, the word, and the bytes of a piece."""

    name: bytes
    life: int
    word: str
    piece: bytes = b""


AGAIN = Event("again")
LAST_NUMBER = 2**32 - 1
NAMES = [b"a", b"b", b"c-1"]
NO_NAMES = [b"", b"a b", b"\xc3\xa9", b"n" * 33]
WORDS = [b"sh", b"gp -q", b"x" * 20, "é".encode()]
NO_WORDS: list[list[bytes]] = [[], [b""], [b"a\x1f"], [b"\xff"], [b"w"] * 17, [b"w" * 1025]]
INPUTS = [b"x", b"x^2 + 1", b"", b"1\t2", "é∑".encode(), b'say "\\"']
NO_INPUTS = [b"\xc3", b"a\nb", b"\x1b", b"\xed\xa0\x80"]
ENDS = ["end", "read-fault", "send-fault", "stalled", "start-refused", "stop-fault"]

BLOCKS = [
    b"\x02verbatim:\x05",
    b"\x02verbatim:A\x05",
    b"\x02verbatim:A\x02latex:$x$\x05B\x05",
    b"\x02verbatim:\x02prompt#] \x05\x05",
    b"\x02prompt#in> \x05",
    b"\x02verbatim:A\x02prompt#1] \x05B\x02prompt#2] \x05\x05",
    b"\x02verbatim:y\x02input#next\x05\x05",
    b"\x02input#alone\x05",
    b"\x02channel#C\x05",
    b"\x02verbatim:\x1b\x02\x1b\x05\x1bz\xff\x05",
    b'\x02scheme:(tuple "h" "ello" "i there")\x05',
    b'\x02verbatim: \x02scheme:(tuple "\\"q" "\\\\")\x05\n\x05',
    b"\x02scheme:(tuple)\x05",
    b"\x02scheme:()\x05",
    b"\x02scheme:(tuple x)\x05",
    b"\x02a:\x02b:\x02c:deep\x05\x05\x05",
    b"\x02t:" * 32 + b"\x05" * 32,
]
LONG_BLOCKS = [b"\x02verbatim:\x02prompt#" + b"p" * length + b"\x05\x05" for length in (1024, 1025)]
FAULTS = [b"\x02:\x05", b"\x02ver\x01batim:", b"\x02" + b"t" * 65, b"\x02t:" * 33, b"\x02verbatim\x05"]
NOISE = [b"noise\n", b"\x05", b"\x1b:", b"#", b"\xff\x00"]


class Life:
    """A life that may go on, and the bytes that its interpreter still writes."""

    def __init__(self, number: int) -> None:
        self.number, self.unread = number, b""


class Lists:
    """Makes random lists. It guesses which sessions, fields and lives there are, and may be wrong: the host says what each event gives."""

    def __init__(self, rng: random.Random) -> None:
        self.rng = rng
        self.tabs: dict[bytes, bool] = {}
        self.fields: dict[int, bytes] = {}
        self.inputs: dict[int, bytes] = {}
        self.lives: dict[bytes, Life] = {}
        self.begun, self.next_field = 0, 1

    def chance(self, share: float) -> bool:
        return self.rng.random() < share

    def name(self) -> bytes:
        known = list(self.tabs)
        return self.rng.choice(known) if known and not self.chance(0.05) else self.rng.choice(NAMES + NO_NAMES)

    def field(self) -> int:
        known = list(self.fields)
        return self.rng.choice(known) if known and not self.chance(0.06) else self.rng.choice([0, 1, 2, self.next_field, LAST_NUMBER])

    def after(self) -> int:
        return 0 if not self.fields or self.chance(0.3) else self.field()

    def input(self) -> bytes:
        if self.chance(0.08):
            return self.rng.choice(NO_INPUTS)
        if self.chance(0.003):
            return b"x" * self.rng.randint(4095, 4096)
        return self.rng.choice(INPUTS) if self.chance(0.6) else bytes(self.rng.choices(b"abcxyz 0123456789+-*/=()?#", k=self.rng.randint(0, 9)))

    # Commands.

    def session(self) -> Event:
        name = self.rng.choice(NAMES) if not self.chance(0.1) else self.rng.choice(NO_NAMES)
        words = self.rng.choice(NO_WORDS) if self.chance(0.08) else self.rng.sample(WORDS, self.rng.randint(1, 3))
        tab = self.chance(0.5)
        if name not in NO_NAMES and words not in NO_WORDS:
            self.tabs.setdefault(name, tab)
        return Event("session", (name, int(tab), words))

    def new(self) -> Event:
        after, name, text = self.after(), self.name(), self.input()
        if name in self.tabs and text not in NO_INPUTS and (after == 0 or after in self.fields):
            self.fields[self.next_field], self.inputs[self.next_field] = name, text
            self.next_field += 1
        return Event("new", (after, name, text))

    def set(self) -> Event:
        field, text = self.field(), self.input()
        if field in self.inputs and text not in NO_INPUTS:
            self.inputs[field] = text
        return Event("set", (field, text))

    def remove(self) -> Event:
        field = self.field()
        if self.chance(0.7):
            self.fields.pop(field, None)
        return Event("remove", (field,))

    def asks(self, field: int) -> None:
        """The session of a field is asked something: a life begins where none goes on."""
        name = self.fields.get(field)
        if name is not None and name not in self.lives:
            self.begun += 1
            self.lives[name] = Life(self.begun)

    def eval(self) -> Event:
        field = self.field()
        self.asks(field)
        return Event("eval", (field,))

    def complete(self) -> Event:
        field = self.field()
        text = self.input() if self.chance(0.5) else None
        asked = self.inputs.get(field, b"") if text is None else text
        cursor = self.rng.randint(0, len(asked) + 1) if self.chance(0.4) else self.rng.choice([0, len(asked)])
        if self.tabs.get(self.fields.get(field, b"")):
            self.asks(field)
        return Event("complete", (field, cursor)) if text is None else Event("complete-text", (field, cursor, text))

    def stop(self) -> Event:
        name = self.name()
        self.lives.pop(name, None)
        return Event("stop", (name,))

    def command(self) -> Event:
        makers = [self.session, self.new, self.set, self.remove, self.eval, self.complete, self.stop]
        makers += [lambda: Event("move", (self.field(), self.after())), lambda: Event("clear", (self.field(),)), lambda: Event("checkpoint")]
        weights = [2, 5, 3, 2, 9, 3, 1, 2, 2, 1]
        if not self.tabs:
            weights[0] = 200
        elif not self.fields:
            weights[1] = 200
        return self.rng.choices(makers, weights)[0]()

    # What comes of children.

    def written(self) -> bytes:
        """Some bytes more that an interpreter writes."""
        kind = self.rng.random()
        if kind < 0.06:
            return self.rng.choice(FAULTS)
        if kind < 0.2:
            return self.rng.choice(NOISE)
        if kind < 0.204:
            return self.rng.choice(LONG_BLOCKS)
        return self.rng.choice(BLOCKS)

    def piece(self, name: bytes, life: Life) -> ChildEvent:
        for _ in range(self.rng.randint(0 if life.unread else 1, 2)):
            life.unread += self.written()
        size = len(life.unread) if self.chance(0.6) else self.rng.randint(0, len(life.unread))
        piece, life.unread = life.unread[:size], life.unread[size:]
        return ChildEvent(name, life.number, "piece", piece)

    def unknown(self) -> ChildEvent:
        """What came of a life that doesn't go on, or never did."""
        word = self.rng.choice(ENDS + ["piece"] * 3)
        number = self.rng.choice([0, 1, self.begun, self.begun + 1, LAST_NUMBER])
        return ChildEvent(self.rng.choice(NAMES), number, word, self.written() if word == "piece" else b"")

    def child(self) -> ChildEvent:
        if not self.lives or self.chance(0.06):
            return self.unknown()
        name = self.rng.choice(list(self.lives))
        life = self.lives[name]
        if not self.chance(0.08):
            return self.piece(name, life)
        word = self.rng.choice(ENDS)
        if word != "stop-fault":
            del self.lives[name]
        return ChildEvent(name, life.number, word)

    def again(self) -> Event:
        self.lives.clear()
        self.begun = 0
        return AGAIN

    def list(self, length: int) -> list[Event | ChildEvent]:
        made: list[Event | ChildEvent] = [self.session(), self.new(), self.eval()] if self.chance(0.8) else []
        for _ in range(length):
            if self.chance(0.015):
                made.append(self.again())
            made.append(self.child() if self.lives and self.chance(0.55) or self.chance(0.03) else self.command())
        return made


def room_of(rng: random.Random) -> int:
    """The room of the areas of a disk: in one of five lists so small that it comes to its end."""
    return rng.randint(40, 300) if rng.random() < 0.2 else 1_000_000


def random_list(rng: random.Random) -> tuple[int, list[Event | ChildEvent]]:
    """The room of a disk, and up to 27 events."""
    return room_of(rng), Lists(rng).list(rng.randint(1, 24))
