"""Events and what a host told of them: as lines for `played_events`, and as terms for the kit."""

from __future__ import annotations

from collections.abc import Callable, Iterator
from typing import NamedTuple

from event_lists import AGAIN, ChildEvent, Event, Given

COMMANDS = {
    "session": "Session", "new": "New", "set": "Set", "remove": "Remove", "move": "Move", "clear": "Clear", "eval": "Eval",
    "complete": "Complete", "complete-text": "CompleteText", "stop": "Stop", "checkpoint": "Checkpoint",
}  # fmt: skip
CHILDREN = {
    "start-refused": "StartRefused", "piece": "Piece", "end": "End", "read-fault": "ReadFault", "send-fault": "SendFault",
    "stalled": "Stalled", "stop-fault": "StopFault",
}  # fmt: skip

REPLIES = {"done": "reply.Done", "nothing": "reply.Nothing", "field": "reply.Field", "asked": "reply.Asked"}


# Lines.


def word_of(given: Given) -> str:
    if isinstance(given, int):
        return str(given)
    return "x" + given.hex() if isinstance(given, bytes) else " ".join(map(word_of, given))


def line_of(event: Event | ChildEvent) -> str:
    if isinstance(event, Event):
        return " ".join([event.word, *map(word_of, event.given)])
    piece = [word_of(event.piece)] if event.word == "piece" else []
    return " ".join(["child", word_of(event.name), str(event.life), event.word, *piece])


def lines_of(room: int, events: list[Event | ChildEvent]) -> list[str]:
    """A list: a new disk with so much room, the events, and that the worksheet is to be told."""
    return [f"list {room}", *map(line_of, events), "sheet"]


# Terms.


def escaped(byte: int) -> str:
    """A byte as the character with its number, in a text of the kit."""
    if byte in b'"\\':
        return "\\" + chr(byte)
    return chr(byte) if 32 <= byte < 127 else f"\\u{{{byte:x}}}"


def bytes_term(text: bytes) -> str:
    return '(codes "' + "".join(map(escaped, text)) + '")' if text else "[]"


def list_term(terms: list[str]) -> str:
    return "(" + " ∷ ".join([*terms, "[]"]) + ")" if terms else "[]"


def given_term(given: Given) -> str:
    if isinstance(given, int):
        return str(given)
    return bytes_term(given) if isinstance(given, bytes) else list_term([*map(bytes_term, given)])


def bool_term(word: str) -> str:
    return "true" if word == "true" else "false"


def command_term(event: Event) -> str:
    terms = [given_term(given) for given in event.given]
    if event.word == "session":
        terms[1] = bool_term("true" if event.given[1] else "false")
    return f"(asked (command.{' '.join([COMMANDS[event.word], *terms])}))"


def event_term(event: Event | ChildEvent) -> str:
    if isinstance(event, Event):
        return command_term(event)
    happened = f"child.{CHILDREN[event.word]}"
    if event.word == "piece":
        happened = f"({happened} {bytes_term(event.piece)})"
    return f"(came {bytes_term(event.name)} {event.life} {happened})"


# What was told.


class Told:
    """The words of a line that `played_events` told, as terms."""

    def __init__(self, line: str) -> None:
        self.words: Iterator[str] = iter(line.split())

    def word(self) -> str:
        return next(self.words)

    def bytes(self) -> str:
        return bytes_term(bytes.fromhex(self.word()[1:]))

    def list(self, one: Callable[[], str]) -> str:
        return list_term([one() for _ in range(int(self.word()))])

    def maybe(self, word: str, some: Callable[[str], str]) -> str:
        """None for `-`, else what `some` makes of the word."""
        return "None" if word == "-" else f"(Some {some(word)})"

    def items(self) -> str:
        """What stands in a block: each with what follows it."""
        parts = [self.part() for _ in range(int(self.word()))]
        return "".join(f"({part} " for part in parts) + "end" + ")" * len(parts)

    def part(self) -> str:
        return f"text {self.bytes()}" if self.word() == "text" else f"block {bool_term(self.word())} {self.bytes()} {self.items()}"

    def tree(self) -> str:
        return f"(tree {bool_term(self.word())} {self.bytes()} {self.items()})"

    def completions(self) -> str:
        return "no_completions" if self.word() == "bad" else f"(completions {self.bytes()} {self.list(self.bytes)})"

    def closed(self, word: str) -> str:
        if word == "banner":
            return f"(closed.Banner {self.tree()})"
        return f"(closed.Line {self.word()})" if word == "line" else f"(closed.Complete {self.word()} {self.completions()})"

    def item(self) -> str:
        if self.word() == "line":
            return f"(item.Line {self.word()} {self.bytes()})"
        return f"(item.Complete {self.word()} {self.bytes()} {self.word()})"

    def ended(self, _word: str) -> str:
        return f"(ended reason.{self.word()} {self.list(self.item)})"

    def child(self) -> str:
        name, life = self.bytes(), self.word()
        closed = self.maybe(self.word(), self.closed)
        default = self.maybe(self.word(), lambda word: bytes_term(bytes.fromhex(word[1:])))
        return f"(of_child {name} {life} {closed} {default} {self.maybe(self.word(), self.ended)})"

    def reply(self) -> str:
        word = self.word()
        if word == "child":
            return self.child()
        if word == "refused":
            return f"(reply.Refused refusal.{self.word()})"
        if word in ("done", "nothing"):
            return REPLIES[word]
        return f"({REPLIES[word]} {self.word()})"

    def effect(self, word: str) -> str:
        if word == "start":
            return f"(effect.Start {self.bytes()} {self.word()} {self.list(self.bytes)})"
        return f"(effect.Kill {self.bytes()} {self.word()})" if word == "kill" else f"(effect.Send {self.bytes()} {self.word()} {self.bytes()})"

    def outcome(self) -> str:
        return f"(outcome {self.reply()} {self.maybe(self.word(), self.effect)})"

    def answer(self, word: str) -> str:
        return f"(answer {bytes_term(bytes.fromhex(word[1:]))} {self.tree()})"

    def field(self) -> str:
        parts = [self.word(), self.bytes(), self.bytes(), self.maybe(self.word(), self.answer)]
        return f"(field {' '.join(parts)} {self.maybe(self.word(), lambda word: 'reason.' + word)})"

    def sheet(self) -> str:
        number, fields, sessions = self.word(), [], []
        while (word := self.word()) != "end":
            if word == "field":
                fields.append(self.field())
            else:
                sessions.append(f"(session {self.bytes()} {bool_term(self.word())} {self.list(self.bytes)})")
        return f"(sheet {list_term(fields)} {list_term(sessions)} {number})"


# Cases.

LACKS_MEMORY = "refused OutOfMemory"


def parted(rows: list[tuple[Event | ChildEvent, str]]) -> list[list[tuple[Event | ChildEvent, str]]]:
    """Events with what was told of each, in parts between which the host is opened again."""
    parts: list[list[tuple[Event | ChildEvent, str]]] = [[]]
    for row in rows:
        if row[0] == AGAIN:
            parts.append([])
        else:
            parts[-1].append(row)
    return parts


class Case(NamedTuple):
    """A list of events, by its number, on a disk with so much room, and the lines that the host told of it: that it is there, one for each event, the worksheet."""

    number: int
    room: int
    all_events: list[Event | ChildEvent]
    told: list[str]

    @property
    def events(self) -> list[Event | ChildEvent]:
        """Those before the first fault: a fault is no outcome, and closes the host."""
        for place, line in enumerate(self.told[1:-1]):
            if line.split()[0] == "fault":
                return self.all_events[:place]
        return self.all_events

    def front(self, count: int) -> Case:
        """So many of its events, under that number, without the worksheet."""
        return Case(count, self.room, self.all_events[:count], [*self.told[: count + 1], ""])

    def kinds(self) -> Iterator[str]:
        """What was told, in a word each."""
        for line in self.told[1 : len(self.events) + 1]:
            words = line.split()
            if words[0] == "child":
                yield "ended" if "ended" in words else {"-": "closed nothing"}.get(words[3], words[3])
            else:
                yield " ".join(words[:2]) if words[0] == "refused" else words[0]
        if len(self.events) < len(self.all_events):
            yield "fault " + self.told[len(self.events) + 1].split()[1]

    def equation(self) -> str:
        """That the function gives what the host told."""
        parts = parted(list(zip(self.events, self.told[1:])))
        given = list_term([f"({choices_term(part)}, {list_term([event_term(event) for event, _ in part])})" for part in parts])
        outcomes = list_term([list_term([Told(line).outcome() for _, line in part]) for part in parts])
        if not self.told[-1]:
            return f"(parts_give (opened {self.room}) {given}).0\n    ≡ {outcomes}"
        return f"parts_give (opened {self.room}) {given}\n    ≡ ({outcomes}, {Told(self.told[-1]).sheet()})"


def choices_term(part: list[tuple[Event | ChildEvent, str]]) -> str:
    """Whether memory was refused to each event, as the host told it: none where it was refused to none."""
    lacking = [line.startswith(LACKS_MEMORY) for _, line in part]
    return list_term(["true" if lacks else "false" for lacks in lacking]) if any(lacking) else "[]"
