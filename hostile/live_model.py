"""What a live worksheet may tell and leave, by docs/use/SCRIPT.md: the model of scripts, taken event by event in the order of what was told."""

from __future__ import annotations

import copy
import itertools
import random
import re
from collections.abc import Iterable, Iterator, Sequence

from model import EDITS, VERBS, Difference, Followed, Model, refused, words_of

# A line that tells what came of an interpreter. That one was stopped is reported by a `stop` alone.
EVENT = re.compile(r"banner |answered |completed |ended \S+ (?!Stopped )")


# The most commands between a `begin` and its `end`.
MOST_COMMANDS = 1024


class Transaction:
    """Commands since a `begin`, the line with this number: they are kept until its `end`. A line among them that is no such command breaks
    the transaction."""

    def __init__(self, first: int) -> None:
        self.first, self.is_broken = first, False
        self.commands: list[str] = []


class Live:
    """A live worksheet behind some of its lines, and what its interpreters said in between. Where the lines are all, a transaction that is open at
    their end is over."""

    def __init__(self, script: Sequence[str], kinds: dict[str, str], are_all: bool = False) -> None:
        self.model, self.lines, self.at, self.are_all = Model(kinds), script, 0, are_all
        self.transaction: Transaction | None = None

    def waits(self) -> bool:
        """Whether an item waits."""
        return any(session.waiting for session in self.model.sessions.values())

    def told_by(self, number: int, line: str) -> list[str]:
        """Takes a line, and gives what is told of it."""
        verb, words = words_of(line)
        model = self.model
        if verb == "print" and words != [""]:
            lines = model.printed().splitlines()
            place = model.order.index(int(words[0])) * 3 if int(words[0]) in model.fields else None
            return [refused(2)] if place is None else lines[place : place + 3]
        if verb == "print":
            return model.printed().splitlines()
        if verb == "interrupt":
            return [self.interrupted(words[0])]
        if verb not in VERBS:
            return [f"bad line {number}"]
        refusal = model.refusal(verb, words)
        return [refused(refusal)] if refusal else model.do(verb, words)

    def interrupted(self, name: str) -> str:
        """What is told of an interrupt. The interpreters of these talks ignore the signal, so nothing comes of it."""
        if name not in self.model.sessions:
            return refused(1)
        return f"interrupted {name}" if self.model.sessions[name].waiting else f"idle {name}"

    def take_line(self) -> list[str]:
        """Takes the next line of which something is told, and gives that; nothing where there is none, or a wait holds it back."""
        while self.at < len(self.lines):
            line = self.lines[self.at]
            if self.transaction is None and line.split(" ")[0] == "wait" and self.waits():
                break
            self.at += 1
            told = self.told_in_transaction(self.transaction, self.at, line) if self.transaction else self.told_alone(self.at, line)
            if told:
                return told
        if self.are_all and self.transaction:
            return self.undone(self.transaction)
        return []

    def told_alone(self, number: int, line: str) -> list[str]:
        """What is told of a line outside of transactions."""
        if line == "begin":
            self.transaction = Transaction(number)
            return []
        return [] if line == "" or line[0] == "#" or line.split(" ")[0] == "wait" else self.told_by(number, line)

    def told_in_transaction(self, transaction: Transaction, number: int, line: str) -> list[str]:
        """What is told of a line in a transaction: at its end that of all its commands, or the refusal for which none of them was done."""
        if line == "end":
            return self.undone(transaction) if transaction.is_broken else self.do_transaction(transaction)
        if not transaction.is_broken and (words_of(line)[0] not in EDITS or len(transaction.commands) == MOST_COMMANDS):
            transaction.is_broken = True
            return [f"bad line {number}"]
        transaction.commands.append(line)
        return []

    def undone(self, transaction: Transaction) -> list[str]:
        """The transaction is over, and nothing of it was done."""
        self.transaction = None
        return [f"undone {transaction.first} {self.at}"]

    def do_transaction(self, transaction: Transaction) -> list[str]:
        """Does the commands of a transaction, all of them or none."""
        model, told = copy.deepcopy(self.model), list[str]()
        for line in transaction.commands:
            verb, words = words_of(line)
            refusal = model.refusal(verb, words)
            if refusal:
                return [refused(refusal), *self.undone(transaction)]
            told += model.do(verb, words)
        self.model, self.transaction = model, None
        return told

    def take_item(self, name: str) -> list[str]:
        """Takes what the interpreter of a session says next, and gives what is told of it."""
        session = self.model.sessions[name]
        if not session.is_up or not (session.waiting or not session.has_banner):
            return []
        if not session.has_banner:
            session.has_banner = True
            return [f"banner {name}"]
        answered = self.model.answered(session)[:1]
        if not answered:
            return [f"ended {name} Ended lost {self.model.end(session, 'Ended')}"]
        [(id, _, completes)] = answered
        for id, answer in self.model.answers(session, answered):
            self.model.show(id, answer)
        session.count, session.waiting = session.count + 1, session.waiting[1:]
        return [f"completed {id} {session.kind.completed}" if completes else f"answered {id}"]

    def child_of(self, told: str) -> str | None:
        """The session whose interpreter may say this next, or nothing."""
        names = (name for name in self.model.sessions if copy.deepcopy(self).take_item(name) == [told])
        return next(names, None)

    def may_group(self, at: int) -> bool:
        """Whether the line at this place, outside of a transaction, may be in a group: it says a command other than `checkpoint`."""
        return self.transaction is None and at < len(self.lines) and words_of(self.lines[at])[0] in VERBS - {"checkpoint"}

    def sheets_of_lines(self) -> Iterator[str]:
        """The worksheets behind the next line, and behind those after it as long as they may be one group with it: which lines were there
        together isn't known."""
        live = copy.deepcopy(self)
        while live.take_line():
            yield live.model.printed()
            if not (live.may_group(live.at - 1) and live.may_group(live.at)):
                return

    def next_sheets(self) -> set[str]:
        """The worksheets to which one event more may lead, or one group of lines, or of what several interpreters said."""
        sheets = {self.model.printed(), *self.sheets_of_lines()}
        names = list(self.model.sessions)
        for count in range(1, len(names) + 1):
            for some in itertools.combinations(names, count):
                behind = copy.deepcopy(self)
                for name in some:
                    behind.take_item(name)
                sheets.add(behind.model.printed())
        return sheets


def follow_live(script: Sequence[str], output: Iterable[str], kinds: dict[str, str]) -> Followed:
    """Follows a live worksheet by the lines that it told."""
    live, told = Live(script, kinds, are_all=True), list(output)
    while told:
        name = live.child_of(told[0]) if EVENT.match(told[0]) else None
        wanted = live.take_item(name) if name else live.take_line()
        if not wanted or told[: len(wanted)] != wanted[: len(told)]:
            raise Difference(f"behind {live.at} lines: told {told[:5]}, wanted {wanted[:5]}")
        del told[: len(wanted)]
    sheets = live.next_sheets()
    return Followed(sheets, not live.waits() and not live.take_line(), 0)


def live_script(rng: random.Random, script: Sequence[str]) -> Iterator[str]:
    """A script as it may be told to a live worksheet: some of its waits have a time, and some of its prints a field. Some of its commands stand
    in transactions, of which some have another line in them; none of its last two lines does."""
    left = 0
    for number, line in enumerate(script):
        is_edit = line.split(" ")[0] in EDITS
        if left and not is_edit and (rng.random() < 0.7 or number >= len(script) - 2):
            yield "end"
            left = 0
        if not left and is_edit and rng.random() < 0.2:
            yield "begin"
            left = rng.choice([1, 2, 3, 5])
        if line == "wait" and rng.random() < 0.3:
            yield "wait 1000000"
        elif line == "print" and rng.random() < 0.5:
            yield f"print {rng.randint(1, 12)}"
        else:
            yield line
        if left == 1:
            yield "end"
        left = max(left - 1, 0)
