"""The program is killed at random moments, TMHOST_KILLS times (20 where it isn't said): what a call had returned is there afterwards.

TMHOST_SEED gives the calls and moments of an earlier run again, as far as threads and processes allow.
"""

import contextlib
import dataclasses
import os
import random
import signal
import threading
import time
import unittest
from typing import Dict, Iterator, List, Optional, Tuple

from support import PROGRAM, SECONDS, WORDS, Case, big, eventually, needs_program

from tmhost import Died, Field, Worksheet

KILLS = int(os.environ.get("TMHOST_KILLS", "20"))
SEED = os.environ.get("TMHOST_SEED") or str(random.randrange(10**9))
THREADS = 4
MOST_CELLS = 60
# The program's number goes to a file before it begins, so that it can be killed while it opens the worksheet, too.
WITH_NUMBER = ["sh", "-c", 'echo $$ >"$0.new" && mv "$0.new" "$0" && exec "$@"']

State = Tuple[str, str, Optional[str]]  # the input, and the state with the text of the answer


def state_of(field: Field) -> State:
    return field.input, field.state if field.state == "answered" else "empty", str(field.answer.text) if field.answer else None


def answer_to(text: str) -> str:
    """What a cell with this input shows when it has been evaluated: the whole of it."""
    _, size, seed = text.split(" ")
    return big(int(size), seed)


@dataclasses.dataclass
class Ledger:
    """What the calls of all threads have returned, and to what those that haven't may have led. Each cell is one thread's."""

    reported: Dict[int, State] = dataclasses.field(default_factory=dict)
    may_be: Dict[int, List[Optional[State]]] = dataclasses.field(default_factory=dict)  # None: it is gone
    gone: "set[int]" = dataclasses.field(default_factory=set)
    begun: List[str] = dataclasses.field(default_factory=list)  # inputs of cells whose making hasn't returned

    @contextlib.contextmanager
    def doing(self, id: int, *may_be: Optional[State]) -> Iterator[None]:
        """A call that leads to the last of these states, when it returns, and may lead to any of them when it doesn't."""
        self.may_be[id] = list(may_be)
        yield
        del self.may_be[id]
        if may_be[-1] is None:
            del self.reported[id]
            self.gone.add(id)
        else:
            self.reported[id] = may_be[-1]


class Worker(threading.Thread):
    """Calls at random until the program is gone."""

    def __init__(self, sheet: Worksheet, ledger: Ledger, name: str, own: List[int], chance: random.Random) -> None:
        super().__init__()
        self.sheet, self.ledger, self.session, self.own, self.chance = sheet, ledger, name, own, chance
        self.error: Optional[BaseException] = None

    def run(self) -> None:
        try:
            while True:
                self.call()
        except Died:
            pass
        except BaseException as error:
            self.error = error

    def text(self) -> str:
        size = self.chance.choice([0, 1, 100, 5_000, 70_000, 300_000])
        return f"big {size} {self.session}{self.chance.randrange(10**9)}"

    def call(self) -> None:
        if len(self.own) < 2 or (len(self.own) < MOST_CELLS and self.chance.random() < 0.3):
            return self.new()
        id = self.chance.choice(self.own)
        getattr(self, self.chance.choice(["set", "clear", "remove", "evaluate", "evaluate", "evaluate", "checkpoint"]))(id)

    def new(self) -> None:
        text = self.text()
        self.ledger.begun.append(text)
        cell = self.sheet.new(self.session, text, after=self.own[-1] if self.own else None)
        self.ledger.reported[cell.id] = (text, "empty", None)
        self.ledger.begun.remove(text)
        self.own.append(cell.id)

    def set(self, id: int) -> None:
        text = self.text()
        with self.ledger.doing(id, (text, "empty", None)):
            self.sheet.set(id, text)

    def clear(self, id: int) -> None:
        with self.ledger.doing(id, (self.ledger.reported[id][0], "empty", None)):
            self.sheet.clear(id)

    def remove(self, id: int) -> None:
        with self.ledger.doing(id, None):
            self.sheet.remove(id)
        self.own.remove(id)

    def evaluate(self, id: int) -> None:
        text = self.ledger.reported[id][0]
        shown = (text, "answered", answer_to(text))
        with self.ledger.doing(id, (text, "empty", None), shown):
            answer = self.sheet.evaluate(id, SECONDS)
        if answer.text != shown[2]:
            raise AssertionError(f"cell {id} has a part of an answer: {str(answer.text)[:60]!r}")

    def checkpoint(self, id: int) -> None:
        self.sheet.checkpoint()


@needs_program
class Kills(Case):
    def test_kills(self) -> None:
        chance = random.Random(SEED)
        self.rows: Dict[str, List[int]] = {}
        self.counts = {"calls": 0, "openings": 0}
        with self.open() as sheet:
            for number in range(THREADS):
                self.rows[sheet.session(f"s{number}", WORDS).name] = []
        ledger = Ledger()
        for number in range(KILLS):
            with self.subTest(seed=SEED, kill=number):
                ledger = self.one_kill(ledger, chance)
        print(f"\nseed {SEED}: {KILLS} kills, {self.counts['openings']} of them while it was opened; {len(ledger.reported)} cells are left")

    def one_kill(self, ledger: Ledger, chance: random.Random) -> Ledger:
        """Opens, calls until a kill, and compares; gives the ledger of what is there."""
        pid_file = os.path.join(self.folder, "number")
        killer = threading.Thread(target=self.kill, args=(pid_file, chance.choice([0.02, 0.2, 1.0, 1.5]) * chance.random()))
        killer.start()
        seeds = [chance.randrange(10**9) for _ in self.rows]
        try:
            sheet = eventually(lambda: Worksheet(self.path, program=[*WITH_NUMBER, pid_file, PROGRAM]))
        except Died as died:
            self.assertEqual(died.status, -signal.SIGKILL)
            self.counts["openings"] += 1
        else:
            self.work(sheet, ledger, seeds)
        killer.join()
        os.unlink(pid_file)
        return self.compared(ledger)

    def work(self, sheet: Worksheet, ledger: Ledger, seeds: List[int]) -> None:
        workers = [Worker(sheet, ledger, name, self.rows[name], random.Random(seed)) for name, seed in zip(self.rows, seeds)]
        for worker in workers:
            worker.start()
        for worker in workers:
            worker.join()
            if worker.error:
                raise worker.error
        mirror = {field.id: state_of(field) for field in sheet.fields}
        for id, state in ledger.reported.items():
            self.assertIn(mirror.get(id), [state, *ledger.may_be.get(id, [])])
        sheet.close()

    def kill(self, pid_file: str, delay: float) -> None:
        until = time.monotonic() + SECONDS
        while not os.path.exists(pid_file) and time.monotonic() < until:
            time.sleep(0.001)
        time.sleep(delay)
        with open(pid_file) as file:
            os.kill(int(file.read()), signal.SIGKILL)

    def compared(self, ledger: Ledger) -> Ledger:
        """Opens the worksheet and looks for all that was reported."""
        with eventually(lambda: Worksheet(self.path, program=PROGRAM, timeout=SECONDS)) as sheet:
            fields = {field.id: field for field in sheet.fields}
        there = {id: state_of(field) for id, field in fields.items()}
        for id, state in ledger.reported.items():
            self.assertIn(there.get(id), [state, *ledger.may_be.get(id, [])], f"cell {id}")
        self.assertFalse(ledger.gone & there.keys())
        for id in there.keys() - ledger.reported.keys():
            self.assertIn(fields[id].input, ledger.begun, f"cell {id} wasn't asked for")
        for field in fields.values():
            if field.answer:
                self.assertEqual(field.answer.text, answer_to(field.input))
        for name, own in self.rows.items():
            row = [field.id for field in fields.values() if field.session == name]
            self.assertEqual([id for id in row if id in own], [id for id in own if id in row])
            own[:] = row
        return Ledger(reported=there, gone=ledger.gone)


if __name__ == "__main__":
    unittest.main()
