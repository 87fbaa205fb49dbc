"""Several changes that are done as a whole: what they give, what is refused, and kills of the program in the middle. TMHOST_KILLS says how many of these
are made at random moments (20)."""

import asyncio
import concurrent.futures
import os
import random
import signal
import sys
import threading
import unittest
from typing import Any, Dict, List, Tuple

from support import HERE, PROGRAM, SECONDS, WORDS, Case, eventually, needs_program
from test_aio import AsyncCase
from test_protocol import HELLO, Talk

from tmhost import AsyncWorksheet, BadLine, Died, Done, Event, Field, Gone, ProtocolError, Refused, TimedOut, Undone, Worksheet
from tmhost.commands import Checkpoint, Clear, MakeSession, Move, New, Remove, Set
from tmhost.together import MOST_CHANGES, Change, Together

KILLS = int(os.environ.get("TMHOST_KILLS", "20"))
CELLS = 12

# Changes of a worksheet with the session `a` and the cells 1 to 3, of which none can be done, with the place of the one why, and its refusal.
REFUSED: List[Tuple[List[Change], int, str]] = [
    ([Set(1, "x"), Remove(9), Set(2, "y")], 1, "NoField"),
    ([New(0, "b", "x")], 0, "NoSession"),
    ([New(0, "a", "x"), Set(4, "y"), Remove(4), Clear(4)], 3, "NoField"),
    ([Remove(1), Move(2, 3), Move(2, 3)], 2, "SamePlace"),
    ([MakeSession("b", ("p",), False), New(0, "b", "x"), MakeSession("a", ("p",), False)], 2, "SessionExists"),
    ([Set(1, "x"), Set(2, "x" * 4_096)], 1, "BadInput"),
    ([Clear(1), Set(2, "\0"), Set(9, "\0")], 1, "BadInput"),
]
BAD: List[Tuple[List[Change], int]] = [
    ([Set(1, "x"), Set(2, "x" * 70_000), Set(9, "y")], 1),
    ([Remove(-1)], 0),
    ([New(0, "a", "x"), Move(2**32, 1), Set(2, "x" * 70_000)], 1),
    ([Set(1, str(number)) for number in range(MOST_CHANGES + 1)], MOST_CHANGES),
    ([Set(1, str(number)) for number in range(3 * MOST_CHANGES)], MOST_CHANGES),
]


def inputs(sheet: Any) -> List[str]:
    return [field.input for field in sheet.fields]


class TogetherCase(Case):
    def three(self) -> Worksheet:
        sheet = self.sheet()
        for text in ("one", "two", "three"):
            sheet.new("a", text)
        return sheet

    def assert_undone(self, sheet: Worksheet, changes: List[Change], place: int) -> Undone:
        """They change nothing, here and in the program, and the worksheet goes on."""
        held = self.shown(sheet)
        with self.assertRaises(Undone) as reported:
            sheet.together(*changes)
        self.assertEqual((reported.exception.place, reported.exception.line), (place, changes[place].line))
        self.assertEqual(self.shown(sheet), held)
        self.assert_exact(sheet)
        return reported.exception


@needs_program
class Calls(TogetherCase):
    def test_what_they_give(self) -> None:
        """A change finds what those before it have done: a cell and a session of the same transaction, too."""
        sheet = self.three()
        sheet.cell(1).evaluate(SECONDS)
        events: List[Event] = []
        heard = threading.Event()
        sheet.listen(lambda event: heard.set() if event == Done("clear", 3) else events.append(event))
        new = New(3, "b", "in b")
        reported = sheet.together(
            MakeSession("b", tuple(WORDS), False), New(2, "a", "after two"), new, Set(4, "four"), Move(1, 4), Remove(2), Clear(1), Clear(3))
        self.assertEqual((reported, new.id), ([None, 4, 5, None, None, None, None, None], 5))
        self.assertEqual([(cell.id, cell.input, cell.state) for cell in sheet.cells], [
            (4, "four", "empty"), (1, "one", "empty"), (3, "three", "empty"), (5, "in b", "empty")])
        self.assertEqual((sheet.next_id, list(sheet.sessions), sheet.together()), (6, ["a", "b"], []))
        self.assertTrue(heard.wait(SECONDS))
        self.assertEqual(events[:4], [Done("session", None, "b"), Done("new", 4, "a", 2), Done("new", 5, "b", 3), Done("set", 4)])
        self.assert_exact(sheet)
        self.assertEqual(sheet.cell(5).evaluate(SECONDS).text, "in b")
        with self.assertRaises(Gone):
            sheet.cell(2)

    def test_as_many_as_there_may_be(self) -> None:
        sheet = self.sheet()
        reported = sheet.together(*(New(number, "a", f" {number} ") for number in range(MOST_CHANGES)))
        self.assertEqual(reported, [*range(1, MOST_CHANGES + 1)])
        self.assertEqual(inputs(sheet), [f" {number} " for number in range(MOST_CHANGES)])
        self.assert_exact(sheet)

    def test_one_that_is_refused(self) -> None:
        sheet = self.three()
        for changes, place, name in REFUSED:
            with self.subTest(changes=str(changes)[:80]):
                undone = self.assert_undone(sheet, changes, place)
                self.assertEqual((type(undone.why), getattr(undone.why, "name")), (Refused, name))
        self.assertEqual(inputs(sheet), ["one", "two", "three"])
        self.assertIn("'remove 9' is refused: NoField (2)", str(self.assert_undone(sheet, [Set(1, "x"), Remove(9)], 1)))

    def test_one_that_is_a_bad_line(self) -> None:
        sheet = self.three()
        for changes, place in BAD:
            with self.subTest(changes=str(changes)[:80]):
                self.assertIsInstance(self.assert_undone(sheet, changes, place).why, BadLine)
        self.assertEqual(sheet.together(Set(1, "x"), New(0, "a", "y")), [None, 4])

    def test_a_cell_that_waits(self) -> None:
        """It can't be changed. Its answer comes between the changes of others, and changes nothing of theirs."""
        sheet = self.three()
        waits = sheet.cell(1)
        evaluation = waits.eval()
        evaluation.result(SECONDS)
        waits.set("sleep 60")
        evaluation = waits.eval()
        self.assertEqual(getattr(self.assert_undone(sheet, [Set(2, "x"), Remove(1)], 1).why, "name"), "InFlight")
        count = 0
        while not evaluation.done():
            count += 1
            self.assertEqual(sheet.together(Set(2, f"x{count}"), Move(1, 3 if count % 2 else 0), Set(3, f"y{count}")), [None] * 3)
            sheet.interrupt("a") if count > 20 else None
        self.assertEqual(evaluation.result(SECONDS).text, "interrupted")
        self.assertEqual(sorted(inputs(sheet)), ["sleep 60", f"x{count}", f"y{count}"])
        self.assert_exact(sheet)

    def test_many_threads(self) -> None:
        """Transactions, transactions that are refused and calls of others are answered in their order."""
        sheet = self.sheet()
        ids = [sheet.new("a", "0").id for _ in range(8)]

        def work(number: int) -> int:
            undone = 0
            for turn in range(60):
                try:
                    sheet.together(Set(ids[number], str(turn)), New(0, "a", "new"), Remove(ids[number] if turn % 7 == 6 else 99_999 if turn % 2 else ids[number]))
                    ids[number] = sheet.new("a", str(turn)).id
                except Undone:
                    undone += 1
                    sheet.set(ids[number], str(turn))
            return undone

        with concurrent.futures.ThreadPoolExecutor() as pool:
            self.assertEqual(list(pool.map(work, range(8))), [26] * 8)
        self.assertEqual(len(sheet.cells), 8 + 8 * 34)
        self.assert_exact(sheet)

    def test_a_timeout(self) -> None:
        """What waits after a `wait` may be done yet."""
        sheet = self.three()
        sheet.cell(1).set("sleep 1")
        sheet.cell(1).eval()
        holds = threading.Thread(target=sheet.wait)
        sheet._timeout = 0.2
        holds.start()
        self.until(lambda: holds.is_alive())
        with self.assertRaises(TimedOut):
            while True:
                sheet.together(Set(2, "x"), Set(3, "y"))
        holds.join()
        sheet._timeout = SECONDS
        self.assertEqual(sheet.together(New(0, "a", "z")), [4])
        self.assertEqual(inputs(sheet), ["z", "sleep 1", "x", "y"])
        self.assert_exact(sheet)


@needs_program
class Async(TogetherCase, AsyncCase):
    async def test_calls(self) -> None:
        sheet = await self.open_async("a")
        self.assertEqual(await sheet.together(), [])
        self.assertEqual(await sheet.together(*(New(after, "a", text) for after, text in enumerate(("one", "two", "three")))), [1, 2, 3])
        for changes, place in [*((changes, place) for changes, place, _ in REFUSED), *BAD]:
            with self.subTest(changes=str(changes)[:80]):
                held = self.shown(sheet)
                with self.assertRaises(Undone) as reported:
                    await sheet.together(*changes)
                self.assertEqual((reported.exception.place, self.shown(sheet)), (place, held))
        await self.assert_exact_now(sheet)
        self.assertEqual(await sheet.together(Set(1, "x"), New(0, "a", "y"), Remove(2)), [None, 4, None])
        self.assertEqual(inputs(sheet), ["y", "x", "three"])

    async def test_many_tasks(self) -> None:
        sheet = await self.open_async("a")

        async def one(number: int) -> object:
            try:
                return await sheet.together(New(0, "a", "x"), New(0, "b" if number % 3 == 0 else "a", "y"))
            except Undone as undone:
                return undone.place

        reported = await asyncio.gather(*(one(number) for number in range(60)))
        self.assertEqual(reported.count(1), 20)
        self.assertEqual((len(sheet.cells), len({str(one) for one in reported})), (80, 41))
        await self.assert_exact_now(sheet)

    async def test_a_kill_in_the_middle(self) -> None:
        self.three().close()
        for lines in (1, 2):
            sheet = await AsyncWorksheet(self.path, program=[sys.executable, os.path.join(HERE, "cutter.py"), str(lines), PROGRAM]).open()
            self.addAsyncCleanup(sheet.close)
            held = self.shown(sheet)
            with self.assertRaises(Died):
                await sheet.together(Set(1, "x"), Remove(2))
            self.assertEqual(self.shown(sheet), held)
            await sheet.close()
            with self.open() as again:
                self.assertEqual(again.fields, held[0])


@needs_program
class Kills(TogetherCase):
    def cut(self, lines: int, *changes: Change) -> Tuple[List[Field], List[Field]]:
        """The fields in front of a kill after so many lines of the transaction, and after it. It has no reply."""
        sheet = eventually(lambda: Worksheet(self.path, program=[sys.executable, os.path.join(HERE, "cutter.py"), str(lines), PROGRAM], timeout=SECONDS))
        held = self.shown(sheet)
        with self.assertRaises(Died) as reported:
            sheet.together(*changes)
        self.assertEqual(reported.exception.status, -signal.SIGKILL)
        self.assertEqual(self.shown(sheet), held)
        sheet.close()
        with eventually(lambda: Worksheet(self.path, program=PROGRAM, timeout=SECONDS)) as again:
            return held[0], again.fields

    def test_a_kill_in_front_of_the_end(self) -> None:
        """None of the transaction is there, whichever of its lines were read."""
        self.three().close()
        changes: List[Change] = [New(0, "a", "new"), Set(1, "x"), Set(4, "y"), Remove(2), Move(3, 4), MakeSession("b", ("p",), False)]
        for lines in range(len(changes) + 2):
            before, after = self.cut(lines, *changes)
            self.assertEqual(before, after)
        with self.open() as sheet:
            self.assertEqual((inputs(sheet), list(sheet.sessions)), (["one", "two", "three"], ["a"]))
            self.assertEqual(sheet.together(*changes)[0], 4)
            self.assertEqual(inputs(sheet), ["y", "three", "x"])

    def test_kills(self) -> None:
        """All cells have the number of the same transaction, whatever the moment."""
        seed = int(os.environ.get("TMHOST_SEED", str(random.randrange(10**6))))
        chance, done = random.Random(seed), 0
        with self.sheet() as sheet:
            sheet.together(*(New(0, "a", "0") for _ in range(CELLS)))
        for number in range(KILLS):
            with self.subTest(seed=seed, kill=number):
                sheet = eventually(lambda: Worksheet(self.path, program=PROGRAM, timeout=SECONDS))
                killer = threading.Timer(chance.uniform(0.0, 0.2), os.kill, (sheet.pid, signal.SIGKILL))
                killer.start()
                reported = self.until_killed(sheet, chance)
                killer.join()
                with eventually(lambda: Worksheet(self.path, program=PROGRAM, timeout=SECONDS)) as again:
                    there = inputs(again)
                    self.assert_exact(again)
                self.assertEqual((len(there), len(set(there))), (CELLS, 1))
                self.assertIn(int(there[0]) - reported, (0, 1))
                done = int(there[0])
        print(f"\nseed {seed}: {KILLS} kills, {done} transactions")

    def until_killed(self, sheet: Worksheet, chance: random.Random) -> int:
        """Has each cell changed by each transaction until a kill; gives the number of the last one that was reported. Some transactions are refused."""
        with sheet:
            at = int(inputs(sheet)[0])
            try:
                while True:
                    ids = [cell.id for cell in sheet.cells]
                    chance.shuffle(ids)
                    gone, *others = ids
                    changes: List[Change] = [Set(id, str(at + 1)) for id in others]
                    changes += [Remove(gone), New(others[0], "a", str(at + 1)), Move(others[0], sheet.next_id)]
                    if chance.random() < 0.3:
                        self.assert_refused(sheet, [*changes, Set(gone, "x")])
                    sheet.together(*changes)
                    at += 1
            except Died:
                return at

    def assert_refused(self, sheet: Worksheet, changes: List[Change]) -> None:
        with self.assertRaises(Undone):
            sheet.together(*changes)


class Reported(unittest.TestCase):
    """What is reported of a transaction, without a program."""

    def begun(self, *changes: Change) -> Tuple[Talk, Any]:
        talk = Talk()
        talk.protocol.mirror.insert(Field(1, "a", "x"), 0)
        return talk, talk.send(Together(changes))

    def test_lines(self) -> None:
        talk, _ = self.begun(Set(1, "y\r"), Remove(1))
        self.assertEqual(talk.line, b"begin\nset 1 y\r\r\nremove 1\nend\n")

    def test_nothing_is_shown_before_all_is_reported(self) -> None:
        talk, waits = self.begun(Set(1, "y"), New(1, "a", "z"))
        after = talk.send(Checkpoint())
        talk.reported(HELLO, {"line": 1, "type": "nothing"}, {"line": 2, "type": "done"}, {"id": 2, "line": 3, "type": "made"})
        self.assertEqual((talk.protocol.mirror.fields(), waits.done()), ([Field(1, "a", "x")], False))
        self.assertEqual(talk.reported({"line": 4, "type": "nothing"}).events, [Done("set", 1), Done("new", 2, "a", 1)])
        self.assertEqual((talk.protocol.mirror.fields(), waits.result(0)), ([Field(1, "a", "y"), Field(2, "a", "z")], [None, 2]))
        talk.reported({"line": 5, "type": "done"})
        self.assertIsNone(after.result(0))

    def test_all_that_wait_are_reported(self) -> None:
        """The line after a transaction that is undone has its own reply."""
        for reported in ({"line": 3, "name": "NoField", "number": 2, "type": "refused"}, {"line": 3, "type": "bad"}):
            talk, waits = self.begun(Set(1, "y"), Set(2, "y"), Set(3, "y"))
            after = talk.send(Checkpoint())
            talk.reported({"line": 1, "type": "nothing"}, reported)
            self.assertFalse(waits.done())
            self.assertEqual(talk.reported({"from": 1, "line": 5, "type": "undone"}, {"line": 6, "type": "done"}).events, [Done("checkpoint")])
            self.assertEqual((waits.exception(0).place, waits.exception(0).line, after.result(0)), (1, "set 2 y", None))
            self.assertEqual(talk.protocol.mirror.fields(), [Field(1, "a", "x")])

    def test_an_end_in_the_middle(self) -> None:
        talk, waits = self.begun(Set(1, "y"), Set(1, "z"))
        talk.reported({"line": 1, "type": "nothing"}, {"line": 2, "type": "done"})
        for settle in talk.protocol.finish(False, 1, "").settled:
            settle()
        self.assertIsInstance(waits.exception(0), Died)
        self.assertEqual(talk.protocol.mirror.fields(), [Field(1, "a", "x")])

    def test_what_comes_out_of_step(self) -> None:
        begin, done, last = {"line": 1, "type": "nothing"}, {"line": 2, "type": "done"}, {"line": 4, "type": "nothing"}
        refused: Dict[str, Any] = {"line": 2, "name": "NoField", "number": 2, "type": "refused"}
        undone: Dict[str, Any] = {"from": 1, "line": 4, "type": "undone"}
        cases: List[List[Dict[str, Any]]] = [
            [{**begin, "type": "bad"}], [{**begin, "type": "done"}], [done], [last], [begin, {**done, "line": 3}], [begin, last], [begin, begin],
            [begin, done, last], [begin, {**done, "type": "nothing"}], [begin, undone], [begin, refused, done], [begin, refused, last],
            [begin, refused, {**undone, "line": 3}], [begin, refused, {**undone, "line": 5}], [begin, {**refused, "line": 4}], [begin, done, done],
            [begin, done, {**done, "line": 3}, {**last, "type": "done"}], [begin, {**done, "more": True}], [{**refused, "line": 1}],
            [begin, refused, {"line": 4, "type": "undone"}], [begin, refused, undone, undone],
        ]  # fmt: skip
        for objects in cases:
            with self.subTest(objects=objects):
                talk, waits = self.begun(Set(1, "y"), Set(1, "z"))
                self.assertRaises(ProtocolError, talk.reported, *objects)


if __name__ == "__main__":
    unittest.main()
