"""The same over asyncio."""

import asyncio
import os
import signal
import sys
import unittest
from typing import Any, List

from support import PROGRAM, SECONDS, WORDS, Case, big, is_there, needs_program

from tmhost import (
    Answered,
    AsyncWorksheet,
    Block,
    Closed,
    Completions,
    Died,
    Event,
    Finished,
    Gone,
    InUse,
    Lost,
    NoWorksheet,
    ProtocolError,
    Refused,
    TimedOut,
)


class AsyncCase(Case, unittest.IsolatedAsyncioTestCase):
    def words(self, **more: Any) -> "dict[str, Any]":
        return {"create": True, "program": PROGRAM, "timeout": SECONDS, **more}

    async def open_async(self, *names: str, **more: Any) -> AsyncWorksheet:
        sheet = await AsyncWorksheet(self.path, **self.words(**more)).open()
        self.addAsyncCleanup(sheet.close)
        for name in names:
            await sheet.session(name, WORDS, tab=name.endswith("_tab"))
        return sheet

    async def assert_exact_now(self, sheet: AsyncWorksheet) -> None:
        held = self.shown(sheet)
        await sheet.refresh()
        self.assertEqual(self.shown(sheet), held)


@needs_program
class Calls(AsyncCase):
    async def test_calls(self) -> None:
        async with AsyncWorksheet(self.path, **self.words()) as sheet:
            self.assertEqual((sheet.cells, sheet.error), ([], None))
            await sheet.session("a", WORDS)
            self.assertEqual(await sheet.ensure_session("a", WORDS), sheet.sessions["a"])
            one, two, three = [await sheet.new("a", text) for text in ("one", "two\nlines", "three")]
            await three.move(0)
            await one.move()
            self.assertEqual([(cell.id, cell.input) for cell in sheet.cells], [(3, "three"), (2, "two\u2028lines"), (1, "one")])
            self.assertEqual((await two.evaluate()).output, Block("verbatim", "format", ("two\u2028lines",)))
            await two.clear()
            await one.set("latin")
            self.assertEqual((await one.evaluate(SECONDS)).text, b"caf\xe9")
            await three.remove()
            self.assertRaises(Gone, lambda: three.field)
            await sheet.checkpoint()
            self.assertTrue(str(await sheet.export("script")).endswith("new 0 a two\u2028lines\nnew 1 a latin\n"))
            await self.assert_exact_now(sheet)
            held = self.shown(sheet)
        self.assertIsInstance(sheet.error, Closed)
        with self.assertRaises(Closed):
            await sheet.new("a", "x")
        again = await self.open_async()
        self.assertEqual(again.fields, held[0])

    async def test_refusals(self) -> None:
        sheet = await self.open_async("a")
        cell = await sheet.new("a", "sleep 60")
        evaluation = await cell.eval()
        self.assertEqual((cell.evaluation, evaluation.done()), (evaluation, False))
        for call in (cell.eval(), cell.remove(), sheet.session("a", "x"), sheet.new("b"), cell.complete(), cell.set("\0")):
            with self.assertRaises(Refused):
                await call
        self.assertEqual(await sheet.stop("a"), tuple(self.lost(cell)))
        with self.assertRaises(Lost) as reported:
            await evaluation
        self.assertEqual((reported.exception.reason, cell.reason), ("Stopped", "Stopped"))
        await self.assert_exact_now(sheet)

    async def test_completions(self) -> None:
        sheet = await self.open_async("a_tab")
        cell = await sheet.new("a_tab", "pr")
        self.assertEqual(await cell.complete(), Completions("pr", ("a", "\u00e9", b"\xe9")))
        self.assertEqual(await cell.complete(text="p"), Completions("p", ("a", "\u00e9", b"\xe9")))

    async def test_sessions_side_by_side(self) -> None:
        sheet = await self.open_async("a", "b")
        slow, quick = await sheet.new("a", "x"), await sheet.new("b", "x")
        await slow.evaluate()
        await slow.set("sleep 60")
        evaluation = await slow.eval()
        self.assertEqual((await quick.evaluate(SECONDS)).text, "x")
        self.assertFalse(evaluation.done())
        while not evaluation.done():
            await sheet.interrupt("a")
            await asyncio.sleep(0.05)
        self.assertEqual((await evaluation).text, "interrupted")
        self.assertEqual(await sheet.interrupt("a"), "idle")
        self.assertTrue(await sheet.wait(60))
        await self.assert_exact_now(sheet)

    async def test_many_tasks(self) -> None:
        """Large answers come while 200 lines of 60,000 bytes are sent, whatever has been read of their replies."""
        sheet = await self.open_async("a", "b")

        async def evaluate(number: int) -> bool:
            cell = await sheet.new("ab"[number % 2], f"big {200_000 + number} {number}")
            return (await cell.evaluate(SECONDS)).text == big(200_000 + number, str(number))

        async def refused(number: int) -> str:
            try:
                await sheet.set(1, f"{number} " + "y" * 60_000)
            except Refused as reported:
                return reported.name
            return ""

        first = await sheet.new("b", "x")
        answers = asyncio.gather(*(evaluate(number) for number in range(40)))
        self.assertEqual(await asyncio.gather(*(refused(number) for number in range(200))), 200 * ["BadInput"])
        self.assertEqual(await answers, 40 * [True])
        self.assertEqual(sheet.cells[0], first)
        self.assertEqual([cell.id for cell in sheet.cells], sorted(cell.id for cell in sheet.cells))
        await self.assert_exact_now(sheet)

    async def test_timeouts_and_tasks_that_are_cancelled(self) -> None:
        sheet = await self.open_async("a")
        cell = await sheet.new("a", "sleep 2")
        with self.assertRaisesRegex(TimedOut, r"\A(cell 1|eval): 0\.1 seconds are over\Z"):
            await cell.evaluate(timeout=0.1)
        await sheet.refresh()  # after its reply the line is asked, however slow that was
        waits = cell.evaluation
        assert waits
        task = asyncio.ensure_future(waits.result())
        holds = asyncio.ensure_future(sheet.wait())
        late = asyncio.ensure_future(sheet.new("a", "late"))
        await asyncio.sleep(0.1)
        for one in (task, late):
            one.cancel()
            self.assertTrue(isinstance((await asyncio.gather(one, return_exceptions=True))[0], asyncio.CancelledError))
        last = await sheet.new("a", "last")  # after the other one, whose reply is still to come
        self.assertTrue(await holds)
        self.assertEqual(((await waits).text, last.id), ("slept", 3))
        self.assertEqual([cell.input for cell in sheet.cells], ["sleep 2", "late", "last"])
        await self.assert_exact_now(sheet)


@needs_program
class Ends(AsyncCase):
    async def test_events(self) -> None:
        sheet = await self.open_async("a")
        events: List[Event] = []
        finished = asyncio.Event()
        cell = await sheet.new("a", "x")

        async def heard(event: Event) -> None:
            if isinstance(event, Answered):
                await sheet.new("a", "by a listener")
            if isinstance(event, Finished):
                finished.set()

        sheet.listen(events.append)
        sheet.listen(heard)
        answer = await cell.evaluate()
        while len(sheet.cells) < 2:
            await asyncio.sleep(0.01)
        await sheet.close()
        await asyncio.wait_for(finished.wait(), SECONDS)
        self.assertIn(Answered("a", 1, 1, answer, "> "), events)
        self.assertEqual(events[-1], Finished(None))
        finished.clear()
        sheet.listen(heard)
        await asyncio.wait_for(finished.wait(), SECONDS)

    async def test_a_kill(self) -> None:
        sheet = await self.open_async("a")
        kept, waiting = await sheet.new("a", "hello"), await sheet.new("a", "sleep 60")
        await kept.evaluate()
        evaluation, held = await waiting.eval(), sheet.fields
        os.kill(sheet.pid, signal.SIGKILL)
        with self.assertRaises(Died) as reported:
            await evaluation
        self.assertEqual((reported.exception.number, reported.exception.status), (None, -signal.SIGKILL))
        with self.assertRaises(Died):
            await sheet.new("a", "x")
        self.assertEqual(sheet.fields, held)
        await sheet.close()
        self.assertEqual([cell.text for cell in self.open().cells], ["hello", None])

    async def test_no_interpreter_outlives_a_kill(self) -> None:
        sheet = await self.open_async()
        words, number_of = self.busy()
        await sheet.session("a", words)
        evaluation = await (await sheet.new("a", "x")).eval()
        number = number_of()
        os.kill(sheet.pid, signal.SIGKILL)
        with self.assertRaises(Died):
            await evaluation
        self.until(lambda: not is_there(number))

    async def test_a_close_after_a_wait(self) -> None:
        sheet = await self.open_async("a")
        await (await sheet.new("a", "sleep 60")).eval()
        holds = asyncio.ensure_future(sheet.wait())
        await asyncio.sleep(0.1)
        await sheet.close(0.2)
        with self.assertRaises(Died):
            await holds

    async def test_a_worksheet_in_use(self) -> None:
        await self.open_async()
        with self.assertRaises(InUse) as reported:
            await AsyncWorksheet(self.path, program=PROGRAM).open()
        self.assertEqual((reported.exception.number, reported.exception.fault), (35, "InUse"))

    async def test_one_that_is_not_open(self) -> None:
        sheet = AsyncWorksheet(self.path, program=PROGRAM)
        self.assertRaises(Closed, lambda: sheet.cells)
        self.assertIsInstance(sheet.error, Closed)
        await sheet.close()
        with self.assertRaises(FileNotFoundError) as reported:
            await sheet.open()
        assert isinstance(reported.exception, NoWorksheet)
        self.assertEqual((reported.exception.number, reported.exception.filename), (32, self.path))
        with self.assertRaises(NoWorksheet):
            await AsyncWorksheet(os.path.join(self.folder, "no", "folder"), create=True, program=PROGRAM).open()


class Programs(AsyncCase):
    async def test_no_program(self) -> None:
        with self.assertRaises(FileNotFoundError):
            await AsyncWorksheet(self.path, program=os.path.join(self.folder, "none")).open()

    async def test_what_is_no_protocol(self) -> None:
        for text in ("print('rubbish', flush=True); import time; time.sleep(60)", "print('{\"protocol\":2}', flush=True); input()"):
            with self.assertRaises(ProtocolError):
                await AsyncWorksheet(self.path, program=[sys.executable, "-c", text]).open()


if __name__ == "__main__":
    unittest.main()
