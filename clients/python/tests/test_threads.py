"""Many threads at one worksheet, pipes that are full, and those who listen."""

import concurrent.futures
import random
import threading
import unittest
from typing import Any, Callable, List

from support import SECONDS, WORDS, Case, big, needs_program

from tmhost import Answered, Banner, Block, Closed, Default, Done, Ended, Event, Evaluation, Finished
from tmhost import Lost, Refused, Stopped, TmhostError, Worksheet


def at_once(count: int, call: Callable[[int], Any]) -> List[Any]:
    """What a call gives in so many threads, with their numbers."""
    with concurrent.futures.ThreadPoolExecutor(count) as pool:
        return list(pool.map(call, range(count)))


@needs_program
class Threads(Case):
    def test_forty_threads_with_large_answers(self) -> None:
        sheet = self.sheet("a", "b")

        def evaluate(number: int) -> bool:
            cell = sheet.new("ab"[number % 2], f"big {200_000 + number} {number}")
            return cell.evaluate(timeout=SECONDS).text == big(200_000 + number, str(number))

        self.assertEqual(at_once(40, evaluate), 40 * [True])
        self.assertEqual(len(sheet.cells), 40)
        self.assert_exact(sheet)

    def test_long_lines_beside_large_answers(self) -> None:
        """200 lines of 60,000 bytes are sent whatever has been read of their replies, while answers of 200,000 bytes come."""
        sheet = self.sheet()
        cells = [sheet.new("a", f"big 200000 {number}") for number in range(40)]
        waits = [cell.eval() for cell in cells]

        def refused(number: int) -> str:
            with self.assertRaises(Refused) as reported:
                sheet.new("a", f"{number} " + "y" * 60_000)
            return reported.exception.name

        self.assertEqual(at_once(200, refused), 200 * ["BadInput"])
        self.assertEqual([one.result(SECONDS).text for one in waits], [big(200_000, str(number)) for number in range(40)])
        self.assert_exact(sheet)

    def test_all_at_the_end(self) -> None:
        """Each cell is put after the one that is last when it comes, also where that goes or moves meanwhile."""
        sheet = self.sheet()

        def work(thread: int) -> List[int]:
            cells = [sheet.new("a", f"{thread}") for _ in range(5)]
            cells[1].remove()
            cells[0].move()
            return [cells[place].id for place in (2, 3, 4, 0)]

        rows = at_once(8, work)
        order = [cell.id for cell in sheet.cells]
        for row in rows:
            self.assertEqual([id for id in order if id in row], row)
        self.assertEqual(len(order), 32)
        self.assert_exact(sheet)

    def test_one_session_of_many_threads(self) -> None:
        sheet = self.open()
        made = at_once(20, lambda number: sheet.ensure_session("a", "sh x.sh"))
        self.assertEqual(made, 20 * [sheet.sessions["a"]])
        self.assert_exact(sheet)

    def test_as_completed(self) -> None:
        sheet = self.sheet("a", "b")
        cells = [sheet.new("ab"[number % 2], f"{number}") for number in range(20)]
        waits: List[Evaluation] = [cell.eval() for cell in cells]
        done = {one.result().text for one in concurrent.futures.as_completed(waits, SECONDS)}
        self.assertEqual(done, {cell.input for cell in cells})

    def test_random_calls(self) -> None:
        """After any calls of any threads the worksheet shows what the program has."""
        for seed in range(3):
            with self.subTest(seed=seed):
                self.path = f"{self.folder}/{seed}"
                sheet = self.sheet("a", "b_tab", "c")
                at_once(4, lambda thread: random_calls(sheet, random.Random(f"{seed} {thread}")))
                sheet.wait(60)
                self.assert_exact(sheet)


TEXTS = ["x", "latin", "die", "half", "tag", "both", "sleep 0.01", "prompted y", "offer z", "nothing", "big 100000 s"]


def random_calls(sheet: Worksheet, chance: random.Random) -> None:
    ids = range(1, 40)
    calls: List[Callable[[], object]] = [
        lambda: sheet.new(chance.choice(list(sheet.sessions)), chance.choice(TEXTS), chance.choice([None, 0, chance.choice(ids)])),
        lambda: sheet.set(chance.choice(ids), chance.choice(TEXTS)),
        lambda: sheet.remove(chance.choice(ids)),
        lambda: sheet.move(chance.choice(ids), chance.choice([None, 0, chance.choice(ids)])),
        lambda: sheet.clear(chance.choice(ids)),
        lambda: sheet.stop(chance.choice(list(sheet.sessions))),
        lambda: sheet.interrupt(chance.choice(list(sheet.sessions))),
        lambda: sheet.complete(chance.choice(ids), timeout=SECONDS),
        sheet.checkpoint,
    ]
    evaluations: List[Callable[[], object]] = [lambda: sheet.eval(chance.choice(ids)), lambda: sheet.evaluate(chance.choice(ids), SECONDS)]
    for _ in range(60):
        try:
            chance.choice(calls[:1] * 2 + calls + evaluations * 5)()
        except TmhostError as error:
            if sheet.error:
                raise error


@needs_program
class Listening(Case):
    def listened(self, sheet: Worksheet) -> "List[Event]":
        """The events from now on; the last one is there when the worksheet is closed by `all_of`."""
        events: List[Event] = []
        sheet.listen(events.append)
        self.finished = threading.Event()
        sheet.listen(lambda event: self.finished.set() if isinstance(event, Finished) else None)
        return events

    def all_of(self, sheet: Worksheet, events: "List[Event]") -> "List[Event]":
        sheet.close()
        self.assertTrue(self.finished.wait(SECONDS))
        return events

    def test_events_in_their_order(self) -> None:
        sheet = self.open()
        events = self.listened(sheet)
        sheet.session("a", WORDS)
        cell = sheet.new("a", "offer x")
        answer = cell.evaluate()
        cell.set("sleep 60")
        cell.eval()
        lost = sheet.stop("a")
        cell.set("die")
        self.assertIsNotNone(cell.eval().exception())
        kinds = [event for event in self.all_of(sheet, events) if not isinstance(event, Banner)]
        self.assertEqual(kinds[:3], [Done("session", None, "a"), Done("new", 1, "a", 0), Done("eval", 1)])
        self.assertEqual(kinds[3:5], [Answered("a", 1, 1, answer, "> "), Default("a", 1, "next")])
        self.assertEqual(kinds[5:9], [Done("set", 1), Done("eval", 1), Stopped("a", 1, lost), Done("set", 1)])
        self.assertEqual(kinds[9:], [Done("eval", 1), Ended("a", 2, "Ended", tuple(self.lost(cell))), Finished(None)])
        self.assertEqual(events[3], Banner("a", 1, Block("verbatim", "format", ("ready",)), "ready", "> "))

    def test_a_listener_that_calls_and_one_that_fails(self) -> None:
        sheet = self.sheet()
        cell, other = sheet.new("a", "x"), sheet.new("a", "y")
        texts: List[object] = []

        def fails(event: Event) -> None:
            raise ZeroDivisionError

        def goes_on(event: Event) -> None:
            if isinstance(event, Answered) and event.id == cell.id:
                texts.append(other.evaluate(SECONDS).text)

        sheet.listen(fails)
        sheet.listen(goes_on)
        events = self.listened(sheet)
        with self.assertLogs("tmhost", "ERROR"):
            cell.evaluate(SECONDS)
            while not texts:
                threading.Event().wait(0.01)
            self.all_of(sheet, events)
        self.assertEqual(texts, ["y"])
        self.assertEqual([event.id for event in events if isinstance(event, Answered)], [1, 2])

    def test_an_end_of_listening(self) -> None:
        sheet = self.sheet()
        heard: List[Event] = []
        end = sheet.listen(heard.append)
        end()
        events = self.listened(sheet)
        sheet.new("a", "x").evaluate(SECONDS)
        self.all_of(sheet, events)
        self.assertEqual((heard, len(events)), ([], 5))

    def test_listening_after_the_end(self) -> None:
        sheet = self.open()
        events = self.all_of(sheet, self.listened(sheet))
        self.assertEqual(events, [Finished(None)])
        self.assertEqual(self.all_of(sheet, self.listened(sheet)), [Finished(None)])

    def test_a_callback_of_an_evaluation(self) -> None:
        """It runs on the thread that reads, so it can't wait for a reply: an error says so, and nothing stands still."""
        sheet = self.sheet("a", "b")
        reported: List[BaseException] = []
        line, never = sheet.new("a", "sleep 60"), sheet.new("b", "sleep 60")
        calls: List[Callable[[], object]] = [sheet.refresh, sheet.close, lambda: sheet.new("a", "x"), lambda: waits.result()]

        def call_all(evaluation: object) -> None:
            for call in calls:
                try:
                    call()
                except RuntimeError as error:
                    reported.append(error)

        evaluation, waits = line.eval(), never.eval()
        evaluation.add_done_callback(call_all)
        sheet.stop("a")
        self.assertRaises(Lost, evaluation.result, SECONDS)
        sheet.close()
        self.assertEqual((len(reported), len(sheet.cells)), (4, 2))
        self.assertIsInstance(sheet.error, Closed)


if __name__ == "__main__":
    unittest.main()
