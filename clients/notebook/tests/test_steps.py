"""Steps over several cells, as the server does them: what is refused, what is taken back, and kills of the program while cells are cut, pasted and merged.
TMHOST_KILLS says how many are made (50)."""

import os
import random
import re
import signal
import sys
import threading
import time
import unittest
from typing import Any, Dict, List, Tuple
from unittest import mock

from harness import NOTEBOOK, PROGRAM, Case, Page, needs_program

sys.path[:0] = [NOTEBOOK, f"{NOTEBOOK}/../python"]
from tmhost import Change, Refused, Undone  # noqa: E402
from tmhost_notebook.book import Book  # noqa: E402
from tmhost_notebook.steps import Given, Made, NotFit, Step  # noqa: E402

KILLS = int(os.environ.get("TMHOST_KILLS", "50"))
WORD = "word%d"


@needs_program
class Steps(Case):
    def begin(self) -> Page:
        self.server = self.serve()
        page = Page(self.server)
        page.call("session", name="s", words="cat", tab=False)
        return page

    def step(self, page: Page, **members: Any) -> Dict[str, Any]:
        return page.call("step", **{"what": "step", "new": [], "set": [], "move": [], "remove": [], **members})

    def texts(self, page: Page) -> List[str]:
        reported = page.snapshot()
        by_id = {cell["id"]: cell["input"] for cell in reported.get("cells", [])}
        return [by_id[id] for id in reported["order"]]

    def fill(self, page: Page, *texts: str) -> None:
        self.step(page, new=[{"after": 0, "session": "s", "text": text} for text in texts])
        self.assertEqual(self.texts(page), list(texts))

    def test_random_steps_are_taken_back(self) -> None:
        """Back to the start and forward to the end, over cells that come back under other numbers, the texts are what they were."""
        page, chance = self.begin(), random.Random(7)
        self.fill(page, *"abcdefgh")
        past = [self.texts(page)]
        for number in range(40):
            reported = page.snapshot()
            order, by_id = reported["order"], {cell["id"]: cell["input"] for cell in reported["cells"]}
            some = chance.sample(order, min(3, len(order)))
            kinds: List[Dict[str, Any]] = [{"new": [{"after": id, "session": "s", "text": f"n{number}"} for id in [*some, 0]]}, {"remove": [{"id": id} for id in some[:2]]},
                {"set": [{"id": id, "base": by_id[id], "text": f"{by_id[id]}{number}"} for id in some]},
                {"move": [{"id": some[0], "after": some[-1] if some[-1] != some[0] else 0}]} if some else {}]
            self.assertNotIn("refused", self.step(page, **chance.choice(kinds)))
            past.append(self.texts(page))
        for is_back, wanted in ((True, past[-2::-1]), (False, past[1:])):
            for texts in wanted:
                self.assertNotIn("refused", page.call("undo", isBack=is_back))
                self.assertEqual(self.texts(page), texts)
        self.assertEqual([line[2:] for line in self.show().split("\n") if line.startswith("> ")], past[-1])

    def test_what_is_refused_does_nothing(self) -> None:
        page = self.begin()
        self.fill(page, "a", "b")
        new = {"after": 0, "session": "s", "text": "new"}
        cases: List[Tuple[str, Dict[str, Any]]] = [
            ("BadInput", {"new": [new, {**new, "text": "x" * 4096}]}), ("BadInput", {"new": [new], "set": [{"id": 1, "base": "b", "text": "\x07"}]}),
            ("NoSession", {"new": [new, {**new, "session": "none"}]}), ("NoField", {"new": [new], "remove": [{"id": 9}]}),
            ("NoField", {"new": [new, {**new, "after": 9}]}),
            ("Elsewhere", {"new": [new], "set": [{"id": 1, "base": "other", "text": "x"}], "remove": [{"id": 2}]}),
            ("NoField", {"new": [new], "move": [{"id": 1, "after": 9}]}), ("NoField", {"new": [new], "move": [{"id": 9, "after": 1}]}),
            ("TooManyFields", {"new": [new] * 10_000}), ("NotUnderstood", {"new": [new, 1]}), ("NotUnderstood", {"remove": [{"id": "1"}]}),
            ("NotUnderstood", {"new": [{"after": 0}]}), ("BadInput", {"new": [{**new, "text": "\ud800"}, new]}),
        ]
        for name, members in cases:
            with self.subTest(name=name, members=str(members)[:60]):
                self.assertEqual(self.step(page, **members).get("refused"), name)
                self.assertEqual(self.texts(page), ["a", "b"])
        self.assertEqual(page.call("undo", isBack=True)["says"], "taken back: step")
        self.assertEqual((self.texts(page), page.call("undo", isBack=True)["refused"]), ([], "NotThere"))

    def test_a_cell_of_the_list_comes_back_once(self) -> None:
        """One that was brought back from the list isn't made again when its removal is taken back."""
        page = self.begin()
        self.fill(page, "a", "b", "c")
        removed = [{"id": id} for id in page.snapshot()["order"][:2]]
        self.step(page, remove=removed)
        page.call("restore", number=page.snapshot()["removed"][0]["number"])
        page.call("undo", isBack=True)
        self.assertEqual((sorted(self.texts(page)), page.snapshot()["removed"]), (["a", "b", "c"], []))

    def test_many(self) -> None:
        """2,000 cells are cut and pasted, and it is taken back."""
        page = self.begin()
        texts = [str(number) for number in range(2_000)]
        self.fill(page, *texts)
        start = time.monotonic()
        self.step(page, remove=[{"id": id} for id in page.snapshot()["order"][:1_500]])
        page.call("undo", isBack=True)
        print(f" 1,500 cells were cut and came back in {time.monotonic() - start:.1f} s", end="")
        self.assertEqual(self.texts(page), texts)

    def test_moves_to_where_a_cell_stands(self) -> None:
        """They change nothing, and keep nothing else of the step from being done."""
        page = self.begin()
        self.fill(page, "a", "b", "c")
        a, b, c = page.snapshot()["order"]
        new = {"after": a, "session": "s", "text": "new"}
        moved = [{"id": a, "after": 0}, {"id": b, "after": b}, {"id": c, "after": b}]
        self.assertNotIn("refused", self.step(page, new=[new], move=moved))
        self.assertEqual(self.texts(page), ["a", "new", "b", "c"])
        self.assertNotIn("refused", self.step(page, new=[new], move=[{"id": b, "after": a}, {"id": c, "after": a}, {"id": a, "after": c}]))
        self.assertEqual(self.texts(page), ["c", "a", "b", "new", "new"])
        for _ in range(2):
            self.assertNotIn("refused", page.call("undo", isBack=True))
        self.assertEqual(self.texts(page), ["a", "b", "c"])

    def test_a_part_that_is_refused(self) -> None:
        """Of a step of several transactions what was made and changed in front of it is undone, and what was removed is in the list."""
        book = Book(self.sheet, PROGRAM)
        self.addCleanup(book.close)
        book.sheet.session("s", "cat")
        book.steps.do(Step("x", [Made(0, "s", str(number)) for number in range(1_500)]))
        first, *others = book.places.ids
        reported: List[Any] = [book.sheet.together, self.refuse, book.sheet.together]
        with mock.patch.object(book.sheet, "together", lambda *changes: reported.pop(0)(*changes)), self.assertRaises(NotFit) as refused:
            book.steps.do(Step("merge", [Made(0, "s", "new")], [Given(first, "0", "other")], removed=others))
        self.assertEqual((refused.exception.name, len(reported)), ("JournalFull", 0))
        self.assertEqual([field.input for field in book.sheet.fields], ["0", *(str(number) for number in range(1_023, 1_500))])
        self.assertEqual([one["field"].input for one in book.removed], [str(number) for number in range(823, 1_023)])
        book.settle(lambda: len(book.places) == len(book.sheet.fields))
        self.assertEqual((book.places.ids, len(book.steps.past), book.in_doubt), ([field.id for field in book.sheet.fields], 1, set()))

    def refuse(self, *changes: Change) -> None:
        raise Undone(0, changes[0].line, Refused("JournalFull", 16))

    def test_kills(self) -> None:
        """At each moment each word is in the file once: a cell that goes elsewhere, or into another one, is there or here."""
        page, seed = self.begin(), random.randrange(10**6)
        chance, done = random.Random(seed), 0
        self.fill(page, *(WORD % number for number in range(40)))
        for round in range(KILLS):
            with self.subTest(round=round, seed=seed):
                killer = threading.Timer(chance.uniform(0.01, 0.3), self.kill)
                killer.start()
                self.addCleanup(killer.cancel)
                while "refused" not in self.carry(page, chance):
                    done += 1
                killer.join()
                shown = self.show()
                for number in range(40):
                    self.assertEqual(len(re.findall(rf"\b{WORD % number}\b", shown)), 1, WORD % number)
                while page.call("reopen").get("refused"):
                    time.sleep(0.05)
        print(f" {KILLS} kills, {done} steps, seed {seed}", end="")
        self.assertGreater(done, KILLS)

    def kill(self) -> None:
        program = self.server.program
        if program is not None:  # else its end was seen already
            os.kill(program, signal.SIGKILL)

    def carry(self, page: Page, chance: random.Random) -> Dict[str, Any]:
        """Moves cells elsewhere by making them again, makes one of two, or one into two."""
        reported = page.snapshot()
        order, by_id = reported["order"], {cell["id"]: cell["input"] for cell in reported["cells"]}
        one, other = chance.sample(order, 2) if len(order) > 1 else (order[0], order[0])
        words = by_id[one].split("\n")
        if chance.random() < 0.3 and one != other:
            merged = "\n".join(dict.fromkeys(by_id[one].split("\n") + by_id[other].split("\n")))
            return self.step(page, set=[{"id": one, "base": by_id[one], "text": merged}], remove=[{"id": other}])
        if len(words) > 1:
            new = [{"after": one, "session": "s", "text": "\n".join(words[1:])}]
            return self.step(page, new=new, set=[{"id": one, "base": by_id[one], "text": words[0]}])
        some = chance.sample(order, min(5, len(order)))
        left = [id for id in order if id not in some]
        return self.step(page, new=[{"after": left[0] if left else 0, "session": "s", "text": by_id[id]} for id in some], remove=[{"id": id} for id in some])


if __name__ == "__main__":
    unittest.main()
