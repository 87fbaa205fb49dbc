"""What a worksheet was, as the server tells it: its changes, a look at it after any number of them, what a cell had before, and a worksheet that is made of it.
Looking writes nothing."""

import os
import random
import subprocess
import sys
import time
import unittest
from typing import Any, Dict, List, Tuple

from harness import NOTEBOOK, PROGRAM, SPOKEN, Case, Page, needs_program

sys.path[:0] = [NOTEBOOK, f"{NOTEBOOK}/../python"]
from tmhost_notebook import past  # noqa: E402

CHANGES = 150


def seen(reported: Dict[str, Any]) -> List[Tuple[Any, ...]]:
    """The cells of a message or of a look, in their order."""
    cells = reported["then"] if "then" in reported else [next(cell for cell in reported["cells"] if cell["id"] == id) for id in reported["order"]]
    return [(one["id"], one["session"], one["input"], answer_of(one), one["reason"]) for one in cells]


def answer_of(cell: Dict[str, Any]) -> Any:
    return cell["output"]["text"] if cell["state"] == "answered" else None


class Versions(unittest.TestCase):
    def test_what_was_taken_away(self) -> None:
        """Beside a cell that is played: each answer that was taken away, and each text that was without one, the newest first."""
        for seed in range(300):
            chance = random.Random(seed)
            lines = ["1 session a", "2 new 1 a", "3 new 7 a"]
            taken: List[Tuple[str, int]] = []
            text, answers, answered, is_answered = ("new", 3), 0, 0, False
            for at in range(4, 40):
                what = chance.choice(["set", "eval", "answered", "lost", "move", "of another"])
                if what == "answered" and is_answered or what == "lost" and is_answered:
                    what = "eval"  # an answer comes to a cell without one
                lines.append(f"{at} {what} 7" if what != "of another" else f"{at} set 1")
                if what in ("set", "eval") and is_answered:
                    taken.append(("answered", answered))
                    is_answered = False
                if what == "set":
                    taken += [] if answers else [text]
                    text, answers = ("set", at), 0
                elif what == "lost" and not answers:
                    text = ("lost", at)
                elif what == "answered":
                    answered, answers, is_answered = at, answers + 1, True
            if chance.random() < 0.3:
                lines.append("40 remove 7")
                taken += [("answered", answered)] if is_answered else [] if answers else [text]
            wanted = sorted(((at, what) for what, at in taken), reverse=True)
            self.assertEqual([(one.at, one.what) for one in past.versions_of(lines, 7)], wanted, (seed, lines))


@needs_program
class Bounded(Case):
    def begin(self, text: str) -> past.Past:
        subprocess.run([PROGRAM or "", "create", self.sheet], check=True, stdin=subprocess.DEVNULL, capture_output=True)
        program = os.path.join(self.folder, "slow")
        with open(program, "w", encoding="utf-8") as file:
            file.write(f"#!/bin/sh\n{text}\n")
        os.chmod(program, 0o700)
        kept = past.WITHIN, past.LARGEST
        self.addCleanup(lambda: vars(past).update(WITHIN=kept[0], LARGEST=kept[1]))
        return past.Past(self.sheet, program)

    def refused(self, what: past.Past) -> str:
        with self.assertRaises(past.NoPast) as reported:
            what.changes(is_new=True)
        return str(reported.exception)

    def test_a_program_that_takes_long(self) -> None:
        past.WITHIN = 0.3
        self.assertEqual(self.refused(self.begin("exec sleep 20")), "it takes too long")

    def test_another_question(self) -> None:
        """One waits for another, and not for ever."""
        past.WITHIN = 0.3
        what = self.begin("exec sleep 20")
        with what.lock:
            self.assertIn("for another page", self.refused(what))

    def test_a_large_worksheet(self) -> None:
        what = self.begin("exec true")
        past.LARGEST = 5
        self.assertIn("more than 5 bytes", self.refused(what))


@needs_program
class Looks(Case):
    def begin(self) -> Page:
        self.server = self.serve()
        page = Page(self.server)
        page.call("session", name="s", words=SPOKEN, tab=False)
        return page

    def by_program(self, *words: str) -> str:
        reported = subprocess.run([PROGRAM or "", *words], stdin=subprocess.DEVNULL, capture_output=True, check=True)
        return reported.stdout.decode()

    def change(self, page: Page, chance: random.Random) -> None:
        """One random change by a call, whose answer has come."""
        cells = page.cells()
        id, other = (chance.choice([*cells] or [0]) for _ in range(2))
        kind = "new" if len(cells) < 2 else chance.choice(["new", "set", "set", "eval", "eval", "eval", "clear", "remove", "move", "prose"])
        if kind in ("new", "prose"):
            page.call("new", session="s" if kind == "new" else None, text=f"say {chance.random()}", after=other)
        elif kind == "set":
            page.call("set", id=id, base=cells[id]["input"], text=chance.choice(["exit", f"say {chance.random()}"]))
        elif kind == "move":
            page.call("move", id=id, by=chance.choice([-1, 1, 2]))
        else:
            page.call(kind, id=id)
        page.until_idle()

    def test_each_look_is_what_was_reported(self) -> None:
        """After each of 150 random changes the look has the cells that pages were sent at that time, and nothing was written by looking."""
        page, chance, reported = self.begin(), random.Random(int(os.environ.get("TMHOST_SEED", "3"))), {}
        for _ in range(CHANGES):
            self.change(page, chance)
            reported[page.call("past")["count"]] = seen(page.snapshot())
        before, opening = self.both_files(), page.call("past")["opening"]
        for at, cells in reported.items():
            self.assertEqual(seen(page.call("past_sheet", opening=opening, at=at, about=0, place=0)), cells[:50], at)
        self.versions(page, opening, reported)
        self.assertEqual(self.both_files(), before)
        print(f" {len(reported)} looks", end="")

    def versions(self, page: Page, opening: str, reported: Dict[int, List[Tuple[Any, ...]]]) -> None:
        """What a cell had before is what pages were sent then, and each answer that they were sent and that is no more is in it."""
        now = {cell[0]: cell for cell in seen(page.snapshot())}
        for id in now:
            found = []
            for at, what in page.call("past_cell", id=id)["versions"]:
                [cell] = page.call("past_field", opening=opening, at=at, id=id)["then"]
                found.append((cell["input"], answer_of(cell)))
                known = [one for cells in (reported.get(at, []),) for one in cells if one[0] == id]
                self.assertEqual(known, seen({"then": [cell]}) if known else [], (at, what))
            had = {(cell[2], cell[3]) for cells in reported.values() for cell in cells if cell[0] == id and cell[3] is not None}
            self.assertLessEqual(had - {(now[id][2], now[id][3])}, set(found))

    def test_while_interpreters_work(self) -> None:
        page = self.begin()
        page.call("new", session="s", text="sleep 60", after=0)
        page.call("eval", id=1)
        begun = time.monotonic()
        reported = page.call("past")
        self.assertEqual(reported["changes"], ["1 session s", "2 new 1 s", "3 eval 1"])
        look = page.call("past_sheet", opening=reported["opening"], at=3, about=0, place=0)
        self.assertEqual(seen(look), [(1, "s", "sleep 60", None, None)])
        self.assertLess(time.monotonic() - begun, 20)
        self.assertEqual(page.cells()[1]["state"], "running")

    def test_many_changes_and_cells(self) -> None:
        """They are reported in parts."""
        page = self.begin()
        page.call("step", what="x", set=[], move=[], remove=[], new=[{"after": 0, "session": "s", "text": f"say {n}"} for n in range(450)])
        reported = page.call("past")
        self.assertEqual((reported["count"], len(reported["changes"]), reported["changes"][-1]), (451, 200, "451 new 450 s"))
        part = page.call("past", opening=reported["opening"], upTo=10)
        self.assertEqual(part["changes"], ["1 session s", *(f"{n + 1} new {n} s" for n in range(1, 10))])
        look = page.call("past_sheet", opening=reported["opening"], at=451, about=77, place=0)
        order = page.snapshot()["order"]
        self.assertEqual((look["count"], look["start"]), (450, order.index(77) // 50 * 50))
        self.assertEqual([cell["id"] for cell in look["then"]], order[look["start"] : look["start"] + 50])
        self.assertEqual(page.call("past_sheet", opening=reported["opening"], at=451, about=0, place=10**9)["start"], 400)

    def test_restored_beside_it(self) -> None:
        page = self.begin()
        for number in range(4):
            page.call("eval", id=page.call("new", session="s", text=f"say {number}", after=0)["id"])
            page.until_idle()
        page.call("remove", id=1)
        opening = page.call("past")["opening"]
        before = self.both_files()
        self.assertEqual(page.call("past_restore", opening=opening, at=4, name="then"), {"name": "then"})
        self.assertEqual(page.call("past_restore", opening=opening, at=4, name="then")["says"], "there is a file then already")
        for name in ("", "../x", ".x", "-x", "a/b", "x.alt", "sheet", "x" * 101, "sheet.alt"):
            self.assertEqual(page.call("past_restore", opening=opening, at=4, name=name)["refused"], "NotMade", name)
        self.assertEqual(page.call("past_restore", opening=opening, at=99, name="none")["refused"], "NoPast")
        self.assertEqual(sorted(os.listdir(self.folder)), ["sheet", "sheet.alt", "then", "then.alt"])
        self.assertEqual(self.both_files(), before)
        self.server.stop()
        then = os.path.join(self.folder, "then")
        self.assertEqual(self.by_program("show", then), self.by_program("show", "--at", "4", self.sheet))
        self.assertIn("say 0", self.by_program("show", then))

    def test_what_is_refused(self) -> None:
        page = self.begin()
        page.call("new", session="s", text="say 1", after=0)
        opening = page.call("past")["opening"]
        for call, members, name in (
            ("past_sheet", {"opening": "x", "at": 1, "about": 0, "place": 0}, "Elsewhere"), ("past_sheet", {"opening": opening, "at": 99, "about": 0, "place": 0}, "NoPast"),
            ("past_sheet", {"opening": opening, "at": -1, "about": 0, "place": 0}, "NotUnderstood"), ("past_sheet", {"opening": opening, "at": "1"}, "NotUnderstood"),
            ("past_field", {"opening": opening, "at": 2, "id": 9}, "NoPast"), ("past_field", {"opening": opening, "at": 1, "id": 1}, "NoPast"),
            ("past_output", {"opening": opening, "at": 2, "id": 1, "start": 0}, "NotThere"), ("past", {"upTo": 1, "opening": "x"}, "Elsewhere"),
            ("past_restore", {"opening": opening, "at": 2, "name": 1}, "NotUnderstood"), ("past_restore", {"opening": "x", "at": 2, "name": "y"}, "Elsewhere"),
        ):
            self.assertEqual(page.call(call, **members).get("refused"), name, (call, members))
        self.assertEqual(os.listdir(self.folder).count("y"), 0)
        os.rename(self.sheet + ".alt", self.sheet + ".away")
        self.assertIn("can't be copied", page.call("past")["says"])
        os.rename(self.sheet + ".away", self.sheet + ".alt")

    def test_opened_again(self) -> None:
        """Another program may have written a checkpoint meanwhile, so numbers of before are refused."""
        page = self.begin()
        opening = page.call("past")["opening"]
        pid = self.server.program
        assert pid is not None
        os.kill(pid, 9)
        end = time.monotonic() + 60
        while page.snapshot()["ended"] is None and time.monotonic() < end:
            time.sleep(0.05)
        self.assertEqual(page.call("past")["refused"], "Over")
        page.call("reopen")
        self.assertEqual(page.call("past_sheet", opening=opening, at=1, about=0, place=0)["refused"], "Elsewhere")
        self.assertEqual(page.call("past")["changes"], ["1 session s"])

    def test_the_answer_of_then_is_shown(self) -> None:
        """A text that is taken back has the answer that it had, in grey, and Z takes that back."""
        page = self.begin()
        for text in ("say 1", "say 2"):
            if page.cells():
                page.call("set", id=1, base="say 1", text=text)
            else:
                page.call("new", session="s", text=text, after=0)
            page.call("eval", id=1)
            page.until_idle()
        reported = page.call("past_cell", id=1)
        [(at, what)] = reported["versions"]
        page.call("past_field", opening=reported["opening"], at=at, id=1)
        page.call("step", what="x", new=[], move=[], remove=[], set=[{"id": 1, "base": "say 2", "text": "say 1", "then": {"at": at, "id": 1}}])
        cell = page.cells()[1]
        self.assertEqual((what, cell["input"], cell["state"], cell["isOld"], cell["output"]["text"]), ("answered", "say 1", "empty", True, "1"))
        page.call("undo", isBack=True)
        self.assertEqual(page.cells()[1]["input"], "say 2")


if __name__ == "__main__":
    unittest.main()
