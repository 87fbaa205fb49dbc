"""Kills of the server, the program and the browser at random moments, while a page saves and evaluates: each text that a cell had said is saved
is in the file, or a later one; each answer that was shown is there; and each answer is whole. TMHOST_KILLS says how many (20)."""

import os
import random
import re
import signal
import time
import unittest
from typing import Callable, Dict, Tuple

from harness import AS_SHOWN, HERE, PROGRAM, SPOKEN, Case, Page, needs_chromium, needs_program, opened

ENDING = os.path.join(HERE, "interpreters", "ending")
KILLS = int(os.environ.get("TMHOST_KILLS", "20"))
LINES = 300  # of each answer
MOST_CELLS = 12

# A user in a hurry: each text has a number of its own, so that a later one is known. `touched` has the last one of each cell.
WORK = """
(() => {
  let count = %d;
  window.touched ??= {};
  const step = () => {
    const boxes = [...document.querySelectorAll(".cell")];
    if (boxes.length < %d && Math.random() < .1) return document.querySelector("[data-do=addCell]").click();
    const box = boxes[Math.floor(Math.random() * boxes.length)], text = box?.querySelector("textarea");
    if (!text) return;
    count += 1;
    window.touched[box.id] = count;
    text.value = `long ${count}`;
    text.dispatchEvent(new Event("input", { bubbles: true }));
    if (Math.random() < .7) text.dispatchEvent(new KeyboardEvent("keydown", { key: "Enter", ctrlKey: true, bubbles: true }));
    else text.dispatchEvent(new FocusEvent("focusout", { bubbles: true }));
  };
  clearInterval(window.work);
  window.work = setInterval(step, 25);
})()
"""
SEEN = """
[...document.querySelectorAll(".cell")].map((cell) => {
  const isAnswered = cell.dataset.state === "answered" && !cell.querySelector(".output").classList.contains("old");
  const saved = cell.dataset.text === "saved" ? cell.querySelector("textarea").value : null;
  return [Number(cell.id.slice(5)), saved, isAnswered ? cell.querySelector(".output pre").textContent : null, window.touched?.[cell.id] ?? 0];
})
"""
IS_TROUBLE = "!document.querySelector('#trouble').hidden"
SESSION = "[document.querySelector('#sessions span').textContent, document.querySelectorAll('#sessions button:disabled').length]"
STATE = "document.querySelector('#cell-1').dataset.state"
ANSWERED = r"(?m)> say one\none$"  # of cell 1
SHOWN = re.compile(r"^#(\d+) s\n.*?> (?:long (\d+))?\n(.*?)(?=^#\d+ s\n|\Z)", re.MULTILINE | re.DOTALL)


def number_of(text: str) -> int:
    return int(text[5:]) if text.startswith("long ") else 0


@needs_program
@needs_chromium
class Kills(Case):
    def setUp(self) -> None:
        super().setUp()
        self.server = self.serve()
        page = Page(self.server)
        page.call("session", name="s", words=SPOKEN, tab=False)
        page.call("new", session="s", text="", after=0)
        self.browser = self.browse()
        self.tab = opened(self.browser, self.server)
        self.saved: Dict[int, int] = {}  # of each cell the number of the latest text that it said was saved
        self.answered: Dict[int, Tuple[int, int]] = {}  # of each cell whose answer is shown its number, and what the user did to it last
        self.looks = self.answers = 0

    def look(self) -> None:
        """What the page says now. An answer that it has shown as the file's it shows until the user does something to the cell."""
        for id, text, answer, touched in self.tab.value(SEEN):
            if answer is None and id in self.answered:
                self.assertGreater(touched, self.answered.pop(id)[1], f"cell {id} shows its answer no more")
            if text is None:
                continue
            number = number_of(text)
            self.saved[id] = max(self.saved.get(id, 0), number)
            if answer is not None and number:
                self.assertEqual(answer, whole(number))
                self.answered[id] = (number, touched)
        self.looks += 1

    def kept(self) -> None:
        """Compares with the file."""
        found = {int(id): (int(number or 0), answer) for id, number, answer in SHOWN.findall(self.show())}
        for id, number in self.saved.items():
            self.assertIn(id, found)
            self.assertGreaterEqual(found[id][0], number, f"cell {id} had said that {number} is saved")
        for id, (number, answer) in found.items():
            if not answer.startswith("?"):
                self.assertEqual(answer, whole(number) + "\n", f"the answer of cell {id}")
            else:
                self.assertNotEqual(self.answered.get(id, (None, 0))[0], number, f"cell {id} shows the answer to it")
        self.answers += len(self.answered)
        self.answered.clear()

    def kill_server(self) -> None:
        self.server.kill()
        time.sleep(0.2)
        self.look()
        self.tab.close()
        self.server = self.serve()
        self.tab = opened(self.browser, self.server)

    def kill_program(self) -> None:
        program = self.server.program
        assert program is not None
        os.kill(program, signal.SIGKILL)
        self.tab.until("document.querySelector('#trouble').hidden", False)
        self.tab.until("document.querySelectorAll('.cell[data-state=running], .cell[data-state=queued]').length", 0)
        self.look()
        self.tab.value("document.querySelector('[data-do=reopen]').click()")
        self.tab.until("document.querySelector('#trouble').hidden", True)

    def kill_browser(self) -> None:
        self.tab.value("clearInterval(window.work)")
        self.look()
        self.browser.kill()
        self.browser = self.browse()
        self.tab = opened(self.browser, self.server)

    def test_kills(self) -> None:
        seed = int(os.environ.get("TMHOST_SEED", str(random.randrange(10**6))))
        rng = random.Random(seed)
        kinds = [self.kill_server, self.kill_program, self.kill_browser]
        for round in range(KILLS):
            with self.subTest(round=round, seed=seed):
                self.tab.value(WORK % (10_000 * (round + 1), MOST_CELLS))
                end = time.monotonic() + rng.uniform(0.2, 1.5)
                while time.monotonic() < end:
                    self.look()
                kinds[round % 3]()
                self.tab.value("clearInterval(window.work)")
                self.kept()
            if (round + 1) % 50 == 0:
                print(f" {round + 1}", end="", flush=True)
        self.agree()
        print(f" {KILLS} kills, {self.looks} looks, {len(self.saved)} cells, {self.answers} answers at kills, seed {seed}", end="")
        self.assertGreater(self.answers, 0)

    def agree(self) -> None:
        """At the end the page shows what the file has."""
        end = time.monotonic() + 120
        while (page := self.tab.value(AS_SHOWN)) != (file := self.show()):
            if time.monotonic() > end:
                self.assertEqual(page, file)
            time.sleep(0.2)


@needs_program
@needs_chromium
class InTheMiddle(Case):
    """The program does what it was asked, and is killed before anybody hears of that: no page shows the answer as the file's any more."""

    def setUp(self) -> None:
        super().setUp()
        self.ends = os.path.join(self.folder, "ends")
        os.environ.update(PROGRAM=PROGRAM or "", ENDS=self.ends)
        self.addCleanup(lambda: [os.environ.pop(name) for name in ("PROGRAM", "ENDS")])
        self.server = self.serve(program=ENDING)
        page = Page(self.server)
        page.call("session", name="s", words=SPOKEN, tab=False)
        for after, text in enumerate(("say one", "say two")):
            page.call("new", session="s", text=text, after=after)
        page.call("eval_from", id=None)
        page.until_idle()
        browser = self.browse()
        self.tab, self.other = opened(browser, self.server), opened(browser, self.server, in_window=True)

    def end_in(self, action: Callable[[], object]) -> None:
        with open(self.ends, "w", encoding="utf-8"):
            action()
            for tab in (self.tab, self.other):
                tab.until(IS_TROUBLE)
                tab.until(STATE, "doubtful")
                self.assertIn("in doubt", tab.value("document.querySelector('#cell-1 .answer-state').textContent"))
                self.assertEqual(tab.value("document.querySelector('#cell-2').dataset.state"), "answered")
        os.remove(self.ends)
        self.assertNotRegex(self.show(), ANSWERED)
        self.tab.click("[data-do=reopen]")
        for tab in (self.tab, self.other):
            tab.until(IS_TROUBLE, False)
            tab.until(STATE, "empty")
        self.tab.click("#cell-1 .number")
        self.tab.key("Enter", "Control")
        self.other.until(STATE, "answered")

    def test_evaluations_and_changes(self) -> None:
        self.tab.click("#cell-1 .number")
        self.end_in(lambda: self.tab.key("Enter", "Control"))
        self.end_in(lambda: self.tab.click("[data-do=clear]"))

    def test_what_is_asked_of_an_ended_program(self) -> None:
        """It is refused, and puts nothing in doubt. No session runs then; and without the server none is known to."""
        assert self.server.program is not None
        os.killpg(self.server.program, signal.SIGKILL)
        self.tab.until(IS_TROUBLE)
        self.assertEqual(self.tab.value(SESSION), ["not started", 2])
        self.tab.click("#cell-1 .number")
        self.tab.key("Enter", "Control")
        self.tab.until("document.querySelector('#note').textContent.endsWith('nothing was done')")
        self.assertEqual(self.tab.value(STATE), "answered")
        self.assertRegex(self.show(), ANSWERED)
        self.server.kill()
        self.tab.until(SESSION, ["no connection", 3])


def whole(number: int) -> str:
    return "\n".join([str(number)] * LINES)


if __name__ == "__main__":
    unittest.main()
