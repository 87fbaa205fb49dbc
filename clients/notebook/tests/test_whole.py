"""What a user does by one key is in the worksheet whole, or not at all, where the program is killed in the middle: after the last of its lines, in front of
that which ends them, and as soon as it has that, too."""

import os
import sys
import time
import unittest
from typing import Callable, Dict, List

import chromium
from harness import HERE, PROGRAM, SPOKEN, Page, SharedCase, needs_chromium, needs_program, opened

TEXTS = "[...document.querySelectorAll('.cell textarea')].map((text) => text.value)"
IS_BUSY = "document.querySelector('#cells').getAttribute('aria-busy') === 'true'"
BEGIN = ["say a\nsay b", "say c", "say d", "say e"]
PROSE = "prose: "
Act = Callable[[chromium.Tab], None]


def keys(*pressed: str) -> Act:
    """Keys, of which a capital letter goes with Shift; `DOWN` chooses a further cell."""

    def press(tab: chromium.Tab) -> None:
        for key in pressed:
            tab.until(IS_BUSY, False)
            tab.key("ArrowDown" if key == "DOWN" else key, *(["Shift"] if key.isupper() else []))

    return press


def split(tab: chromium.Tab) -> None:
    tab.key("Enter")
    tab.value("document.activeElement.setSelectionRange(6, 6)")
    tab.key("_", "Control", "Shift")


def replace(tab: chromium.Tab) -> None:
    tab.key("f")
    tab.until("document.activeElement.id", "find-text")
    tab.type("say")
    tab.value("(document.querySelector('#find-other').value = 'set', document.querySelector('#find-other').dispatchEvent(new Event('input', { bubbles: true })))")
    tab.click("[data-do=replaceAll]")


# What is pressed at the first cell: what comes before, what is done at a stroke, and what the cells have then.
ACTS: Dict[str, "tuple[Act, Act, List[str]]"] = {
    "cut": (keys("DOWN"), keys("x"), ["say d", "say e"]),
    "removal": (keys("DOWN", "DOWN"), lambda tab: tab.twice("d"), ["say e"]),
    "paste": (keys("DOWN", "c"), keys("v"), ["say a\nsay b", "say c", "say a\nsay b", "say c", "say d", "say e"]),
    "paste of what was cut": (keys("DOWN", "x"), keys("v"), ["say d", "say a\nsay b", "say c", "say e"]),
    "split": (keys(), split, ["say a", "say b", "say c", "say d", "say e"]),
    "merge": (keys("DOWN", "DOWN"), keys("M"), ["say a\nsay b\nsay c\nsay d", "say e"]),
    "move": (keys("DOWN"), lambda tab: tab.key("ArrowDown", "Alt"), ["say d", "say a\nsay b", "say c", "say e"]),
    "prose": (keys("DOWN"), keys("m"), ["prose: say a\nsay b", "prose: say c", "say d", "say e"]),
    "replacement": (keys(), replace, ["set a\nset b", "set c", "set d", "set e"]),
    "a merge taken back": (keys("DOWN", "DOWN", "M"), keys("z"), BEGIN),
    "a cut taken back": (keys("DOWN", "x"), keys("z"), BEGIN),
    "a merge done again": (keys("DOWN", "DOWN", "M", "z"), keys("Z"), ["say a\nsay b\nsay c\nsay d", "say e"]),
}


@needs_program
@needs_chromium
class Acts(SharedCase):
    def begin_page(self) -> chromium.Tab:
        """A page of a program that is killed where the file `mark` is there."""
        self.mark, program = os.path.join(self.folder, "mark"), os.path.join(self.folder, "program")
        with open(program, "w", encoding="utf-8") as file:
            file.write(f'#!/bin/sh\nexec {sys.executable} {os.path.join(HERE, "armed.py")} {self.mark} {PROGRAM} "$@"\n')
        os.chmod(program, 0o755)
        self.server = self.serve(program=program)
        self.page, self.browser = Page(self.server), self.browse()
        self.page.call("session", name="s", words=SPOKEN, tab=False)
        self.page.call("step", what="x", new=[{"after": 0, "session": "s", "text": text} for text in BEGIN], set=[], move=[], remove=[])
        tab = opened(self.browser, self.server)
        tab.until(TEXTS, BEGIN)
        tab.click(".cell .number")
        return tab

    def arm(self, word: str) -> None:
        with open(self.mark + ".new", "w", encoding="utf-8") as file:
            file.write(word)
        os.rename(self.mark + ".new", self.mark)

    def until_killed(self) -> None:
        end = time.monotonic() + 120
        while os.path.exists(self.mark) or self.page.snapshot()["ended"] is None:
            self.assertLess(time.monotonic(), end, "no transaction was ended")
            time.sleep(0.02)

    def opened_again(self, tab: chromium.Tab) -> List[str]:
        """The texts of the cells, which page and server agree about."""
        while self.page.call("reopen").get("refused"):
            time.sleep(0.05)
        cells = self.cells()
        tab.until(TEXTS, [text.rpartition(PROSE)[2] for text in cells])
        return cells

    def cells(self) -> List[str]:
        """The texts of the cells, and which of them are prose."""
        reported = self.page.snapshot()
        by_id = {cell["id"]: PROSE * (cell["session"] != "s") + cell["input"] for cell in reported.get("cells", [])}
        return [by_id[id] for id in reported["order"]]

    def test_kills_in_front_of_the_end(self) -> None:
        """Nothing of it is in the file."""
        for name, (before, act, _) in ACTS.items():
            with self.subTest(act=name):
                tab = self.begin_page()
                before(tab)
                tab.until(IS_BUSY, False)
                shown, cells = self.show(), self.cells()
                self.arm("before")
                act(tab)
                self.until_killed()
                self.assertEqual(self.show(), shown)
                self.assertEqual(self.opened_again(tab), cells)
                self.end_page(tab)

    def test_kills_after_the_end(self) -> None:
        """All of it is in the file, or nothing."""
        done = 0
        for name, (before, act, wanted) in ACTS.items():
            with self.subTest(act=name):
                tab = self.begin_page()
                before(tab)
                tab.until(IS_BUSY, False)
                cells = self.cells()
                self.arm("after")
                act(tab)
                self.until_killed()
                there = self.opened_again(tab)
                self.assertIn(there, (cells, wanted))
                done += there == wanted
                self.end_page(tab)
        print(f" {done} of {len(ACTS)} were done", end="")
        self.assertGreater(done, 0)

    def end_page(self, tab: chromium.Tab) -> None:
        """The next act has a worksheet of its own."""
        tab.close()
        self.server.kill()
        self.sheet += "-"


if __name__ == "__main__":
    unittest.main()
