"""Keys in and beside a text: a text is saved while it is typed, undo stays in its text, and Tab indents. Kills while somebody types: what was
shown as kept is on the disk, and so is each key three seconds later. TMHOST_KILLS says how many (20)."""

import json
import os
import random
import re
import signal
import time
import unittest
from typing import Dict

import chromium
from harness import IN_TEXT, SPOKEN, Case, Page, PageCase, needs_chromium, needs_program, opened

KILLS = int(os.environ.get("TMHOST_KILLS", "20"))
AT_THE_LATEST = 3.0  # seconds of the first key that isn't saved
SLACK = 2.0  # seconds that a busy machine may take more at a kill

SAYS = "document.querySelector('#cell-%d .text-state').textContent"
TEXT = "document.querySelector('#cell-%d textarea').value"
TEXTS = "[...document.querySelectorAll('textarea')].map((text) => text.value)"
ORDER = "[...document.querySelectorAll('.cell')].map((cell) => Number(cell.id.slice(5)))"
CHOSEN = "((text) => text.value.slice(text.selectionStart, text.selectionEnd))(document.activeElement)"
CURSOR = "[document.activeElement.selectionStart, document.activeElement.selectionEnd]"
# Of each time that something typed wasn't on the disk how long that was, in milliseconds.
WATCH = """
(() => {
  window.unsaved = [];
  let since = null;
  const box = document.querySelector("#cell-%d");
  box.addEventListener("input", () => { since ??= performance.now(); }, true);
  new MutationObserver(() => {
    if (since === null || !["saved", "kept"].includes(box.dataset.text)) return;
    window.unsaved.push(Math.round(performance.now() - since));
    since = null;
  }).observe(box, { attributeFilter: ["data-text"] });
})()
"""
# Somebody who types into all cells, and mostly without a rest. Each text has a number of its own, larger than those before.
TYPES = """
(() => {
  let count = %d;
  window.typed = {};
  const step = () => {
    const boxes = [...document.querySelectorAll(".cell")];
    const box = boxes[Math.floor(Math.random() * boxes.length)], text = box.querySelector("textarea");
    count += 1;
    text.value = `sleep 20.${String(count).padStart(7, "0")}`;
    text.dispatchEvent(new Event("input", { bubbles: true }));
    (window.typed[box.id] ??= []).push([Date.now(), count]);
    if (Math.random() < .02) text.dispatchEvent(new KeyboardEvent("keydown", { key: "s", ctrlKey: true, bubbles: true }));
  };
  window.typing = setInterval(step, 70);
})()
"""
SEEN = """
[Date.now(), [...document.querySelectorAll(".cell")].map((cell) => [
  Number(cell.id.slice(5)), cell.dataset.text, cell.querySelector("textarea").value, window.typed?.[cell.id] ?? [],
])]
"""
NUMBER = re.compile(r"sleep 20\.(\d{7})$")
SHOWN = re.compile(r"^#(\d+) [\w-]+\n.*?> (.*)$", re.MULTILINE)


@needs_program
@needs_chromium
class Typing(PageCase):
    def test_saved_while_it_is_typed(self) -> None:
        """Who never rests for a second has each key on the disk three seconds later, in a cell that is evaluated too."""
        self.begin()
        self.page.call("new", session="s", text="", after=0)
        for text, state in (("", "saved"), ("sleep 60", "draft: kept, not yet the cell's text")):
            self.page.call("set", id=1, text=text, base="", draft=None)
            if text:
                self.page.call("eval", id=1)
            tab = opened(self.browser, self.server)
            tab.click("#cell-1 .number")
            tab.key("Enter")
            tab.value(WATCH % 1)
            for letter in "abcdefghijklmnopqrstuvwxy":
                tab.type(letter)
                time.sleep(0.3)
            tab.until(SAYS % 1, state)
            waited = tab.value("window.unsaved")
            self.assertGreaterEqual(len(waited), 2, waited)
            self.assertLessEqual(max(waited), AT_THE_LATEST * 1000, waited)
            self.page.call("set", id=1, text="", base=self.page.cells()[1]["input"], draft=None)
            tab.close()

    def test_a_rest_saves_at_once(self) -> None:
        """A second after the last key, as ever."""
        self.begin()
        self.page.call("new", session="s", text="", after=0)
        tab = opened(self.browser, self.server)
        tab.click("#cell-1 .number")
        tab.key("Enter")
        tab.value(WATCH % 1)
        tab.type("a")
        tab.until(SAYS % 1, "saved")
        self.assertLess(tab.value("window.unsaved")[0], 2_000)


@needs_program
@needs_chromium
class Undo(PageCase):
    def start(self) -> chromium.Tab:
        """Twelve cells, of which the second was edited and left, and the one before the last removed by its keys."""
        self.begin()
        for after in range(12):
            self.page.call("new", session="s", text=f"say {after + 1}", after=after)
        tab = opened(self.browser, self.server)
        self.edit(tab, 2, "edited ")
        tab.key("Enter", "Control")
        tab.until(SAYS % 2, "saved")
        tab.click("#cell-11 .number")
        tab.twice("d")
        tab.until(f"{ORDER}.length", 11)
        self.texts = [f"say {number}" for number in range(1, 13) if number != 11]
        self.texts[1] = "edited say 2"
        return tab

    def edit(self, tab: chromium.Tab, id: int, text: str) -> None:
        tab.click(f"#cell-{id} .number")
        tab.key("Enter")
        tab.value("document.activeElement.setSelectionRange(0, 0)")
        tab.type(text)

    def test_in_command_mode(self) -> None:
        """It brings the removed cell back, changes no other one, and the keys after it are typed into no text."""
        tab = self.start()
        tab.key("z", "Control")
        tab.until(ORDER, [*range(1, 11), 13, 12])
        self.assertEqual(tab.value(TEXTS), [*self.texts[:10], "say 11", "say 12"])
        self.assertEqual(tab.value("document.querySelector('.cell.selected').id"), "cell-13")
        tab.key("z", "Control")
        tab.until("document.querySelector('#note').textContent", "there is nothing to take back")
        self.assertEqual(tab.value("document.activeElement.localName"), "section")
        tab.key("m")
        tab.until("document.querySelectorAll('.cell.prose').length", 1)
        for key in "jkd":
            tab.key(key)
        self.assertEqual(tab.value(TEXTS), [*self.texts[:10], "say 11", "say 12"])
        self.assertEqual(re.findall(r"(?m)^\S*> (.*)$", self.show()), [*self.texts[:10], "say 11", "say 12"])

    def test_nothing_else_is_undone_outside_of_a_text(self) -> None:
        """Redo, buttons, the page itself, and the browser's own menu."""
        tab = self.start()
        for place in ("document.querySelector('#cell-12')", "document.querySelector('[data-do=evaluateAll]')",
                "document.querySelector('#which')", "document.querySelector('.toolbar button')"):
            for keys in (("Z", "Control", "Shift"), ("y", "Control")):
                tab.value(f"{place}.focus()")
                tab.key(*keys)
                self.assertEqual((tab.value(TEXTS), tab.value(f"{place} === document.activeElement")), (self.texts, True), (place, keys))
            for command in ("undo", "redo"):
                tab.ask("Input.dispatchKeyEvent", {"type": "keyDown", "key": "F9", "commands": [command]})
                self.assertEqual((tab.value(TEXTS), tab.value(f"{place} === document.activeElement")), (self.texts, True), (place, command))
        tab.value("document.querySelector('[data-do=showKeys]').click()")
        tab.key("z", "Control")
        tab.key("Escape")
        self.assertEqual((tab.value(TEXTS), self.page.snapshot()["order"]), (self.texts, [*range(1, 11), 12]))
        tab.value("document.activeElement.blur()")
        tab.key("z", "Control")
        tab.until(f"{ORDER}.length", 12)
        self.assertEqual(tab.value(f"{TEXT % 2}"), "edited say 2")

    def test_in_a_text(self) -> None:
        """What was typed in it is taken back and brought again; never what was typed in another one."""
        tab = self.start()
        self.edit(tab, 3, "")
        for command in ("z", "y"):
            tab.key(command, "Control")
            self.assertEqual((tab.value(TEXTS), tab.value(IN_TEXT)), (self.texts, "cell-3"))
        tab.type("new ")
        self.assertEqual(tab.value(TEXT % 3), "new say 3")
        tab.key("z", "Control")
        self.assertEqual(tab.value(TEXTS), self.texts)
        tab.key("Z", "Control", "Shift")
        self.assertEqual((tab.value(TEXT % 3), tab.value(IN_TEXT)), ("new say 3", "cell-3"))
        tab.key("z", "Control")
        tab.key("z", "Control")
        self.assertEqual((tab.value(TEXTS), tab.value(IN_TEXT)), (self.texts, "cell-3"))

    def test_in_a_dialog(self) -> None:
        """The text of a dialog is no cell's."""
        tab = self.start()
        tab.click("[data-do=askSession]")
        tab.until("document.activeElement.id", "session-name")
        tab.key("z", "Control")
        self.assertEqual((tab.value(TEXTS), tab.value("document.activeElement.id")), (self.texts, "session-name"))
        tab.type("ab")
        tab.key("z", "Control")
        self.assertEqual((tab.value(TEXTS), tab.value("document.activeElement.value")), (self.texts, ""))


@needs_program
@needs_chromium
class Indents(PageCase):
    def start(self, text: str) -> chromium.Tab:
        self.begin()
        self.page.call("new", session="s", text=text, after=0)
        tab = opened(self.browser, self.server)
        tab.click("#cell-1 .number")
        tab.key("Enter")
        return tab

    def choose(self, tab: chromium.Tab, start: int, end: int, direction: str = "forward") -> None:
        tab.value(f"document.activeElement.setSelectionRange({start}, {end}, '{direction}')")

    def test_lines_that_are_chosen(self) -> None:
        """Tab indents them, Shift-Tab takes it back, and each is one step of undo."""
        text = "a\nbc\n\nde\nf"
        tab = self.start(text)
        self.choose(tab, 3, 7)
        tab.key("Tab")
        self.assertEqual((tab.value(TEXT % 1), tab.value(CHOSEN)), ("a\n    bc\n    \n    de\nf", "c\n    \n    d"))
        tab.key("Tab")
        self.assertEqual(tab.value(TEXT % 1), "a\n        bc\n        \n        de\nf")
        tab.key("z", "Control")
        self.assertEqual(tab.value(TEXT % 1), "a\n    bc\n    \n    de\nf")
        tab.key("z", "Control")
        self.assertEqual(tab.value(TEXT % 1), text)
        self.choose(tab, 3, 7)
        tab.key("Tab")
        tab.key("Tab", "Shift")
        self.assertEqual((tab.value(TEXT % 1), tab.value(CHOSEN), tab.value(IN_TEXT)), (text, "c\n\nd", "cell-1"))
        tab.key("z", "Control")
        self.assertEqual(tab.value(TEXT % 1), "a\n    bc\n    \n    de\nf")
        tab.until(SAYS % 1, "saved")
        self.assertIn(r"> a" + "\n.     bc\n.     \n.     de\n. f\n", self.show())

    def test_whole_lines_and_parts(self) -> None:
        tab = self.start("one\ntwo\nthree")
        for start, end, found, chosen in (
            (0, 8, "    one\n    two\nthree", "    one\n    two\n"), (4, 8, "one\n    two\nthree", "    two\n"), (5, 6, "one\n    two\nthree", "w"),
            (0, 13, "    one\n    two\n    three", "    one\n    two\n    three"), (8, 9, "one\ntwo\n    three", "    t"),
        ):
            for direction in ("forward", "backward"):
                with self.subTest(start=start, end=end, direction=direction):
                    self.choose(tab, start, end, direction)
                    tab.key("Tab")
                    self.assertEqual((tab.value(TEXT % 1), tab.value(CHOSEN)), (found, chosen))
                    self.assertEqual(tab.value("document.activeElement.selectionDirection"), direction)
                    tab.key("Tab", "Shift")
                    self.assertEqual(tab.value(TEXT % 1), "one\ntwo\nthree")

    def test_what_there_is_is_taken(self) -> None:
        """Up to four blanks or a tab, of the line with the cursor or of those that are chosen; nothing else."""
        text = "  a\n\tb\n     c\nd\n    "
        tab = self.start(text)
        self.choose(tab, 2, len(text))
        tab.key("Tab", "Shift")
        self.assertEqual(tab.value(TEXT % 1), "a\nb\n c\nd\n")
        for place, found, cursor in ((1, "a\nb\n c\nd\n", 1), (5, "a\nb\nc\nd\n", 4)):
            self.choose(tab, place, place)
            tab.key("Tab", "Shift")
            self.assertEqual((tab.value(TEXT % 1), tab.value(CURSOR), tab.value(IN_TEXT)), (found, [cursor, cursor], "cell-1"))
        tab.key("Tab")
        self.assertEqual((tab.value(TEXT % 1), tab.value(CURSOR)), ("a\nb\n    c\nd\n", [8, 8]))
        self.choose(tab, 6, 6)
        tab.key("Tab", "Shift")
        self.assertEqual((tab.value(TEXT % 1), tab.value(CURSOR)), ("a\nb\nc\nd\n", [4, 4]))

    def test_a_text_of_blanks(self) -> None:
        tab = self.start("\n    ")
        self.choose(tab, 0, 0)
        tab.key("Tab", "Shift")
        self.assertEqual(tab.value(TEXT % 1), "\n    ")
        self.choose(tab, 1, 5)
        tab.key("Tab", "Shift")
        self.assertEqual(tab.value(TEXT % 1), "\n")
        tab.key("z", "Control")
        self.assertEqual(tab.value(TEXT % 1), "\n    ")


@needs_program
@needs_chromium
class Kills(Case):
    """Somebody types into cells that run, that wait, and that do neither; and the server, the program, the browser, or all are killed."""

    CELLS = 4  # the first of which runs, the second waits, and the last is prose

    def setUp(self) -> None:
        super().setUp()
        self.server = self.serve()
        self.page = Page(self.server)
        self.page.call("session", name="s", words=SPOKEN, tab=False)
        for after in range(self.CELLS - 1):
            self.page.call("new", session="s", text="sleep 20.0000000", after=after)
        self.page.call("new", session=None, text="", after=self.CELLS - 1)
        self.browser = self.browse()
        self.tab = opened(self.browser, self.server)
        self.claims: Dict[int, int] = {}  # of each cell the latest number that it said was kept
        self.due: Dict[int, int] = {}  # .. and that was typed long enough ago
        self.looks = self.drafts = 0

    def look(self) -> None:
        now, cells = self.tab.value(SEEN)
        for id, state, text, typed in cells:
            if state in ("saved", "kept"):
                self.claims[id] = max(self.claims.get(id, 0), number_of(text))
            self.due[id] = max([self.due.get(id, 0), *(count for at, count in typed if at < now - (AT_THE_LATEST + SLACK) * 1000)])
        self.looks += 1

    def on_disk(self) -> Dict[int, int]:
        """Of each cell the number of its text, or of the draft that is to become it."""
        found = {int(id): number_of(text) for id, text in SHOWN.findall(self.show())}
        if os.path.exists(self.sheet + ".drafts.json"):
            with open(self.sheet + ".drafts.json", encoding="utf-8") as file:
                for id, draft in json.load(file)["drafts"].items():
                    self.drafts += 1
                    found[int(id)] = number_of(draft["text"])
        return found

    def kept(self, found: Dict[int, int]) -> None:
        for id in range(1, self.CELLS + 1):
            self.assertGreaterEqual(found[id], self.claims.get(id, 0), f"cell {id} had said that it is kept")
            self.assertGreaterEqual(found[id], self.due.get(id, 0), f"cell {id} had it for {AT_THE_LATEST + SLACK} s")

    def evaluate(self) -> None:
        """Has the first cell run, and the second one wait, which they do longer than a round lasts."""
        for id in (1, 2):
            if self.page.cells()[id]["state"] not in ("running", "queued"):
                self.page.call("eval", id=id)

    def kill(self, kind: str) -> None:
        program = self.server.program
        assert program is not None
        if kind in ("browser", "all"):
            self.browser.kill()
        if kind in ("program", "all"):
            os.kill(program, signal.SIGKILL)
        if kind in ("server", "all"):
            self.server.kill()

    def begin_again(self, kind: str) -> None:
        if kind in ("server", "all"):
            self.server = self.serve()
            self.page = Page(self.server)
        if kind in ("browser", "all"):
            self.browser = self.browse()
        elif kind == "server":
            self.tab.close()
        if kind == "program":
            self.tab.until("document.querySelector('#trouble').hidden", False)
            self.tab.value("document.querySelector('[data-do=reopen]').click()")
            self.tab.until("document.querySelector('#trouble').hidden", True)
        else:
            self.tab = opened(self.browser, self.server)

    def test_kills(self) -> None:
        seed = int(os.environ.get("TMHOST_SEED", str(random.randrange(10**6))))
        rng = random.Random(seed)
        for round in range(KILLS):
            kind = ("server", "program", "browser", "all")[round % 4]
            with self.subTest(round=round, seed=seed, kind=kind):
                self.evaluate()
                self.tab.value(TYPES % (1_000 * (round + 1)))
                end = time.monotonic() + rng.choice((rng.uniform(0.2, 2), rng.uniform(4, 8)))
                while time.monotonic() < end:
                    self.look()
                    time.sleep(0.02)
                self.kill(kind)
                found = self.on_disk()
                self.kept(found)
                if kind in ("server", "program"):
                    self.tab.value("clearInterval(window.typing)")
                self.begin_again(kind)
                if kind != "program":  # there the page has what was typed after the kill
                    self.kept({id: number_of(text) for id, _, text, _ in self.tab.value(SEEN)[1]})
            if (round + 1) % 50 == 0:
                print(f" {round + 1}", end="", flush=True)
        self.settle()
        print(f" {KILLS} kills, {self.looks} looks, {self.drafts} drafts at kills, seed {seed}", end="")
        self.assertGreater(self.drafts, 0)

    def settle(self) -> None:
        """At the end each draft becomes its cell's text."""
        self.page.call("stop", session="s")
        for id in range(1, self.CELLS + 1):
            self.tab.until(SAYS % id, "saved")
        self.kept({int(id): number_of(text) for id, text in SHOWN.findall(self.show())})
        self.assertFalse(os.path.exists(self.sheet + ".drafts.json"))


def number_of(text: str) -> int:
    found = NUMBER.match(text)
    return int(found[1]) if found else 0


if __name__ == "__main__":
    unittest.main()
