"""Several cells at once, by keys and the mouse: chosen, cut, copied, pasted, split, merged, duplicated, moved, and all of it taken back."""

import json
import unittest
from typing import Any, List

import chromium
from harness import IN_TEXT, READY, Case, Page, SharedCase, needs_chromium, needs_program

ORDER = "[...document.querySelectorAll('.cell')].map((cell) => Number(cell.id.slice(5)))"
TEXTS = "[...document.querySelectorAll('.cell textarea')].map((text) => text.value)"
CHOSEN = "[...document.querySelectorAll('.cell.chosen textarea')].map((text) => text.value)"
SELECTED = "document.querySelector('.cell.selected textarea').value"
IS_BUSY = "document.querySelector('#cells').getAttribute('aria-busy') === 'true'"
NOTE = "document.querySelector('#note').textContent"
OLD = "[...document.querySelectorAll('.output.old pre')].map((one) => one.textContent)"
TOOK = "[...document.querySelectorAll('.took')].map((one) => one.textContent.replace(/[\\d.]+ s/, 'S'))"
INPUTS = r"(?m)^\S*> (.*)$"


@needs_program
@needs_chromium
class Cells(SharedCase):
    def start(self, *texts: str) -> chromium.Tab:
        """Cells with these texts, which are answered."""
        self.begin()
        for after, text in enumerate(texts or tuple(f"say {letter}" for letter in "abcde")):
            self.page.call("new", session="s", text=text, after=after)
        self.page.call("eval_from", id=None)
        self.page.until_idle()
        return self.open()

    def agree(self, tab: chromium.Tab, *texts: str) -> None:
        """Page and file have cells with these texts."""
        tab.until(f"[{TEXTS}, {IS_BUSY}]", [list(texts), False])
        cells = self.page.snapshot()
        by_id = {cell["id"]: cell["input"] for cell in cells["cells"]}
        self.assertEqual([by_id[id] for id in cells["order"]], list(texts))
        self.assertEqual([cell.partition("\n")[0] for cell in self.show().split("> ")[1:]], [text.partition("\n")[0] for text in texts])

    def choose(self, tab: chromium.Tab, first: int, count: int) -> None:
        tab.click(f"#cell-{first} .number")
        for _ in range(count - 1):
            tab.key("ArrowDown", "Shift")

    def test_choosing(self) -> None:
        """By Shift with arrows and with a click; a click, an arrow and Escape end it."""
        tab = self.start()
        self.choose(tab, 2, 3)
        self.assertEqual(tab.value(CHOSEN), ["say b", "say c", "say d"])
        self.assertEqual(tab.value(NOTE), "3 cells are chosen")
        tab.key("K", "Shift")
        tab.key("K", "Shift")
        tab.key("K", "Shift")
        self.assertEqual(tab.value(CHOSEN), ["say a", "say b"])
        tab.key("Escape")
        self.assertEqual((tab.value(CHOSEN), tab.value(SELECTED)), ([], "say a"))
        self.shift_click(tab, 4)
        self.assertEqual(tab.value(CHOSEN), ["say a", "say b", "say c", "say d"])
        tab.key("ArrowDown")
        self.assertEqual((tab.value(CHOSEN), tab.value(SELECTED)), ([], "say e"))
        tab.key("a", "Control")
        self.assertEqual(len(tab.value(CHOSEN)), 5)
        tab.click("#cell-3 .number")
        self.assertEqual((tab.value(CHOSEN), tab.value(SELECTED)), ([], "say c"))

    def shift_click(self, tab: chromium.Tab, id: int) -> None:
        place = tab.value(f"(({{x, y}}) => [x + 5, y + 5])(document.querySelector('#cell-{id} .number').getBoundingClientRect())")
        for kind in ("mousePressed", "mouseReleased"):
            tab.ask("Input.dispatchMouseEvent", {"x": place[0], "y": place[1], "button": "left", "clickCount": 1, "type": kind, "modifiers": 8})

    def test_cut_and_paste(self) -> None:
        """By X and V; what is pasted shows its earlier answers; each step is taken back and done again, over a reload too."""
        tab = self.start()
        self.choose(tab, 1, 2)
        tab.key("x")
        self.agree(tab, "say c", "say d", "say e")
        self.assertEqual(tab.value(SELECTED), "say c")
        tab.key("End")
        tab.key("v")
        self.agree(tab, "say c", "say d", "say e", "say a", "say b")
        tab.until(OLD, ["a", "b"])
        self.assertEqual(tab.value(CHOSEN), ["say a", "say b"])
        tab.key("Home")
        tab.key("V", "Shift")
        self.agree(tab, "say a", "say b", "say c", "say d", "say e", "say a", "say b")
        tab.key("z")
        self.agree(tab, "say c", "say d", "say e", "say a", "say b")
        self.assertEqual(tab.value(NOTE), "taken back: paste of 2 cells")
        tab.reload()
        tab.until(f"[{READY}, document.querySelectorAll('.cell').length]", ["true", 5])
        tab.key("z", "Control")
        self.agree(tab, "say c", "say d", "say e")
        tab.key("z", "Control")
        self.agree(tab, "say a", "say b", "say c", "say d", "say e")
        tab.until(OLD, ["a", "b"])
        tab.key("z")
        tab.until(NOTE, "there is nothing to take back")
        tab.key("Z", "Control", "Shift")
        self.agree(tab, "say c", "say d", "say e")
        tab.key("Z", "Shift")
        self.agree(tab, "say c", "say d", "say e", "say a", "say b")
        self.assertEqual(self.browser.trouble, [])

    def test_the_clipboard_of_the_system(self) -> None:
        """Control-C and Control-V: to another worksheet, as text into a text, from a text, and from Jupyter's JSON."""
        tab = self.start("say a\nb", "say c")
        self.page.call("new", session=None, text="# Head", after=2)
        other = other_sheet(self)
        tab.until(f"{TEXTS}.length", 3)
        self.choose(tab, 1, 3)
        tab.key("c", "Control")
        there = self.open(other[0])
        there.click("#cell-1 .number")
        there.key("v", "Control")
        there.until(TEXTS, ["say there", "say a\nb", "say c", "# Head"])
        self.assertEqual([cell["session"] for cell in other[1].cells().values()], ["t", "t", "t", "prose"])
        there.click("#cell-1 .number")
        there.key("Enter")
        there.key("v", "Control")
        there.until(f"{TEXTS}[0]", lambda text: "say a\nb\n\nsay c\n\n# Head" in str(text))
        for text, found in (("one\ntwo", ["one\ntwo"]), ('[{"cell_type": "code", "source": ["x\\n", "y"]}, {"cell_type": "markdown", "source": "z"}]', ["x\ny", "z"])):
            there.click("#cell-1 .number")
            there.value(PASTES % json.dumps(text))
            there.until(f"{TEXTS}.slice(1, {1 + len(found)})", found)
        self.assertEqual(self.browser.trouble, [])

    def test_a_text_that_is_chosen_is_copied_as_text(self) -> None:
        tab = self.start()
        tab.click("#cell-2 .number")
        tab.value("getSelection().selectAllChildren(document.querySelector('#cell-3 .output pre'))")
        tab.key("c", "Control")
        tab.key("Enter")
        tab.value("document.activeElement.setSelectionRange(0, 5)")
        tab.key("v", "Control")
        tab.until(f"{TEXTS}[1]", "c")

    def test_split_and_merge(self) -> None:
        """At the cursor, and back; what another page typed meanwhile isn't lost."""
        tab = self.start("set 1\nsay two\nsay three", "say 4")
        tab.click("#cell-1 .number")
        tab.key("Enter")
        tab.value("document.activeElement.setSelectionRange(14, 14)")
        tab.key("_", "Control", "Shift")
        self.agree(tab, "set 1\nsay two", "say three", "say 4")
        self.assertEqual(tab.value(SELECTED), "say three")
        tab.key("M", "Shift")
        self.agree(tab, "set 1\nsay two", "say three\nsay 4")
        tab.key("z")
        self.agree(tab, "set 1\nsay two", "say three", "say 4")
        tab.until(OLD, lambda found: "4" in found)
        tab.key("z")
        self.agree(tab, "set 1\nsay two\nsay three", "say 4")
        tab.key("a", "Control")
        tab.click("[data-do=merge]")
        self.agree(tab, "set 1\nsay two\nsay three\nsay 4")
        first = tab.value(ORDER)[0]
        self.page.call("set", id=first, text="other", base="set 1\nsay two\nsay three\nsay 4")
        tab.until(TEXTS, ["other"])
        tab.key("z")
        tab.until(NOTE, f"cell {first} was changed since, so nothing is done")
        self.agree(tab, "other")

    def test_merges_that_can_not_be(self) -> None:
        """Of several sessions, and of more than a cell can have: nothing is done."""
        tab = self.start("say a", "x" * 4000, "y" * 4000)
        self.page.call("new", session=None, text="# Head", after=1)
        tab.until(f"{TEXTS}.length", 4)
        tab.click("#cell-1 .number")
        tab.key("M", "Shift")
        tab.until(NOTE, "cells of several sessions can't be one")
        tab.click("#cell-2 .number")
        tab.key("M", "Shift")
        tab.until(NOTE, lambda found: str(found).startswith("a cell has at most 4,095 bytes"))
        self.assertEqual(len(self.page.snapshot()["order"]), 4)

    def test_duplicates_moves_and_sessions(self) -> None:
        tab = self.start()
        self.choose(tab, 1, 2)
        tab.key("D", "Shift")
        self.agree(tab, "say a", "say b", "say a", "say b", "say c", "say d", "say e")
        tab.key("ArrowDown", "Alt")
        self.agree(tab, "say a", "say b", "say c", "say a", "say b", "say d", "say e")
        tab.key("ArrowUp", "Alt")
        tab.until(f"{TEXTS}[4]", "say c")
        self.assertEqual(tab.value(CHOSEN), ["say a", "say b"])
        tab.key("m")
        tab.until(f"[document.querySelectorAll('.cell.prose').length, {IS_BUSY}]", [2, False])
        for count in range(4):
            tab.key("z")
            tab.until(IS_BUSY, False)
        self.agree(tab, "say a", "say b", "say c", "say d", "say e")
        for count in (2, 1):
            self.choose(tab, tab.value(ORDER)[2], count)
            tab.twice("d")
            tab.until(f"[{ORDER}.length, {IS_BUSY}]", [3 if count == 2 else 2, False])
        self.agree(tab, "say a", "say b")

    def test_a_cell_that_waits(self) -> None:
        """It is neither cut nor merged."""
        tab = self.start("say a", "sleep 60", "say c")
        self.page.call("eval", id=2)
        self.choose(tab, 1, 3)
        for keys in ("x", "M"):
            tab.key(keys, *(["Shift"] if keys == "M" else []))
            tab.until(NOTE, "cell 2 waits for its answer, so nothing is done")
        self.assertEqual(self.page.snapshot()["order"], [1, 2, 3])

    def test_what_is_stale(self) -> None:
        """Only what is stale or has no answer is evaluated; and what an ended interpreter has forgotten, where it is needed."""
        tab = self.start()
        tab.until(TOOK, [f"answer {count}, S" for count in range(1, 6)])
        self.page.call("set", id=4, text="say new", base="say d")
        tab.until(TOOK, ["answer 1, S", "answer 2, S", "answer 3, S", "", "answer 5, S"])
        tab.click("[data-do=evaluateStale]")
        tab.until(TOOK, ["answer 1, S", "answer 2, S", "answer 3, S", "answer 6, S", "answer 7, S"])
        tab.click("[data-do=evaluateStale]")
        tab.until(NOTE, "nothing is stale")
        self.page.call("stop", session="s")
        self.page.call("set", id=2, text="say other", base="say b")
        tab.click("[data-do=evaluateStale]")
        tab.until(TOOK, [f"answer {count}, S" for count in range(1, 6)])

    def test_choosing_is_evaluating(self) -> None:
        tab = self.start("say a", "get", "get")
        self.page.call("set", id=1, text="set 1", base="say a")
        self.choose(tab, 1, 2)
        tab.key("Enter", "Control")
        tab.until("[...document.querySelectorAll('.output pre')].map((one) => one.textContent)", ["kept", "1", "nothing"])

    def test_a_click_beside_prose(self) -> None:
        """Prose that is left is lower than its text, so what lies below it moves; the button that is pressed is pressed all the same."""
        self.begin()
        self.page.call("new", session=None, text="# A" + "\n" * 20 + "b", after=0)
        tab = self.open()
        tab.until("document.querySelectorAll('.reading.set').length", 1)
        tab.click("#cell-1 .number")
        tab.key("Enter")
        tab.until(IN_TEXT, "cell-1")
        tab.click("footer [data-do=addCell]")
        tab.until(IN_TEXT, "cell-2")
        self.assertEqual(tab.value("[...document.querySelectorAll('.cell')].map((cell) => cell.classList.contains('editing'))"), [False, True])

    def test_keys_in_texts_are_letters(self) -> None:
        tab = self.start("")
        tab.click("#cell-1 .number")
        tab.key("Enter")
        for letter in "xcvzMD":
            tab.key(letter, *(["Shift"] if letter.isupper() else []))
        self.assertEqual((tab.value(TEXTS), tab.value(IN_TEXT)), (["xcvzMD"], "cell-1"))


# Pastes a text as another program has put it on the clipboard.
PASTES = """
(() => {
  const data = new DataTransfer();
  data.setData("text/plain", %s);
  document.activeElement.dispatchEvent(new ClipboardEvent("paste", { clipboardData: data, bubbles: true, cancelable: true }));
})()
"""


def other_sheet(case: Case) -> "List[Any]":
    """A server of another worksheet, whose session has another name, and requests to it."""
    case.sheet += "2"
    server = case.serve()
    page = Page(server)
    page.call("session", name="t", words="cat", tab=False)
    page.call("new", session="t", text="say there", after=0)
    return [server, page]


if __name__ == "__main__":
    unittest.main()
