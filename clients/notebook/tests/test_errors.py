"""Answers that are errors: how the page marks them, and where "Evaluate all" and "from here" stop."""

import base64
import sys
import unittest
from typing import Any, Dict

from harness import NOTEBOOK, SPOKEN, Case, Page, needs_chromium, needs_program, opened

sys.path[:0] = [NOTEBOOK, f"{NOTEBOOK}/../python"]
from tmhost import Answer, Block  # noqa: E402
from tmhost_notebook import shown  # noqa: E402

ERROR = b"\x02verbatim:before\n\x02output#\x02output#no <b>way</b>\x05\x05\x02prompt#> \x05\x05"
STATES = "Object.fromEntries([...document.querySelectorAll('.cell')].map((cell) => [cell.id.slice(5), cell.dataset.state]))"
NOTE = "document.querySelector('#note').textContent"
BOX = "document.querySelector('#stop-at-errors')"


def raw(data: bytes) -> str:
    return "raw " + base64.b64encode(data).decode()


def channel(name: str, *items: Any) -> Block:
    return Block(name, "channel", items)


def facts(*items: Any) -> Dict[str, Any]:
    return shown.facts_of(Answer("> ", Block("verbatim", "format", items), "so"))


class Parts(unittest.TestCase):
    def test_parts(self) -> None:
        error = channel("output", channel("output", "no", Block("latex", "format", ("$x$",))))
        reported = facts("so\n", error, "and", channel("error", "b"), channel("output", "c"))
        self.assertEqual(reported["parts"], [{"text": "so\n"}, {"error": "no"}, {"tex": "$x$"}, {"text": "and"}, {"error": "b"}, {"text": "c"}])
        self.assertEqual(reported["isError"], True)
        self.assertEqual((facts("so", channel("output", "b"))["isError"], facts("x" * 30_000, error)["isError"]), (False, True))


@needs_program
@needs_chromium
class Errors(Case):
    """Cells 1 to 6 of two sessions, of which the third is an error."""

    def begin(self) -> None:
        self.server = self.serve()
        self.page = Page(self.server)
        for name in ("s", "t"):
            self.page.call("session", name=name, words=SPOKEN, tab=False)
        for number, text in enumerate(["say 1", "say 2", raw(ERROR), "say 4", "sleep 1", "say 6"]):
            self.page.call("new", session="t" if text == "sleep 1" else "s", text=text, after=number)
        self.tab = opened(self.browse(), self.server)
        self.tab.until(f"Object.keys({STATES}).length", 6)

    def answered(self) -> "list[int]":
        """The cells that have an answer when nothing waits any more."""
        self.tab.until(f"Object.values({STATES}).every((one) => one !== 'running' && one !== 'queued')")
        return [id for id, cell in self.page.until_idle().items() if cell["state"] == "answered"]

    def test_a_mark(self) -> None:
        """A word above the answer, beside the colour; the text is the error's, and no markup."""
        self.begin()
        self.tab.click("[data-do=evaluateAll]")
        self.tab.until(f"Object.values({STATES}).filter((one) => one === 'answered').length", 6)
        self.assertEqual(self.answered(), [1, 2, 3, 4, 5, 6])
        self.assertEqual(self.tab.value("[...document.querySelectorAll('.error-mark')].map((one) => [one.closest('.cell').id, one.textContent])"), [["cell-3", "Error"]])
        self.assertEqual(self.tab.value("document.querySelector('#cell-3 pre').textContent"), "before\nno <b>way</b>")
        self.assertEqual(self.tab.value("[...document.querySelectorAll('.error')].map((one) => one.textContent)"), ["no <b>way</b>"])
        self.page.call("set", id=3, text="say fine", base=raw(ERROR))
        self.page.call("eval", id=3)
        self.tab.until("document.querySelector('#cell-3 pre').textContent", "fine")
        self.assertEqual(self.tab.value("document.querySelectorAll('.error-mark, .failed').length"), 0)
        self.assertEqual(self.tab.browser.trouble, [])

    def test_all_stops(self) -> None:
        """Where the box asks for that, what comes after the error isn't asked, and keeps its answers. The box is so after a reload, too."""
        self.begin()
        self.tab.click("#stop-at-errors")
        self.tab.click("[data-do=evaluateAll]")
        self.tab.until(NOTE, "stopped at an error, of cell 3: 2 cells that waited were not asked")
        self.assertEqual(self.answered(), [1, 2, 3, 5])
        self.assertIn("#4 s\n> say 4\n?\n", self.show())
        self.tab.value("window.isOld = true, location.reload()")
        self.tab.until(f"!window.isOld && document.documentElement.dataset.ready && {BOX}.checked")
        self.tab.click("#stop-at-errors")
        self.tab.click("[data-do=evaluateAll]")
        self.tab.until(f"Object.values({STATES}).filter((one) => one === 'answered').length", 6)

    def test_from_here_stops(self) -> None:
        self.begin()
        self.tab.click("#stop-at-errors")
        self.tab.click("#cell-2 .number")
        self.tab.click("[data-do=evaluateFrom]")
        self.tab.until(NOTE, "stopped at an error, of cell 3: 2 cells that waited were not asked")
        self.assertEqual(self.answered(), [2, 3, 5])
        self.tab.click("#cell-4 .number")  # the error is after that
        self.tab.click("[data-do=evaluateFrom]")
        self.tab.until(f"[4, 5, 6].every((id) => {STATES}[id] === 'answered')")

    def test_an_end_stops(self) -> None:
        """So does a cell that gets no answer; one that was asked for by itself goes on."""
        self.begin()
        self.page.call("set", id=3, text="exit", base=raw(ERROR))
        self.page.call("set", id=6, text="sleep 0.5", base="say 6")
        self.page.call("change", id=6, session="t")
        self.page.call("eval_from", id=None, stops=True)
        self.tab.until(f"{STATES}[3]", "lost")
        self.page.until_idle()
        self.assertEqual([id for id, cell in self.page.cells().items() if cell["state"] == "empty"], [4, 7])

    def test_others_go_on(self) -> None:
        """What was asked for by itself doesn't stop at the error of the others."""
        self.begin()
        self.page.call("eval_from", id=5, stops=False)
        self.page.call("set", id=1, text="sleep 1", base="say 1")
        self.page.call("eval", id=1)
        self.page.call("eval_from", id=3, stops=True)
        self.page.call("eval", id=2)
        self.tab.until(f"{STATES}[2]", "answered")
        self.assertEqual(self.page.cells()[4]["state"], "empty")


if __name__ == "__main__":
    unittest.main()
