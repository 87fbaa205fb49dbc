"""What was cut or removed isn't gone: keys that come before the page shows what the one before did, a cut that is refused, cuts one after the other, and
kills of the server, the program and the browser after each of them, find its text in the worksheet, in the clipboard, or in the list "Removed"."""

import os
import signal
import subprocess
import sys
import unittest
from typing import Any, Dict, List

from harness import NOTEBOOK, PROGRAM, SPOKEN, Case, Page, SharedCase, needs_chromium, needs_program

sys.path[:0] = [NOTEBOOK, f"{NOTEBOOK}/../python"]
from tmhost_notebook import past  # noqa: E402

# What the server tells comes late, and the reply to a call at once.
LATE = """
(() => {
  const { addEventListener } = EventSource.prototype;
  EventSource.prototype.addEventListener = function (name, does) {
    addEventListener.call(this, name, name === "message" ? (event) => setTimeout(() => does(event), window.late ?? 0) : does);
  };
})()
"""
IS_IDLE = "document.querySelector('#cells').getAttribute('aria-busy')"
TEXTS = "[...document.querySelectorAll('#cells textarea')].map((node) => node.value)"
NOTE = "document.querySelector('#note').textContent"
CUT = "(JSON.parse(localStorage.getItem('tmhost-cells')) ?? []).map(({ text }) => text)"
REMOVED = "[...document.querySelectorAll('#removed-list code')].map((node) => node.textContent)"


class Removals(unittest.TestCase):
    def test_moments(self) -> None:
        """Each cell is seen after a change after which it is as it was last, and no look more than needed is made."""
        lines = ["1 session 7", "2 new 1 7", "3 new 2 7", "4 set 1", "5 remove 1", "6 new 3 7", "7 remove 3", "8 move 2 0", "9 remove 2", "10 ids 7"]
        found = past.removals_in(lines)
        self.assertEqual(found, [past.Removal(1, 4, 5), past.Removal(3, 6, 7), past.Removal(2, 8, 9)])
        self.assertEqual(past.moments(found), [8, 6, 4])
        self.assertEqual(past.moments([past.Removal(1, 2, 9), past.Removal(2, 4, 8), past.Removal(3, 6, 7), past.Removal(4, 1, 2)]), [6, 1])


@needs_program
class Server(Case):
    def begin(self, *texts: str) -> Page:
        self.server = self.serve()
        page = Page(self.server)
        page.call("session", name="s", words=SPOKEN, tab=False)
        self.step(page, new=[{"after": 0, "session": "s", "text": text} for text in texts])
        return page

    def step(self, page: Page, **members: Any) -> Dict[str, Any]:
        return page.call("step", **{"what": "step", "new": [], "set": [], "move": [], "remove": [], **members})

    def again(self) -> Page:
        self.server.kill()
        self.server = self.serve()
        return Page(self.server)

    def removed(self, page: Page) -> List[str]:
        self.assertNotIn("refused", page.call("past_removed"))
        return [one["input"] for one in page.snapshot()["removed"]]

    def test_a_cut_is_done_again_and_its_paste_is_not(self) -> None:
        """Cut, pasted, both taken back, the cut done again; the server is killed in front of the paste. The text is in the list, and comes back."""
        page = self.begin("a", "b")
        one, other = page.snapshot()["order"]
        self.assertEqual(self.step(page, remove=[{"id": one}])["gone"], [one])
        pasted = self.step(page, new=[{"after": other, "session": "s", "text": "a"}])["ids"]
        self.assertEqual(page.call("undo", isBack=True)["gone"], pasted)
        back = page.call("undo", isBack=True)["ids"]
        self.assertEqual(page.call("undo", isBack=False)["gone"], back)
        page = self.again()
        self.assertEqual((page.call("undo", isBack=False)["refused"], page.snapshot()["removed"]), ("NotThere", []))
        self.assertEqual(self.removed(page), ["a"])
        page.call("restore", number=None)
        self.assertEqual(self.inputs(page), ["a", "b"])
        self.assertEqual(self.removed(page), [])

    def inputs(self, page: Page) -> List[str]:
        cells = page.cells()
        return [cells[id]["input"] for id in page.snapshot()["order"]]

    def test_cuts_one_after_the_other(self) -> None:
        """All of them are there after a kill, the last one at the end, with their answers; what was pasted, and what is blank, isn't."""
        page = self.begin("say 1", "say 2", "", "say 3", "say 4")
        page.call("eval_from", id=None)
        page.until_idle()
        order = page.snapshot()["order"]
        for id in (order[3], order[0], order[2], order[1]):
            self.step(page, remove=[{"id": id}])
        self.step(page, new=[{"after": 0, "session": "s", "text": "say 1"}])
        page = self.again()
        self.assertEqual(self.removed(page), ["say 3", "say 2"])
        self.assertEqual(self.removed(page), ["say 3", "say 2"])
        id = page.call("restore", number=None)["id"]
        cell = page.cells()[id]
        self.assertEqual((cell["input"], cell["output"]["text"], cell["isOld"]), ("say 2", "2", True))
        self.step(page, remove=[{"id": id}])
        self.assertEqual(self.removed(page), ["say 3", "say 2"])
        self.assertEqual(self.removed(self.again()), ["say 3", "say 2"])

    def test_a_program_that_ends(self) -> None:
        """What was removed when the program was killed is in the list after the reopening, once, and so is what was removed by the server before."""
        page = self.begin("a", "b", "c")
        self.step(page, remove=[{"id": page.snapshot()["order"][0]}])
        program = self.server.program
        assert program is not None
        os.kill(program, signal.SIGKILL)
        while not page.snapshot()["ended"]:
            pass
        subprocess.run([PROGRAM or "", "run", self.sheet], input=b"remove 2\n", stdout=subprocess.DEVNULL, check=True)
        while page.call("reopen").get("refused"):
            pass
        self.assertEqual(self.removed(page), ["b", "a"] if page.snapshot()["removed"][0]["input"] == "b" else ["a", "b"])

    def test_what_takes_too_long(self) -> None:
        """What isn't found in time is missing, and nothing is wrong."""
        page = self.begin("a", "b")
        for id in page.snapshot()["order"]:
            self.step(page, remove=[{"id": id}])
        self.server.kill()
        worksheet, within = past.Past(self.sheet, PROGRAM), past.LOOKED_WITHIN
        wanted = past.removals_in(worksheet.changes(is_new=True))
        self.assertEqual([(field.input, place) for _, field, place in worksheet.removed(wanted)], [("a", 0), ("b", 1)])
        self.addCleanup(setattr, past, "LOOKED_WITHIN", within)
        past.LOOKED_WITHIN = -1.0
        self.assertEqual(worksheet.removed(wanted), [])

    def test_many(self) -> None:
        """300 cells: the last 200 are there."""
        page = self.begin(*(f"say {number}" for number in range(300)), "say last")
        order = page.snapshot()["order"]
        for start in range(0, 300, 50):
            self.step(page, remove=[{"id": id} for id in order[start : start + 50]])
        self.assertEqual(self.removed(self.again()), [f"say {number}" for number in range(100, 300)])


@needs_program
@needs_chromium
class Keys(SharedCase):
    def begin_page(self, *texts: str) -> None:
        self.begin()
        for after, text in enumerate(texts):
            self.page.call("new", session="s", text=text, after=after)
        self.tab = self.open()
        self.tab.ask("Page.addScriptToEvaluateOnNewDocument", {"source": LATE})
        self.tab.reload()
        self.tab.until("document.documentElement.dataset.ready", "true")
        self.tab.value("document.querySelector('#cell-1').focus()")
        self.tab.value("window.late = 700")

    def press(self, *keys: str) -> None:
        for key in keys:
            self.tab.key(key, *(["Shift"] if key.isupper() else []))
            self.tab.until(IS_IDLE, "false")

    def test_a_paste_after_a_cut(self) -> None:
        """The page doesn't know yet that the cell is gone: the paste is for the cell that is selected then, and both are done again."""
        self.begin_page("a", "b", "c")
        self.press("x", "v")
        self.tab.until(TEXTS, ["b", "a", "c"])
        self.assertEqual(self.tab.value(NOTE), "")
        self.press("z", "z")
        self.tab.until(TEXTS, ["a", "b", "c"])
        self.press("Z", "Z")
        self.tab.until(TEXTS, ["b", "a", "c"])

    def test_keys_that_come_at_once(self) -> None:
        self.begin_page("a", "b", "c")
        for key in "xv":
            self.tab.key(key)
        self.tab.until(TEXTS, ["b", "a", "c"])

    def test_a_cut_that_is_refused(self) -> None:
        """A cell that waits for its answer isn't cut, and what was cut before is to be pasted yet."""
        self.begin_page("a", "sleep 60", "c")
        self.tab.value("window.late = 0")
        self.press("x")
        self.page.call("eval", id=2)
        self.tab.until("document.querySelector('#cell-2').dataset.state", "running")
        self.press("x")
        self.assertEqual(self.tab.value(NOTE), "cell 2 waits for its answer, so nothing is done")
        self.assertEqual(self.tab.value(CUT), ["a"])
        self.tab.key("x", "Control")
        self.assertEqual(self.tab.value(CUT), ["a"])
        self.press("v")
        self.tab.until(TEXTS, ["sleep 60", "a", "c"])

    def test_the_list_after_a_restart(self) -> None:
        """It is looked for when the list is opened."""
        self.begin_page("a", "b", "c")
        self.press("x", "x")
        self.tab.until(TEXTS, ["c"])
        self.server.kill()
        self.server = self.serve()
        tab = self.open(self.server)
        self.assertEqual(tab.value("document.querySelector('#removed').textContent"), "Removed")
        tab.click("#removed")
        tab.until(REMOVED, ["b", "a"])
        tab.until("document.querySelector('#removed-says').textContent", "")
        self.assertEqual(tab.value("document.querySelector('#removed').textContent"), "Removed (2)")
        tab.click("#removed-list li:last-child button")
        tab.until(TEXTS, ["a", "c"])


if __name__ == "__main__":
    unittest.main()
