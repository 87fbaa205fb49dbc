"""A worksheet of 1,000 cells: how long its page takes to open, a key to be seen, and an answer to be seen after the moment at which the program
reported it, so when it was on the disk. What is measured is printed. Where TMHOST_LIMITS=1 says so it is held to the limits, and Jupyter is measured
beside it; else not, since tests run beside other work."""

import math
import os
import time
import unittest
from typing import Dict, List, Optional, Tuple

import chromium
import harness
import jupyter
from harness import HERE, READY, SPOKEN, Case, Page, Server, needs_chromium, needs_program

CELLS = 1_000
OPENS_WITHIN = 2_000.0  # milliseconds
KEY_WITHIN = 50.0
ANSWER_WITHIN = 100.0
TIMES = 20
ARE_HELD = os.environ.get("TMHOST_LIMITS") == "1"
STAMPING = os.path.join(HERE, "interpreters", "stamping")

# From the key's event until the next picture of the page.
KEYS = """
new Promise((done) => {
  const text = document.activeElement, times = [];
  const next = () => {
    if (times.length === 20) return done(times);
    const start = performance.now();
    text.setRangeText("x", text.value.length, text.value.length, "end");
    text.dispatchEvent(new Event("input", { bubbles: true }));
    requestAnimationFrame(() => setTimeout(() => { times.push(performance.now() - start); next(); }));
  };
  next();
})
"""
# Evaluates a cell with a new text, and gives the moment at which a picture of the page has its answer, and how long that is after the key.
ANSWER = """
new Promise((done) => {
  const start = performance.now(), cell = document.querySelector("#cell-%d"), text = cell.querySelector("textarea"), shown = cell.querySelector(".output pre");
  const seen = () => requestAnimationFrame(() => setTimeout(() => done([Date.now(), performance.now() - start])));
  const watch = new MutationObserver(() => {
    if (shown.textContent !== "%s") return;
    watch.disconnect();
    seen();
  });
  watch.observe(cell, { childList: true, characterData: true, subtree: true });
  text.value = "say %s";
  text.dispatchEvent(new Event("input", { bubbles: true }));
  text.dispatchEvent(new KeyboardEvent("keydown", { key: "Enter", ctrlKey: true, bubbles: true }));
})
"""


def reported(name: str, times: List[float], limit: Optional[float]) -> str:
    middle = sorted(times)[len(times) // 2]
    wanted = [] if limit is None else [f"{limit:.0f} wanted"]
    beside = wanted + [f"{max(times):.0f} at most"] * (len(times) > 1)
    return f"{name} {middle:.0f} ms" + (f" ({', '.join(beside)})" if beside else "")


@needs_program
@needs_chromium
class Large(Case):
    def begin(self) -> Server:
        """The server over a program whose answers are stamped."""
        self.stamps = os.path.join(self.folder, "stamps")
        os.environ.update(PROGRAM=harness.PROGRAM or "", STAMPS=self.stamps)
        self.addCleanup(lambda: [os.environ.pop(name) for name in ("PROGRAM", "STAMPS")])
        return self.serve(program=STAMPING)

    def fill(self, page: Page) -> None:
        page.call("session", name="s", words=SPOKEN, tab=False)
        for number in range(CELLS):
            text = "block latex JFxzcXJ0e3h9JA==" if number % 10 == 5 else f"say {number} " + "word " * 20
            page.call("new", session=None if number % 20 == 7 else "s", text=text, after=number)
        self.assertEqual(page.call("eval_from", id=None)["count"], CELLS * 19 // 20)
        page.until_idle()

    def stamp_of(self, id: int) -> float:
        """When the last answer of a cell was reported."""
        with open(self.stamps, encoding="utf-8") as file:
            stamps: Dict[int, float] = {int(line.split()[0]): float(line.split()[1]) for line in file}
        return stamps[id]

    def answers(self, tab: chromium.Tab) -> Tuple[List[float], List[float]]:
        """How long they come after the disk, and after the key."""
        after_disk, after_key = [], []
        for number in range(TIMES):
            id = 101 + 40 * number
            moment, took = tab.value(ANSWER % (id, f"new {number}", f"new {number}"))
            after_disk.append(moment - self.stamp_of(id))
            after_key.append(took)
        return after_disk, after_key

    def move(self, tab: chromium.Tab) -> None:
        tab.until("document.querySelector('#cell-500 .text-state').textContent", "saved")
        tab.key("Escape")
        tab.key("ArrowUp", "Alt")
        tab.until("document.querySelector('#cell-500').nextElementSibling.id", "cell-499")

    def test_a_thousand_cells(self) -> None:
        server = self.begin()
        self.fill(Page(server))
        browser = self.browse()
        browser.open("about:blank")
        start = time.monotonic()
        tab = browser.open(server.address)
        tab.until(READY, "true")
        opens = (time.monotonic() - start) * 1000
        self.assertEqual(tab.value("document.querySelectorAll('.cell').length"), CELLS)
        tab.click("#cell-500 .number")
        tab.key("Enter")
        tab.until("document.activeElement.closest('.cell')?.id", "cell-500")
        keys = tab.value(KEYS)
        self.move(tab)
        after_disk, after_key = self.answers(tab)
        self.assertEqual(self.show().count("\n#"), CELLS - 1)
        self.assertEqual(browser.trouble, [])
        server.stop()
        self.tell([("it opens in", [opens], OPENS_WITHIN), ("a key is seen in", keys, KEY_WITHIN),
                   ("an answer is seen, after being on the disk, in", after_disk, ANSWER_WITHIN),
                   ("an answer is seen, after its key, in", after_key, None)])
        self.tell_beside(browser)

    def tell(self, measured: List[Tuple[str, List[float], Optional[float]]]) -> None:
        print(f" {CELLS} cells: {'; '.join(reported(*one) for one in measured)}.", end=" ")
        for name, times, limit in measured if ARE_HELD else []:
            self.assertLess(sorted(times)[len(times) // 2], limit or math.inf, name)

    def tell_beside(self, browser: chromium.Browser) -> None:
        """The same of Jupyter Notebook, which Debian has; it has no JupyterLab."""
        beside = jupyter.measured(browser, self.folder, CELLS, TIMES) if ARE_HELD else []
        if beside is None:
            print("Jupyter isn't installed (Debian's package jupyter-notebook), so it wasn't measured", end=" ")
        elif beside:
            print(f"Jupyter Notebook: {'; '.join(reported(*one, None) for one in beside)}", end=" ")


if __name__ == "__main__":
    unittest.main()
