"""What a worksheet of 10,000 cells costs: processor time of the server for a change, which cells that it doesn't touch add nothing to, and of page and
server until the page is open. What is measured is printed."""

import http.client
import os
import subprocess
import tempfile
import threading
import time
import unittest
from typing import Callable, Dict, List

import chromium
import harness
from harness import PROGRAM, READY, SPOKEN, Case, Page, Server, needs_chromium, needs_program

FEW, MANY = 1_000, 10_000
CHANGES = 60
AT_MOST = 2.0  # times what a change costs with few cells; the tests run beside other work
OPENS_WITHIN = 4.0  # seconds of processor time
TICKS = os.sysconf("SC_CLK_TCK")


def time_of(pid: int) -> float:
    """The processor time of a process, without its children."""
    try:
        with open(f"/proc/{pid}/stat", encoding="utf-8", errors="replace") as file:
            words = file.read().rpartition(")")[2].split()
    except OSError:
        return 0.0
    return (int(words[11]) + int(words[12])) / TICKS


def times_of(pid: int) -> Dict[int, float]:
    """The same of a process and all that come from it."""
    return {pid: time_of(pid), **{one: spent for child in harness.children_of(pid) for one, spent in times_of(child).items()}}


# When the page's first picture with cells was made, in milliseconds since it was asked for.
SEEN = """
new MutationObserver((_, watch) => {
  if (document.documentElement?.dataset.ready !== "true") return;
  watch.disconnect();
  requestAnimationFrame(() => setTimeout(() => (window.seen = performance.now())));
}).observe(document, { subtree: true, attributes: true, attributeFilter: ["data-ready"] });
"""


class Costs(Case):
    def setUp(self) -> None:
        """In memory, where that can be: a disk takes long to sync 10,000 answers, and no processor time is measured by that."""
        if os.access("/dev/shm", os.W_OK):
            kept, tempfile.tempdir = tempfile.tempdir, "/dev/shm"
            self.addCleanup(setattr, tempfile, "tempdir", kept)
        super().setUp()

    def write(self, count: int) -> None:
        """A worksheet of answered cells of two sessions, every tenth with a formula."""
        self.sheet = os.path.join(self.folder, f"sheet{count}")
        lines = [f"session {name} plain {SPOKEN}" for name in "st"]
        for number in range(count):
            text = "block latex JFxzcXJ0e3h9JA==" if number % 10 == 5 else f"say {number} " + "word " * 20
            lines += [f"new {number} {'st'[number % 2]} {text}", f"eval {number + 1}", *(["wait"] if number % 500 == 499 else [])]
        subprocess.run([PROGRAM or "", "create", self.sheet], check=True, stdin=subprocess.DEVNULL, stdout=subprocess.DEVNULL)
        script = "".join(f"{line}\n" for line in [*lines, "wait"]).encode()
        subprocess.run([PROGRAM or "", "run", self.sheet], input=script, check=True, stdout=subprocess.DEVNULL)


@needs_program
class Changes(Costs):
    def listen(self, page: Page) -> None:
        """A page that is open."""
        connection = http.client.HTTPConnection(page.host, timeout=240)
        self.addCleanup(connection.close)
        connection.request("GET", page.path + "events", headers={"Cookie": page.cookie})
        reply = connection.getresponse()
        is_reported = threading.Event()

        def read() -> None:
            try:
                while reply.readline():
                    is_reported.set()
            except (OSError, ValueError, AttributeError):
                pass

        threading.Thread(target=read, daemon=True).start()
        self.assertTrue(is_reported.wait(240))

    def spent(self, count: int) -> Dict[str, float]:
        """Milliseconds that changes of each kind take, at the first cell, in the middle and at the end."""
        self.write(count)
        server = self.serve()
        page = Page(server)
        self.listen(page)
        places = (1, count // 2, count - 1)
        texts = {id: page.cells()[id]["input"] for id in places}

        def edit(number: int) -> None:
            id = places[number % 3]
            reported = page.call("set", id=id, text=f"say {number}", base=texts[id])
            self.assertNotIn("refused", reported)
            texts[id] = f"say {number}"

        def evaluate(number: int) -> None:
            page.call("eval", id=places[number % 3])

        def move(number: int) -> None:
            page.call("move", id=places[number % 3], by=(-1) ** (number // 3))

        kinds: Dict[str, Callable[[int], None]] = {"an edit": edit, "an evaluation": evaluate, "a move": move}
        found = {name: self.measured(server, page, does) for name, does in kinds.items()}
        server.stop()
        return found

    def measured(self, server: Server, page: Page, does: Callable[[int], None]) -> float:
        for number in range(3):  # these touch others: answers below become stale
            does(number)
        page.until_idle()
        time.sleep(0.5)
        before = time_of(server.process.pid)
        for number in range(3, CHANGES + 3):
            does(number)
        time.sleep(1)
        return (time_of(server.process.pid) - before) / CHANGES * 1000

    def test_a_change_costs_no_more_with_many_cells(self) -> None:
        few, many = self.spent(FEW), self.spent(MANY)
        print("; ".join(f" {name} takes {few[name]:.1f} ms at {FEW} cells, {many[name]:.1f} at {MANY}" for name in few), end="")
        for name in few:
            self.assertLess(many[name], AT_MOST * few[name], name)


@needs_program
@needs_chromium
class Opening(Costs):
    def settled(self, pid: int) -> Dict[int, float]:
        """The times of the browser when it has started and does nothing more."""
        times = times_of(pid)
        for _ in range(60):
            time.sleep(1)
            before, times = times, times_of(pid)
            if sum(times.values()) - sum(before.values()) < 0.05:
                break
        return times

    def is_ready(self, tab: chromium.Tab) -> bool:
        try:
            return bool(tab.value(f"document.documentElement && {READY} === 'true' && (window.seen ?? 0) > 0"))
        except chromium.Failed:  # one page goes, and another one comes
            return False

    def test_ten_thousand_cells_open(self) -> None:
        self.write(MANY)
        server = self.serve()
        browser = self.browse()
        tab = browser.open("about:blank")
        before = self.settled(browser.process.pid)
        tab.ask("Page.addScriptToEvaluateOnNewDocument", {"source": SEEN})
        tab.ask("Page.navigate", {"url": server.address})
        while not self.is_ready(tab):  # then cells that aren't seen get their parts; who asks more often spends the browser's time
            time.sleep(0.1)
        after = times_of(browser.process.pid)
        page = sum(spent - before.get(pid, 0.0) for pid, spent in after.items())
        own = time_of(server.process.pid)
        print(f" {MANY} cells open in {page:.1f} s of the browser's processor time and {own:.1f} of the server's, and are seen after "
            f"{tab.value('window.seen') / 1000:.1f} s", end="")
        self.assertEqual(tab.value("document.querySelectorAll('.cell').length"), MANY)
        states: List[str] = tab.value("[...new Set([...document.querySelectorAll('.cell')].map((cell) => cell.dataset.state))]")
        self.assertEqual(states, ["answered"])
        self.assertLess(page + own, OPENS_WITHIN)


if __name__ == "__main__":
    unittest.main()
