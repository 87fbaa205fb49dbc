"""A worksheet that another program has open is shown as it is on the disk; nothing of it is changed, and it is opened when that program has let it go."""

import os
import subprocess
import time
import unittest
from typing import Any, Dict, List, Tuple

import harness
from harness import NOTEBOOK, PROGRAM, SPOKEN, Case, Page, Server, needs_chromium, needs_program, opened
from test_folder import FolderCase, SheetPage

TROUBLE = "document.querySelector('#trouble span').textContent"
IN_USE = "another program has this worksheet open: it is shown as it is on the disk, and can't be changed here."
FREE = "no other program has this worksheet open any more: it can be opened here."
TEXTS = "[...document.querySelectorAll('.cell')].map((cell) => [cell.querySelector('textarea').value, cell.querySelector('.output pre').textContent])"
SEEN = """
[...document.querySelectorAll("button, select, textarea, a[href]")].filter((node) => node.getBoundingClientRect().height && !node.closest("dialog"))
  .map((node) => node.dataset.do ?? node.id ?? node.localName).filter((name) => name)
"""


class Looking(Case):
    def begin(self) -> None:
        """A server that has the worksheet, and another one that looks at it."""
        self.server = self.serve()
        self.page = Page(self.server)
        self.page.call("session", name="s", words=SPOKEN, tab=False)
        for after, text in enumerate(("say one", "say two", "# three")):
            self.page.call("new", session=None if text.startswith("#") else "s", text=text, after=after)
        self.page.call("eval", id=1)
        self.page.until_idle()
        self.looker = self.serve("--look")

    def until(self, page: Page, member: str, wanted: Any) -> Dict[str, Any]:
        end = time.monotonic() + 60
        while True:
            reported = page.snapshot()
            if reported[member] == wanted:
                return reported
            self.assertLess(time.monotonic(), end, reported)
            time.sleep(0.1)


@needs_program
class Requests(Looking):
    def test_nothing_is_changed(self) -> None:
        self.begin()
        page = Page(self.looker)
        self.assertIsNone(self.looker.program)
        reported = page.snapshot()
        self.assertEqual((reported["isLooking"], [cell["input"] for cell in reported["cells"]], reported.get("marks")), (True, ["say one", "say two", "# three"], None))
        self.assertEqual([cell["output"] and cell["output"]["text"] for cell in reported["cells"]], ["one", None, None])
        before = self.both_files()
        calls: List[Tuple[str, Dict[str, Any]]] = [
            ("set", {"id": 1, "text": "x", "base": "say one", "draft": None}), ("new", {"session": "s", "text": "x", "after": 0}), ("remove", {"id": 1}), ("eval", {"id": 2}),
            ("eval_from", {"id": None, "stops": False}), ("move", {"id": 1, "by": 1}), ("clear", {"id": 1}), ("stop", {"session": "s"}), ("interrupt", {"session": "s"}),
            ("session", {"name": "t", "words": "sh", "tab": False}), ("words", {"session": "s", "words": "sh"}), ("complete", {"id": 1, "text": "x", "cursor": 1}), ("past", {}),
            ("step", {"what": "x", "new": [], "set": [], "move": [], "remove": [{"id": 1}]}), ("help", {"id": 1, "language": "python", "word": "x"}), ("reopen", {}),
        ]
        for call, members in calls:
            with self.subTest(call=call):
                self.assertIn(page.call(call, **members).get("refused"), ("Over", "InUse"))
        self.assertEqual(self.both_files(), before)
        self.assertNotIn("refused", page.call("output", id=1, start=0))
        status, _, data = page.request("GET", page.path + "export/markdown", {"Cookie": page.cookie})
        self.assertEqual((status, b"say one" in data), (200, True))
        self.assertEqual(sorted(os.listdir(self.folder)), ["sheet", "sheet.alt"])
        self.assertEqual(self.page.call("set", id=2, text="say 2", base="say two").get("refused"), None)

    def test_its_address_is_its_own(self) -> None:
        self.begin()
        self.assertNotEqual(self.looker.address, self.server.address)
        address = self.server.address
        self.server.stop()
        self.assertEqual(self.serve().address, address)

    def test_without_another_program(self) -> None:
        """One that is there is opened as ever."""
        subprocess.run([PROGRAM or "", "create", self.sheet], check=True, stdout=subprocess.DEVNULL)
        server = self.serve("--look")
        page = Page(server)
        self.assertEqual(page.snapshot()["isLooking"], False)
        page.call("session", name="s", words=SPOKEN, tab=False)
        self.assertEqual(page.call("new", session="s", text="x", after=0)["id"], 1)

    def test_what_cant_be_looked_at(self) -> None:
        """Where no look is possible it is in use, and no more."""
        self.serve()
        with open(self.sheet, "r+b") as file:
            file.truncate(5)
        command = [os.path.join(NOTEBOOK, "tmhost-notebook"), "--no-browser", "--look", self.sheet]
        reported = subprocess.run(command, capture_output=True, text=True, timeout=120, env=harness.environment())
        self.assertEqual((reported.returncode, reported.stdout), (1, ""))


@needs_program
@needs_chromium
class InThePage(Looking):
    def test_what_another_program_writes(self) -> None:
        """It comes by itself; no key changes a text; and the worksheet is opened when it can be."""
        self.begin()
        browser = self.browse()
        tab = opened(browser, self.looker)
        tab.until(TROUBLE, IN_USE)
        self.assertEqual(tab.value("document.querySelector('#connection').textContent"), "connected: what is shown is on the disk")
        self.assertEqual(tab.value(TEXTS), [["say one", "one"], ["say two", ""], ["# three", ""]])
        self.assertEqual(tab.value(SEEN), ["showFind", "showContents", "showExport", "showKeys", "reopen"])
        self.page.call("eval", id=2)
        self.page.call("new", session="s", text="say four", after=3)
        tab.until(TEXTS, [["say one", "one"], ["say two", "two"], ["# three", ""], ["say four", ""]])
        self.page.call("set", id=1, text="say 1", base="say one")
        tab.until(f"{TEXTS}[0]", ["say 1", ""])
        tab.click("#cell-1 .number")
        tab.key("Enter")
        tab.type("x")
        for keys in (["Tab"], ["Enter"], ["/", "Control"], ["Backspace"], ["Enter", "Control"], ["s", "Control"]):
            tab.key(keys[0], *keys[1:])
        self.assertEqual(tab.value(f"{TEXTS}[0]"), ["say 1", ""])
        tab.key("Escape")
        for key in ("x", "d", "d", "b", "m", "z", "v"):
            tab.key(key)
        tab.click("[data-do=reopen]")
        tab.until("document.querySelector('#note').textContent", "another program has the worksheet open yet")
        self.assertEqual([cell["input"] for cell in self.page.cells().values()], ["say 1", "say two", "# three", "say four"])
        self.server.stop()
        tab.until(TROUBLE, FREE)
        tab.click("[data-do=reopen]")
        tab.until("[document.querySelector('#trouble').hidden, document.body.classList.contains('looking')]", [True, False])
        tab.click("#cell-4 .number")
        tab.key("Enter")
        tab.key("Enter", "Control")
        tab.until(f"{TEXTS}[3]", ["say four", "four"])
        tab.type("x")
        tab.until("document.querySelector('#cell-4 .text-state').textContent", "saved")
        self.assertIn("> say fourx\n", self.show())
        self.assertEqual(browser.trouble, [])

    def test_ten_kills(self) -> None:
        """Whatever is written and killed, what is shown is what was on the disk at a moment: whole answers to their lines."""
        self.begin()
        tab = opened(self.browse(), self.looker)
        tab.until(f"{TEXTS}.length", 3)
        for number in range(10):
            text = f"say {number}"
            self.page.call("set", id=1, text=text, base=self.page.cells()[1]["input"])
            self.page.call("eval", id=1)
            if number % 2:
                self.page.until_idle()
            self.server.kill()
            wanted = self.page_of_a_new_server()
            tab.until(f"{TEXTS}[0]", wanted)

    def page_of_a_new_server(self) -> List[str]:
        self.server = self.serve()
        self.page = Page(self.server)
        cell = self.page.cells()[1]
        return [cell["input"], cell["output"]["text"] if cell["state"] == "answered" else ""]


@needs_program
class OfAFolder(FolderCase):
    def test_a_worksheet_in_use(self) -> None:
        listed = self.begin("one", "two")
        other = Server(os.path.join(self.place, "two"))
        self.addCleanup(other.kill)
        page = SheetPage(listed, "two")
        self.assertEqual(page.get()[0], 200)
        self.assertEqual(page.snapshot()["isLooking"], True)
        self.assertEqual(self.states(listed.call("list")), [["one", "closed"], ["two", "inUse"]])
        self.assertEqual(listed.call("rename", name="two", to="three")["says"], "two is in use: close it first")
        self.assertEqual(page.snapshot()["isLooking"], True)
        other.stop()
        self.assertEqual(self.states(listed.call("list")), [["one", "closed"], ["two", "closed"]])
        self.assertEqual(page.get()[0], 200)  # by a user
        self.assertEqual(page.snapshot()["isLooking"], False)
        self.assertEqual(self.states(listed.call("list")), [["one", "closed"], ["two", "open"]])


if __name__ == "__main__":
    unittest.main()
