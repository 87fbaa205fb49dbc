"""Exports while the notebook has the worksheet open: each is the worksheet at one moment, and no earlier one than the asking."""

import json
import os
import subprocess
import threading
import time
import unittest
import urllib.parse
from typing import Dict, List, Tuple

import harness
from harness import SPOKEN, Case, Page, needs_chromium, needs_program, opened

FORMATS = {"html": ".html", "markdown": ".md", "notebook": ".ipynb", "json": ".jsonl", "script": ".txt"}
EXPORTS = 20


@needs_program
class Exported(Case):
    def setUp(self) -> None:
        super().setUp()
        self.sheet = os.path.join(self.folder, "a sheet \u00e4\"'")
        self.server = self.serve()
        self.page = Page(self.server)
        self.page.call("session", name="s", words=SPOKEN, tab=False)

    def export(self, name: str) -> Tuple[int, Dict[str, str], bytes]:
        return self.page.request("GET", self.page.path + "export/" + name, {"Cookie": self.page.cookie})

    def by_program(self, name: str) -> bytes:
        """What the program itself exports, when the server has ended."""
        return subprocess.run([harness.PROGRAM or "", "export", name, self.sheet], stdin=subprocess.DEVNULL, capture_output=True, check=True).stdout

    def fill(self) -> None:
        for number in range(5):
            self.page.call("new", session=None if number == 2 else "s", text=f"say <b>{number}</b>\nmore", after=number)
        self.page.call("eval_from", id=None)
        self.page.until_idle()

    def test_each_format_is_the_program_s(self) -> None:
        self.fill()
        reported = {name: self.export(name) for name in FORMATS}
        self.server.stop()
        for name, (status, headers, body) in reported.items():
            with self.subTest(name):
                self.assertEqual((status, body), (200, self.by_program(name)))
                file = urllib.parse.quote(os.path.basename(self.sheet) + FORMATS[name], safe="")
                self.assertEqual(headers["content-disposition"], f"attachment; filename*=UTF-8''{file}")
                self.assertIn("default-src 'none'", headers["content-security-policy"])

    def test_prose_is_prose(self) -> None:
        """Which sessions are prose is known here by their words, and not by the name alone."""
        self.page.call("session", name="prose", words=SPOKEN, tab=False)
        self.page.call("new", session="prose", text="*code*", after=0)
        self.page.call("new", session=None, text="# Title\n\n*prose*", after=1)
        markdown, notebook = self.export("markdown-prose"), self.export("notebook-prose")
        self.assertEqual((markdown[0], markdown[2].decode()), (200, "```prose\n*code*\n```\n\n*no answer*\n\n# Title\n\n*prose*\n"))
        cells = [(cell["cell_type"], cell["source"]) for cell in json.loads(notebook[2])["cells"]]
        self.assertEqual(cells, [("code", "*code*"), ("markdown", "# Title\n\n*prose*")])
        status, headers, page = self.export("html-set")
        if status == 409:
            self.skipTest(page.decode())
        self.assertIn(b"<h2>Title</h2><p><em>prose</em></p>", page)
        self.assertIn(b"*code*", page)
        self.assertIn("default-src 'none'", headers["content-security-policy"])

    def test_without_prose_the_same(self) -> None:
        self.page.call("new", session="s", text="say 1", after=0)
        for name in ("markdown", "notebook"):
            self.assertEqual(self.export(name)[2], self.export(f"{name}-prose")[2])

    def test_who_gets_none(self) -> None:
        cookie = {"Cookie": self.page.cookie}
        strangers: List[Dict[str, str]] = [{}, {"Cookie": "tmhost=x"}, {**cookie, "Sec-Fetch-Site": "cross-site"}, {**cookie, "Origin": "http://evil.example"}]
        for name in FORMATS:
            for headers in strangers:
                self.assertEqual(self.page.request("GET", self.page.path + "export/" + name, headers)[0], 403, headers)
        for name in ("", "tex", "../call", "html/", "HTML"):
            self.assertEqual(self.export(name)[0], 404, name)

    def test_a_refused_export(self) -> None:
        os.rename(self.sheet + ".alt", self.sheet + ".away")
        status, headers, body = self.export("html")
        self.assertEqual((status, headers["content-type"]), (409, "text/plain; charset=utf-8"))
        self.assertIn(b"can't be copied", body)
        os.rename(self.sheet + ".away", self.sheet + ".alt")

    def test_while_it_is_changed(self) -> None:
        """Each export has what had been reported before it was asked for, and each of its answers is whole and of its line."""
        for number in range(4):
            self.page.call("new", session="s", text="long 0", after=number)
        self.saved: Dict[int, int] = {}
        self.is_over = False
        workers = [threading.Thread(target=self.work, args=(id,)) for id in (1, 2, 3, 4)]
        for worker in workers:
            worker.start()
        try:
            self.export_beside()
        finally:
            self.is_over = True
            for worker in workers:
                worker.join()

    def work(self, id: int) -> None:
        """Changes a cell, evaluates it, and waits a little, over and over."""
        number = 0
        while not self.is_over:
            number += 1
            reported = self.page.call("set", id=id, text=f"long {number}", base=f"long {number - 1}")
            if reported.get("isDraft") is False:  # one that waits for its answer has a draft till then
                self.saved[id] = number
                self.page.call("eval", id=id)
            else:
                number -= 1
            time.sleep(0.05)

    def export_beside(self) -> None:
        answers = 0
        for _ in range(EXPORTS):
            before = dict(self.saved)
            status, _, body = self.export("json")
            self.assertEqual(status, 200, body)
            fields: List[Dict[str, object]] = [one["field"] for one in map(json.loads, body.splitlines()) if one["type"] == "field"]
            self.assertEqual([field["id"] for field in fields], [1, 2, 3, 4])
            for field in fields:
                number = str(field["input"]).partition(" ")[2]
                self.assertGreaterEqual(int(number), before.get(int(str(field["id"])), 0))
                if field["state"] == "answered":
                    answers += 1
                    self.assertEqual(str(field["shown"]).split(), [number] * 300)
        self.assertGreater(answers, 0)

    @needs_chromium
    def test_in_the_browser(self) -> None:
        """By keys: a draft is saved first, and the browser keeps the file under the worksheet's name."""
        self.fill()
        browser = self.browse()
        browser.ask("Browser.setDownloadBehavior", {"behavior": "allow", "downloadPath": self.folder})
        tab = opened(browser, self.server)
        tab.click("#cell-1 .number")
        tab.key("Enter")
        tab.type("draft ")
        tab.value("document.querySelector('[data-do=showExport]').focus()")
        tab.key("Enter")
        tab.until("document.querySelector('#export-dialog').open")
        tab.value("document.querySelector('#export-dialog a[href$=markdown]').focus()")
        tab.key("Enter")
        kept = ""
        end = time.monotonic() + 120
        while not kept and time.monotonic() < end:
            kept = next((name for name in os.listdir(self.folder) if name.endswith(".md")), "")
            time.sleep(0.05)
        self.server.stop()
        self.assertTrue(kept.startswith("a sheet \u00e4"), kept)
        with open(os.path.join(self.folder, kept), "rb") as file:
            self.assertEqual(file.read(), self.by_program("markdown"))
        self.assertIn("draft ", self.by_program("markdown").decode())
        self.assertEqual([one for one in browser.trouble if "ERR_CONNECTION" not in one and "ERR_INCOMPLETE" not in one], [])


if __name__ == "__main__":
    unittest.main()
