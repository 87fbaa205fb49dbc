"""A worksheet that comes from another machine: a session whose program isn't here gets other words, and no answer is lost."""

import os
import subprocess
import sys
import unittest
from typing import Any, Dict, List, Tuple
from unittest import mock

from harness import NOTEBOOK, PROGRAM, SPOKEN, Case, Page, Server, needs_chromium, needs_program, opened

sys.path[:0] = [NOTEBOOK, f"{NOTEBOOK}/../python"]
from tmhost_notebook import rewording  # noqa: E402
from tmhost_notebook.folder import NotDone  # noqa: E402

SESSION = "document.querySelector('#sessions span').textContent"


@needs_program
class Moved(Case):
    def begin(self) -> None:
        """A worksheet with answers, whose adapter is gone."""
        self.adapter = os.path.join(self.folder, "adapter.py")
        with open(self.adapter, "w", encoding="utf-8") as file:
            file.write(f"#!/bin/sh\nexec {SPOKEN}\n")
        os.chmod(self.adapter, 0o755)
        subprocess.run([PROGRAM or "", "create", self.sheet], check=True, stdin=subprocess.DEVNULL, capture_output=True)
        lines = [f"session s tab {self.adapter}", f"session other plain {SPOKEN}", "new 0 s say 1", "new 1 other say 2", "new 2 s say gone", "new 3 s file",
                 "eval 1", "wait", "eval 2", "wait", "eval 4", "wait", "remove 3", "set 4 say \u2028 \u00e9"]
        reported = subprocess.run([PROGRAM or "", "run", self.sheet], input="\n".join(lines).encode(), capture_output=True)
        self.assertEqual(reported.stdout.splitlines().count(b"asked"), 3, reported.stdout + reported.stderr)  # the last one ends its interpreter
        os.remove(self.adapter)

    def reported(self) -> List[Dict[str, Any]]:
        return rewording.reported(self.sheet, PROGRAM)

    def words(self) -> Dict[str, List[str]]:
        return {one["name"]: one["words"] for line in self.reported() for one in line.get("sessions", ())}


class Words(Moved):
    def keeps_the_rest(self) -> None:
        """All but the words stays, there and back, and the program goes on with it."""
        old, shown = self.words(), self.show()
        rewording.reword(self.sheet, "s", ["tmhost-\u00e9", "--latex"], PROGRAM)
        self.assertEqual(self.words(), {**old, "s": ["tmhost-\u00e9", "--latex"]})
        self.assertEqual(self.show(), shown)
        rewording.reword(self.sheet, "s", old["s"], PROGRAM)
        self.assertEqual((self.words(), self.show()), (old, shown))
        reported = subprocess.run([PROGRAM or "", "run", "--strict", self.sheet], input=b"checkpoint\nset 1 x\ncheckpoint\n", capture_output=True)
        self.assertEqual(reported.returncode, 0, reported.stderr)

    def test_other_words(self) -> None:
        self.begin()
        self.keeps_the_rest()

    def test_after_checkpoints(self) -> None:
        """The journal lies in the second file, and in the first one after another checkpoint."""
        self.begin()
        for _ in range(2):
            subprocess.run([PROGRAM or "", "run", "--strict", self.sheet], input=b"checkpoint\n", check=True, capture_output=True)
            self.keeps_the_rest()

    def test_refusals(self) -> None:
        """Nothing is changed then."""
        self.begin()
        before = self.both_files()
        refused: List[Tuple[str, List[str]]] = [("none", ["x"]), ("s", []), ("s", [""]), ("s", ["a\0b"]), ("s", ["x"] * 100), ("s", ["x" * 10_000])]
        for session, words in refused:
            with self.subTest(session=session, words=words[:1]), self.assertRaises(NotDone):
                rewording.reword(self.sheet, session, words, PROGRAM)
            self.assertEqual(self.both_files(), before)
        other = Server(self.sheet)
        with self.assertRaisesRegex(NotDone, "in use"):
            rewording.reword(self.sheet, "s", ["x"], PROGRAM)
        other.kill()
        with mock.patch.object(os, "replace", side_effect=KeyboardInterrupt), self.assertRaises(KeyboardInterrupt):
            rewording.reword(self.sheet, "s", ["x"], PROGRAM)
        self.assertEqual(self.both_files(), before)
        with open(self.sheet, "r+b") as file:
            file.truncate(len(before[0]) - 1)
        with self.assertRaisesRegex(NotDone, "damaged"):
            rewording.reword(self.sheet, "s", ["x"], PROGRAM)
        self.assertEqual(sorted(os.listdir(self.folder)), ["sheet", "sheet.alt"])

    def test_what_stands_first_isnt_changed(self) -> None:
        """The kill of a moment: after the rename all is in the first file, whatever the second one has."""
        self.begin()
        rewording.reword(self.sheet, "s", ["x"], PROGRAM)
        words, shown = self.words(), self.show()
        with open(self.sheet + ".alt", "wb") as file:
            file.write(b"")
        self.assertEqual((self.words(), self.show()), (words, shown))


@needs_chromium
class Chosen(Moved):
    def test_a_program_is_chosen(self) -> None:
        self.begin()
        self.server = self.serve()
        browser = self.browse()
        tab = opened(browser, self.server)
        shown = self.show()
        tab.until(SESSION, f"no program {self.adapter} on this machine")
        self.assertEqual(tab.value("document.querySelectorAll('[data-do=chooseWords]').length"), 1)
        tab.click("[data-do=chooseWords]")
        tab.until("document.querySelector('#words-dialog').open && document.querySelector('#words').value", self.adapter)
        tab.value(f"document.querySelector('#words').value = {SPOKEN!r}")
        tab.click("#words-give")
        tab.until(SESSION, "not started")
        self.assertEqual(self.show(), shown)
        tab.until("document.querySelector('#trouble').hidden", True)
        tab.click("#cell-1 .number")
        tab.key("Enter", "Control")
        tab.until("document.querySelector('#cell-1 .took').textContent !== ''")
        self.assertEqual(tab.value("document.querySelector('#cell-1 .output pre').textContent"), "1")
        self.assertEqual(browser.trouble, [])

    def test_not_while_something_waits(self) -> None:
        self.begin()
        self.server = self.serve()
        page = Page(self.server)
        page.call("set", id=2, text="sleep 60", base="say 2")
        page.call("eval", id=2)
        self.assertEqual(page.call("words", session="s", words=SPOKEN)["refused"], "InFlight")
        page.call("stop", session="other")
        self.assertEqual(page.call("words", session="none", words=SPOKEN)["refused"], "NoSession")
        self.assertEqual(page.call("words", session="s", words=" ")["refused"], "NoSession")
        self.assertEqual(page.call("words", session="s", words="x " * 100)["refused"], "NotDone")
        self.assertEqual(page.cells()[1]["output"]["text"], "1")
        self.assertEqual(page.call("words", session="s", words=SPOKEN), {})
        page.call("eval", id=1)
        self.assertEqual(page.until_idle()[1]["count"], 1)


if __name__ == "__main__":
    unittest.main()
