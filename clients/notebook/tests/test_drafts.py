"""What is typed into a cell that is evaluated or waits: it is kept as a draft, through reloads and kills, and becomes the cell's text."""

import ctypes
import json
import os
import socket
import subprocess
import sys
import tempfile
import unittest
from typing import Any, Dict, List
from unittest import mock

import chromium
import harness
from harness import PROGRAM, READY, Page, PageCase, needs_chromium, needs_program, opened
from test_page import CONTRAST
from test_page_keys import IS_SLOW

sys.path[:0] = [harness.NOTEBOOK]

from tmhost_notebook.drafts import Draft, Drafts, NotKept  # noqa: E402

KEPT = "draft: kept, not yet the cell's text"
ELSEWHERE = KEPT + ", which was changed elsewhere"
SAYS = "document.querySelector('#cell-%d .text-state').textContent"
TEXT = "document.querySelector('#cell-%d textarea').value"
STATE = "document.querySelector('#cell-%d').dataset.state"
OTHER = "((box) => box && !box.hidden ? box.querySelector('pre').textContent : null)(document.querySelector('#cell-%d .conflict'))"
NOTE = "document.querySelector('#note').textContent"
REMOVED = "[...document.querySelectorAll('#removed-list code')].map((one) => one.textContent)"


@needs_program
@needs_chromium
class DraftsOfThePage(PageCase):
    def start(self, *texts: str, evaluated: int = 2) -> chromium.Tab:
        """A page with these cells, the first of which are evaluated."""
        self.begin()
        for after, text in enumerate(texts):
            self.page.call("new", session="s", text=text, after=after)
        for id in range(1, evaluated + 1):
            self.page.call("eval", id=id)
        tab = opened(self.browser, self.server)
        tab.until(STATE % 1, "running")
        return tab

    def kept(self) -> Dict[int, Dict[str, str]]:
        """The drafts that are on the disk."""
        if not os.path.exists(self.sheet + ".drafts.json"):
            return {}
        with open(self.sheet + ".drafts.json", encoding="utf-8") as file:
            return {int(id): draft for id, draft in json.load(file)["drafts"].items()}

    def write(self, tab: chromium.Tab, id: int, text: str) -> None:
        """Puts a text before what a cell has."""
        tab.click(f"#cell-{id} .number")
        tab.key("Enter")
        tab.key("Home", "Control")
        tab.value("document.activeElement.setSelectionRange(0, 0)")
        tab.type(text)

    def again(self, *words: str) -> chromium.Tab:
        """Kills the server with its program, and the browser, and starts others."""
        program = self.server.program
        assert program is not None
        for kill in (lambda: os.kill(program, 9), self.server.kill, self.browser.kill):
            kill()
        self.server = self.serve(*words)
        self.page, self.browser = Page(self.server), self.browse()
        return opened(self.browser, self.server)

    def test_reloads_and_kills(self) -> None:
        """The draft of a cell that runs and that of one that waits are back, also in another browser, from another server at another port."""
        tab = self.start("sleep 60", "say two", "say three")
        for id, text in ((1, "say a;"), (2, "say é\n\t")):
            self.write(tab, id, text)
            tab.until(SAYS % id, KEPT)
            self.assertEqual(tab.value(f"getComputedStyle(document.querySelector('#cell-{id} textarea')).textDecorationStyle"), "dotted")
        texts = {1: "say a;sleep 60", 2: "say é\n\tsay two"}
        self.assertEqual(self.kept(), {1: {"session": "s", "base": "sleep 60", "text": texts[1]}, 2: {"session": "s", "base": "say two", "text": texts[2]}})
        self.assertIn("> say two\n", self.show())
        for beside in (False, True):
            if beside:
                tab = opened(self.browser, self.server, in_window=True)
            else:
                tab.value("document.documentElement.dataset.ready = 'no'")
                tab.reload()
                tab.until(READY, "true")
            self.assertEqual({id: (tab.value(TEXT % id), tab.value(SAYS % id)) for id in (1, 2)}, {id: (texts[id], KEPT) for id in (1, 2)})
            self.assertEqual([tab.value(STATE % id) for id in (1, 2)], ["running", "queued"])
        with socket.create_server(("127.0.0.1", 0)) as free:
            other = free.getsockname()[1]
        self.assertNotEqual(self.server.host, f"127.0.0.1:{other}")
        tab = self.again("--port", str(other))
        for id in (1, 2):
            self.assertEqual(tab.value(TEXT % id), texts[id])
            tab.until(SAYS % id, "saved")
        self.assertIn("#1 s\n> say a;sleep 60\n?\n#2 s\n> say é\n. \\x09say two\n?\n", self.show())
        self.assertEqual((self.kept(), sorted(os.listdir(self.folder))), ({}, ["copy", "copy.alt", "sheet", "sheet.alt"]))
        self.assertEqual(self.browser.trouble, [])

    def test_until_the_answer(self) -> None:
        """A draft becomes the text after the answer; no page need be open before."""
        tab = self.start("sleep 15", "sleep 60")
        self.write(tab, 1, "say 1 ")
        self.write(tab, 2, "say 2 ")
        tab.until(SAYS % 2, KEPT)
        tab.key("Enter", "Control")
        tab.until(NOTE, "cell 2 has a draft, so nothing is done with it")
        tab.until(SAYS % 1, "saved")
        self.assertEqual([tab.until(STATE % 2, "running"), tab.value(SAYS % 2)], ["running", KEPT])
        self.browser.kill()
        self.page.call("interrupt", session="s")
        self.page.until_idle()
        self.assertEqual((self.page.cells()[2]["input"], self.kept()[2]["text"]), ("sleep 60", "say 2 sleep 60"))
        self.browser = self.browse()
        tab = opened(self.browser, self.server)
        self.assertEqual(tab.value(TEXT % 2), "say 2 sleep 60")
        tab.until(SAYS % 2, "saved")
        self.assertEqual((self.page.cells()[2]["input"], self.kept()), ("say 2 sleep 60", {}))

    def test_a_text_that_is_taken_back(self) -> None:
        """A draft that says what the cell has is none."""
        tab = self.start("sleep 60", evaluated=1)
        self.write(tab, 1, "x")
        tab.until(SAYS % 1, KEPT)
        tab.key("Backspace")
        self.assertEqual(tab.value(TEXT % 1), "sleep 60")
        tab.until(SAYS % 1, "saved")
        self.assertEqual(self.kept(), {})

    def test_what_is_kept_is_on_the_disk(self) -> None:
        """Where it can't be, the page doesn't say so, but why."""
        tab = self.start("sleep 60", evaluated=1)
        os.mkdir(self.sheet + ".drafts.json.new")
        self.write(tab, 1, "x")
        tab.until(SAYS % 1, lambda says: str(says).startswith("not saved: ") and "sheet.drafts.json can't be written" in str(says))
        self.assertEqual(self.kept(), {})
        os.rmdir(self.sheet + ".drafts.json.new")
        tab.type("y")
        tab.until(SAYS % 1, KEPT)
        self.assertEqual(self.kept()[1]["text"], "xysleep 60")

    def changed_elsewhere(self) -> chromium.Tab:
        """A draft whose cell was given another text when no server was there."""
        tab = self.start("sleep 60", evaluated=1)
        self.write(tab, 1, "mine ")
        tab.until(SAYS % 1, KEPT)
        self.browser.kill()
        self.server.stop()
        script = b"set 1 say theirs\n"
        done = subprocess.run([PROGRAM or "", "run", self.sheet], input=script, capture_output=True)
        self.assertEqual(done.returncode, 0, done.stderr)
        self.server = self.serve()
        self.page, self.browser = Page(self.server), self.browse()
        tab = opened(self.browser, self.server)
        self.assertEqual([tab.value(place % 1) for place in (TEXT, SAYS, OTHER)], ["mine sleep 60", ELSEWHERE, "say theirs"])
        return tab

    def test_a_text_changed_elsewhere(self) -> None:
        """Neither text goes before one is chosen: here the draft. Both can be read, by day and by night."""
        tab = self.changed_elsewhere()
        for scheme in ("light", "dark"):
            tab.ask("Emulation.setEmulatedMedia", {"features": [{"name": "prefers-color-scheme", "value": scheme}]})
            self.assertEqual([one for one in tab.value(CONTRAST) if one[1] < 4.5], [], scheme)
        tab.value("new Promise((done) => setTimeout(done, 1500))")
        self.assertEqual((self.page.cells()[1]["input"], self.kept()[1]["text"]), ("say theirs", "mine sleep 60"))
        tab.click("#cell-1 [data-do=keepMine]")
        tab.until(SAYS % 1, "saved")
        self.assertEqual((tab.value(OTHER % 1), self.page.cells()[1]["input"], self.kept()), (None, "mine sleep 60", {}))

    def test_the_other_text(self) -> None:
        """.. and here the cell's text, also after a further key."""
        tab = self.changed_elsewhere()
        self.write(tab, 1, "x")
        tab.until(SAYS % 1, "not saved: it was changed elsewhere")
        self.assertEqual(tab.value(OTHER % 1), "say theirs")
        tab.click("#cell-1 [data-do=takeTheirs]")
        tab.until(SAYS % 1, "saved")
        self.assertEqual((tab.value(OTHER % 1), tab.value(TEXT % 1), self.page.cells()[1]["input"], self.kept()),
            (None, "say theirs", "say theirs", {}))

    def test_two_pages(self) -> None:
        """Both show a draft; one that both have typed is kept in both until one is chosen."""
        tab = self.start("sleep 60", evaluated=1)
        other = opened(self.browser, self.server, in_window=True)
        self.write(tab, 1, "a")
        other.until(TEXT % 1, "asleep 60")
        other.until(SAYS % 1, KEPT)
        other.value(harness.HOLDS)
        self.write(other, 1, "theirs ")
        other.until(SAYS % 1, "saving")
        self.write(tab, 1, "mine ")
        tab.until(SAYS % 1, KEPT)
        other.until(OTHER % 1, "mine asleep 60")
        other.value("window.go(), 0")
        other.until(SAYS % 1, "not saved: it was changed elsewhere")
        self.assertEqual(self.kept()[1]["text"], "mine asleep 60")
        other.click("#cell-1 [data-do=keepMine]")
        other.until(SAYS % 1, KEPT)
        tab.until(TEXT % 1, "theirs asleep 60")
        tab.until(SAYS % 1, KEPT)
        self.assertEqual(self.kept()[1]["text"], "theirs asleep 60")

    def test_a_late_reply(self) -> None:
        """A reply that comes after an event tells nothing new: what another page has typed meanwhile stays in sight."""
        tab = self.start("sleep 60", evaluated=1)
        other = opened(self.browser, self.server, in_window=True)
        tab.value(IS_SLOW)
        self.write(tab, 1, "a")
        other.until(TEXT % 1, "asleep 60")
        tab.type("mine")
        self.write(other, 1, "theirs ")
        other.until(SAYS % 1, KEPT)
        tab.until(OTHER % 1, "theirs asleep 60")
        tab.value("window.go(), 0")
        tab.until(SAYS % 1, "not saved: it was changed elsewhere")
        self.assertEqual((tab.value(OTHER % 1), tab.value(TEXT % 1)), ("theirs asleep 60", "aminesleep 60"))

    def test_a_draft_that_is_too_long(self) -> None:
        """It stays a draft, and the page says why."""
        tab = self.start("sleep 60", evaluated=1)
        self.write(tab, 1, "x" * 5000)
        tab.until(SAYS % 1, KEPT)
        self.page.call("interrupt", session="s")
        tab.until(SAYS % 1, lambda says: str(says).startswith(KEPT + ": a cell has at most 4,095 bytes"))
        tab = self.again()
        tab.until(SAYS % 1, lambda says: str(says).startswith(KEPT + ": a cell has at most 4,095 bytes"))
        self.assertEqual((tab.value(f"{TEXT % 1}.length"), self.page.cells()[1]["input"]), (5008, "sleep 60"))
        self.write(tab, 1, "y")
        tab.until(SAYS % 1, lambda says: str(says).startswith(KEPT + ": a cell has at most 4,095 bytes"))
        self.assertEqual(len(self.kept()[1]["text"]), 5009)

    def test_the_draft_of_a_removed_cell(self) -> None:
        """It is among the removed cells till it is brought back, line by line."""
        tab = self.start("sleep 60", evaluated=1)
        self.write(tab, 1, "say 1\nsay 2\n")
        tab.until(SAYS % 1, KEPT)
        self.browser.kill()
        self.server.stop()
        subprocess.run([PROGRAM or "", "run", self.sheet], input=b"remove 1\n", capture_output=True, check=True)
        self.server = self.serve()
        self.browser = self.browse()
        for _ in range(2):
            tab = self.again()
            self.assertEqual((tab.value(REMOVED), len(self.kept())), (["say 1\nsay 2\nsleep 60"], 1))
        self.assertEqual(tab.value("getComputedStyle(document.querySelector('#removed-list code')).whiteSpace"), "pre-wrap")
        tab.click("#removed")
        tab.click("#removed-list button")
        tab.until("document.querySelector('.cell textarea')?.value", "say 1\nsay 2\nsleep 60")
        self.assertEqual(self.kept(), {})


class DraftsOnTheDisk(unittest.TestCase):
    def setUp(self) -> None:
        folder = tempfile.TemporaryDirectory(prefix="notebook-test-")
        self.addCleanup(folder.cleanup)
        self.folder = os.path.join(folder.name, "a")
        os.mkdir(self.folder)
        self.sheet = os.path.join(self.folder, "sheet")
        with open(self.sheet, "wb"):
            os.chmod(self.sheet, 0o640)
        self.state = os.path.join(folder.name, "state")
        self.enterContext(mock.patch.dict(os.environ, XDG_STATE_HOME=self.state))

    def opened(self) -> Drafts:
        found = Drafts(self.sheet)
        found.read()
        return found

    def files(self) -> List[str]:
        return sorted(os.path.relpath(os.path.join(place, name), os.path.dirname(self.folder))
            for place, _, names in os.walk(os.path.dirname(self.folder)) for name in names)

    def test_kept_and_dropped(self) -> None:
        one, two = Draft("s", "a", "b\n\ud800"), Draft("t", "", "c")
        known = self.opened()
        known.keep(1, one)
        known.keep(2, two)
        self.assertEqual(self.opened().of, {1: one, 2: two})
        self.assertEqual(os.stat(self.sheet + ".drafts.json").st_mode & 0o777, 0o640)
        self.assertEqual(self.files(), ["a/sheet", "a/sheet.drafts.json"])
        known.keep(1, None)
        self.assertEqual(self.opened().of, {2: two})
        known.keep(2, None)
        known.keep(2, None)
        self.assertEqual((self.opened().of, self.files()), ({}, ["a/sheet"]))

    def test_each_step_of_a_write_leaves_the_old_or_the_new(self) -> None:
        """Whatever call on files is the last one before a kill."""
        old, new = Draft("s", "a", "old"), Draft("s", "a", "new")
        for name in ("unlink", "open", "fchmod", "fsync", "replace"):
            for turn in range(4):
                self.opened().keep(1, old)
                left = [turn]

                def ends(*words: Any, name: str = name, call: Any = getattr(os, name), **further: Any) -> Any:
                    if left[0] == 0:
                        raise KeyboardInterrupt
                    left[0] -= 1
                    return call(*words, **further)

                with self.subTest(name=name, turn=turn):
                    with mock.patch.object(os, name, ends):
                        try:
                            known = self.opened()
                            known.keep(1, new)
                        except KeyboardInterrupt:
                            pass
                    self.assertIn(self.opened().of, [{1: old}, {1: new}])

    def test_synced_before_it_is_reported(self) -> None:
        """The bytes before the file gets its name, and its folder after that."""
        steps: List[str] = []
        sync, replace = os.fsync, os.replace

        def noted(descriptor: int) -> None:
            steps.append("sync " + os.path.relpath(os.readlink(f"/proc/self/fd/{descriptor}"), os.path.dirname(self.folder)))
            sync(descriptor)

        def named(*words: Any) -> None:
            steps.append("replace")
            replace(*words)

        with mock.patch.object(os, "fsync", noted), mock.patch.object(os, "replace", named):
            known = self.opened()
            known.keep(1, Draft("s", "a", "b"))
            known.keep(1, None)
        self.assertEqual(steps, ["sync a/sheet.drafts.json.new", "replace", "sync a", "sync a"])

    def test_what_cant_be_read_is_left(self) -> None:
        for data in (b"", b"{", b"[]", b'{"drafts":{"x":{}}}', b'{"drafts":{"1":{"session":"s","base":"a","text":1}}}', b"\xff"):
            with self.subTest(data=data):
                with open(self.sheet + ".drafts.json", "wb") as file:
                    file.write(data)
                known = self.opened()
                with self.assertRaisesRegex(NotKept, "sheet.drafts.json can't be read"):
                    known.keep(1, Draft("s", "a", "b"))
                with open(self.sheet + ".drafts.json", "rb") as file:
                    self.assertEqual((known.of, file.read()), ({}, data))

    def test_no_way_through_links(self) -> None:
        """In a folder for all others may have put links to files of ours."""
        victim = os.path.join(self.folder, "victim")
        with open(victim, "w", encoding="utf-8") as file:
            file.write("precious")
        os.symlink(victim, self.sheet + ".drafts.json.new")
        self.opened().keep(1, Draft("s", "a", "b"))
        os.unlink(self.sheet + ".drafts.json")
        os.symlink(victim, self.sheet + ".drafts.json")
        with self.assertRaises(NotKept):
            self.opened().keep(1, Draft("s", "a", "b"))
        with open(victim, encoding="utf-8") as file:
            self.assertEqual(file.read(), "precious")

    @unittest.skipUnless(os.getuid() == 0, "only root can make files of others")
    def test_somebody_elses_file(self) -> None:
        self.opened().keep(1, Draft("s", "a", "b"))
        os.chown(self.sheet + ".drafts.json", 12345, -1)
        with self.assertRaisesRegex(NotKept, "somebody else's"):
            self.opened().keep(2, Draft("s", "a", "b"))
        os.chown(self.sheet, 12345, -1)
        self.assertEqual(self.opened().of, {1: Draft("s", "a", "b")})

    def test_a_folder_that_cant_be_written(self) -> None:
        """They are kept in the user's own one, and come back beside the worksheet when that can be written again."""
        one, two = Draft("s", "a", "b"), Draft("s", "a", "c")
        self.as_user()
        os.chmod(self.folder, 0o555)
        known = self.opened()
        known.keep(1, one)
        files = self.files()
        self.assertEqual((files[0], len(files), os.path.dirname(files[1])), ("a/sheet", 2, "state/tmhost-notebook"))
        self.assertEqual(self.opened().of, {1: one})
        os.chmod(self.folder, 0o755)
        known = self.opened()
        self.assertEqual(known.of, {1: one})
        known.keep(1, two)
        self.assertEqual(self.files(), ["a/sheet", "a/sheet.drafts.json"])
        os.chmod(self.folder, 0o555)
        known = self.opened()
        self.assertEqual(known.of, {1: two})

    def as_user(self) -> None:
        """Root may write everywhere: as root this gives up what lets it, till the test is over."""
        libc, head, caps = ctypes.CDLL(None), (ctypes.c_uint32 * 2)(0x20080522, 0), (ctypes.c_uint32 * 6)()
        self.assertEqual(libc.capget(head, caps), 0)
        had, caps[0] = caps[0], caps[0] & ~0b110  # CAP_DAC_OVERRIDE and CAP_DAC_READ_SEARCH
        self.assertEqual(libc.capset(head, caps), 0)

        def back() -> None:
            caps[0] = had
            libc.capset(head, caps)

        self.addCleanup(back)


if __name__ == "__main__":
    unittest.main()
