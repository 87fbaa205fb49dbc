"""One server for the worksheets of a folder: the list, what can be done there, and that each request is refused as strictly as those of one worksheet."""

import fcntl
import json
import os
import shutil
import subprocess
import sys
import tempfile
import types
import unittest
from typing import Any, Dict, List, Tuple
from unittest import mock

from harness import NOTEBOOK, PROGRAM, READY, SPOKEN, Case, Page, Server, children_of, needs_chromium, needs_program

sys.path[:0] = [NOTEBOOK, f"{NOTEBOOK}/../python"]
from tmhost_notebook import folder  # noqa: E402

ROWS = "[...document.querySelectorAll('#sheets tbody tr')].map((row) => [row.dataset.name, row.dataset.state])"


class SheetPage(Page):
    """Requests of the page of one of the worksheets."""

    def __init__(self, listed: Page, name: str) -> None:
        self.host, self.origin, self.cookie = listed.host, listed.origin, listed.cookie
        self.path = f"{listed.path}sheet/{name}/"

    def get(self, name: str = "") -> "tuple[int, Dict[str, str], bytes]":
        return self.request("GET", self.path + name, {"Cookie": self.cookie})


class FolderCase(Case):
    def begin(self, *names: str) -> Page:
        self.place = os.path.join(self.folder, "lessons")
        os.makedirs(self.place)
        for name in names:
            self.make(name)
        return self.serve_folder()

    def serve_folder(self) -> Page:
        self.server = Server(self.place)
        self.addCleanup(self.server.kill)
        return Page(self.server)

    def make(self, name: str) -> None:
        subprocess.run([PROGRAM or "", "create", os.path.join(self.place, name)], check=True, stdin=subprocess.DEVNULL, capture_output=True)

    def states(self, reported: Dict[str, Any]) -> List[List[str]]:
        return [[one["name"], one["state"]] for one in reported["sheets"]]

    def fill(self, page: Page, line: str) -> int:
        page.call("session", name="s", words=SPOKEN, tab=False)
        id: int = page.call("new", session="s", text=line, after=0)["id"]
        page.call("eval", id=id)
        self.assertEqual(page.until_idle()[id]["state"], "answered")
        return id


@needs_program
class Requests(FolderCase):
    def test_the_list(self) -> None:
        """Worksheets alone are in it, and a program runs for each that is open."""
        listed = self.begin("one", "two")
        for name, text in (("notes.txt", "TMWSHEE"), (".hidden", "TMWSHEET.A."), ("a.json", "TMWSHEET.A.")):
            with open(os.path.join(self.place, name), "w", encoding="utf-8") as file:
                file.write(text)
        os.mkdir(os.path.join(self.place, "folder"))
        os.symlink(os.path.join(self.place, "one"), os.path.join(self.place, "link"))
        self.assertEqual(self.states(listed.call("list")), [["one", "closed"], ["two", "closed"]])
        self.assertEqual(children_of(self.server.process.pid), [])
        one = SheetPage(listed, "one")
        self.assertEqual(one.get()[0], 200)
        self.assertEqual(len(children_of(self.server.process.pid)), 1)
        self.fill(one, "say 1")
        self.assertEqual(self.states(listed.call("list")), [["one", "open"], ["two", "closed"]])
        self.assertEqual(self.states(listed.call("close", name="one")), [["one", "closed"], ["two", "closed"]])
        self.assertEqual(children_of(self.server.process.pid), [])

    def test_what_was_closed_stays_so(self) -> None:
        """A page that looks for it doesn't open it again, but asking for the page does; after a restart of the server a page that looks for it does."""
        listed = self.begin("one")
        one = SheetPage(listed, "one")
        one.get()
        id = self.fill(one, "say 1")
        listed.call("close", name="one")
        self.assertEqual(one.get("events")[2], b"event: over\ndata: {}\n\n")
        self.assertEqual(one.call("eval", id=id), {"refused": "NotDone", "says": "one was closed"})
        self.assertEqual(self.states(listed.call("list")), [["one", "closed"]])
        self.assertEqual(one.get()[0], 200)
        self.assertEqual(one.cells()[id]["output"]["text"], "1")
        self.server.kill()
        again = self.serve_folder()
        self.assertEqual((again.path, again.cookie), (listed.path, listed.cookie))
        self.assertEqual(one.cells()[id]["output"]["text"], "1")
        self.assertEqual(self.states(again.call("list")), [["one", "open"]])

    def test_make_rename_duplicate(self) -> None:
        listed = self.begin("one")
        reported = listed.call("make", name="a b % \u00e9")
        self.assertEqual(self.states(reported), [["a b % \u00e9", "open"], ["one", "closed"]])
        other = SheetPage(listed, "a%20b%20%25%20%C3%A9")
        self.fill(other, "say 7")
        copied = listed.call("duplicate", name="a b % \u00e9", to="copy")
        self.assertEqual(self.states(copied)[1:], [["copy", "closed"], ["one", "closed"]])
        self.assertEqual(listed.call("rename", name="a b % \u00e9", to="seven")["says"], "a b % \u00e9 is in use: close it first")
        listed.call("close", name="a b % \u00e9")
        self.assertEqual(self.states(listed.call("rename", name="a b % \u00e9", to="seven")), [["copy", "closed"], ["one", "closed"], ["seven", "closed"]])
        for name in ("copy", "seven"):
            page = SheetPage(listed, name)
            page.get()
            self.assertEqual([cell["output"]["text"] for cell in page.cells().values()], ["7"])
        self.assertEqual(sorted(os.listdir(self.place)), sorted(name + end for name in ("copy", "one", "seven") for end in ("", ".alt")))

    def test_refusals(self) -> None:
        listed = self.begin("one", "two")
        before = sorted(os.listdir(self.place))
        for call, name, to in (("make", "one", ""), ("rename", "one", "two"), ("duplicate", "one", "two"), ("rename", "one", "../two"), ("make", "../three", ""),
            ("make", ".three", ""), ("make", "-three", ""), ("make", "three.alt", ""), ("make", "th\nree", ""), ("make", "", ""), ("make", "x" * 101, ""),
            ("rename", "three", "four"), ("close", "three", ""), ("duplicate", "../one", "four"), ("erase", "one", ""), ("list_", "", "")):
            with self.subTest(call=call, name=name, to=to):
                self.assertEqual(listed.call(call, name=name, to=to)["refused"], "NotDone")
        self.assertEqual(listed.call("make", name=3)["refused"], "NotDone")
        self.assertEqual(sorted(os.listdir(self.place)), before)
        for name in ("three", "..", "%2e%2e%2fone", "one%2f..%2ftwo", "one.alt"):
            with self.subTest(name):
                self.assertIn(SheetPage(listed, name).get()[0], (404, 409))
        other = Server(os.path.join(self.place, "two"))
        self.addCleanup(other.kill)
        self.assertEqual(self.states(listed.call("list")), [["one", "closed"], ["two", "inUse"]])
        self.assertEqual(listed.call("rename", name="two", to="three")["says"], "two is in use: close it first")

    def test_who_is_refused(self) -> None:
        """As with one worksheet: without the cookie, from another origin, by another name of the host, and without the secret path."""
        listed = self.begin("one")
        one = SheetPage(listed, "one")
        one.get()
        for path in (listed.path, one.path):
            asked: List[Tuple[str, Dict[str, str]]] = [
                ("", {}), ("", {"Cookie": "tmhost=x"}), ("events", {"Cookie": listed.cookie, "Origin": "http://evil.example"}),
                ("", {"Cookie": listed.cookie, "Host": "localhost"}), ("", {"Cookie": listed.cookie, "Sec-Fetch-Site": "cross-site"})]
            for name, headers in asked:
                with self.subTest(path=path, name=name, headers=headers):
                    self.assertEqual(listed.request("GET", path + name, headers)[0], 403)
            headers = listed.headers()
            for changed in ({"Origin": "http://evil.example"}, {"Content-Type": "text/plain"}, {"Cookie": "x=y"}):
                self.assertEqual(listed.request("POST", path + "call", {**headers, **changed}, json.dumps({"call": "list"}).encode())[0], 403)
            del headers["Origin"]
            self.assertEqual(listed.request("POST", path + "call", headers, b"{}")[0], 403)
        self.assertEqual(listed.request("GET", "/sheet/one/", {"Cookie": listed.cookie})[0], 403)
        policy = listed.request("GET", listed.path, {"Cookie": listed.cookie})[1]["content-security-policy"]
        self.assertEqual(policy, one.get()[1]["content-security-policy"])
        self.assertNotIn("unsafe", policy)


class Held(unittest.TestCase):
    def test_a_file_that_took_the_place_of_one_before_it_was_locked(self) -> None:
        """Its lock is none of the worksheet's, which another program may hold."""
        with tempfile.TemporaryDirectory() as place:
            path, other = os.path.join(place, "a"), os.path.join(place, "b")
            for name in (path, path + ".alt", other):
                open(name, "wb").close()
            with folder.held(path):
                pass

            def flock(file: int, how: int) -> None:
                if os.path.exists(other):
                    os.replace(other, path)
                fcntl.flock(file, how)

            with mock.patch.object(folder, "fcntl", types.SimpleNamespace(flock=flock, LOCK_EX=fcntl.LOCK_EX, LOCK_NB=fcntl.LOCK_NB)):
                with self.assertRaises(folder.NotDone), folder.held(path):
                    self.fail("it is held")
            with folder.held(path):
                pass


class Renames(unittest.TestCase):
    """A crash between any two steps of a rename: the next server does it to its end."""

    def test_crashes(self) -> None:
        for count in range(12):
            place = tempfile.mkdtemp()
            self.addCleanup(shutil.rmtree, place, True)
            for end, text in (("", "TMWSHEET"), (".alt", "other"), (".drafts.json", "{}")):
                with open(os.path.join(place, "one" + end), "w", encoding="utf-8") as file:
                    file.write(text)
            left, is_cut = count, False

            def step(call: Any) -> Any:
                def done(*words: Any, **named: Any) -> Any:
                    nonlocal left
                    left -= 1
                    if left < 0:
                        raise KeyboardInterrupt
                    return call(*words, **named)
                return done

            with mock.patch.multiple(os, rename=step(os.rename), replace=step(os.replace), remove=step(os.remove), fsync=step(os.fsync)):
                try:
                    folder.rename(place, "one", "two")
                except KeyboardInterrupt:
                    is_cut = True
            folder.finish_rename(place)
            names = sorted(name for name in os.listdir(place) if not name.endswith(".new"))
            wanted = [{"two", "two.alt", "two.drafts.json"}] + [{"one", "one.alt", "one.drafts.json"}] * is_cut
            self.assertIn(set(names), wanted, count)
        self.assertFalse(is_cut)

    def test_a_note_of_somebody_else(self) -> None:
        """It moves no file outside of the folder."""
        with tempfile.TemporaryDirectory() as place:
            kept = os.path.join(place, "kept")
            os.mkdir(os.path.join(place, "lessons"))
            for note in ([kept, "x"], ["../kept", "x"], {"kept": "x"}, [1, 2], "x"):
                with open(kept, "w", encoding="utf-8") as file, open(os.path.join(place, "lessons", folder.NOTE), "w", encoding="utf-8") as reported:
                    json.dump(note, reported)
                folder.finish_rename(os.path.join(place, "lessons"))
                self.assertEqual((sorted(os.listdir(place)), os.listdir(os.path.join(place, "lessons"))), (["kept", "lessons"], []))


@needs_program
@needs_chromium
class Listed(FolderCase):
    def test_by_a_user(self) -> None:
        """Makes, fills, closes, renames, copies worksheets, two of which are open side by side."""
        self.begin("one")
        browser = self.browse()
        tab = browser.open(self.server.address)
        tab.until(READY, "true")
        tab.until(ROWS, [["one", "closed"]])
        tab.click("[data-do=make]")
        tab.type("lesson 2")
        tab.key("Enter")
        tab.until("location.pathname.endsWith('/sheet/lesson%202/') && document.title", "lesson 2")
        tab.until("document.querySelector('#list').hidden", False)
        tab.click("[data-do=addProse]")
        tab.until("document.querySelectorAll('.cell textarea').length", 1)
        tab.type("some prose")
        tab.until("document.querySelector('.cell').dataset.text", "saved")
        other = browser.open(self.server.address, in_window=True)
        other.until(ROWS, [["lesson 2", "open"], ["one", "closed"]])
        other.click("tr[data-name=one] a")
        other.until("document.title", "one")
        other.until(READY, "true")
        tab.click("#list")
        tab.until(ROWS, [["lesson 2", "open"], ["one", "open"]])
        tab.click("tr[data-name=one] [data-do=close]")
        other.until("document.querySelector('#connection').textContent", lambda text: str(text).startswith("closed in the list"))
        tab.until(ROWS, [["lesson 2", "open"], ["one", "closed"]])
        tab.click("tr[data-name=one] [data-do=rename]")
        tab.type("two")
        tab.key("Enter")
        tab.until(ROWS, [["lesson 2", "open"], ["two", "closed"]])
        tab.click("tr[data-name='lesson 2'] [data-do=duplicate]")
        tab.key("Enter")
        tab.until(ROWS, [["lesson 2", "open"], ["lesson 2 copy", "closed"], ["two", "closed"]])
        tab.click("tr[data-name='lesson 2 copy'] a")
        tab.until("document.querySelector('.cell textarea')?.value", "some prose")
        self.assertEqual(browser.trouble, [])

    def test_the_server_comes_back(self) -> None:
        """Pages of the list and of a worksheet find it."""
        self.begin("one")
        browser = self.browse()
        tab, listed = (browser.open(self.server.address, in_window=is_other) for is_other in (False, True))
        tab.until(ROWS, [["one", "closed"]])
        tab.click("tr[data-name=one] a")
        tab.until("document.title", "one")
        listed.until(ROWS, [["one", "open"]])
        self.server.kill()
        for page in (tab, listed):
            page.until("document.querySelector('#connection').textContent", lambda text: str(text).startswith("no connection"))
        self.serve_folder()
        for page in (tab, listed):
            page.until("document.querySelector('#connection').textContent", lambda text: str(text).startswith("connected"))
        listed.until(ROWS, [["one", "open"]])


if __name__ == "__main__":
    unittest.main()
