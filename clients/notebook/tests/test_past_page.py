"""The page of what a worksheet was: the list of changes, looks, what a cell had before, what is taken back and restored. It works by keys alone, what was typed
stays text, and no key is for the worksheet below."""

import unittest

import chromium
from harness import SPOKEN, PageCase, needs_chromium, needs_program, opened
from test_folder import FolderCase, SheetPage
from test_hostile import UNHARMED

LISTED = "[...document.querySelectorAll('#earlier-list li')].map((one) => one.textContent)"
MARK = "document.querySelector('#earlier-mark').textContent"
THEN = "[...document.querySelectorAll('dialog[open] .then')].map((one) => [one.dataset.of, one.querySelector('.then-text').textContent])"
SAYS = "document.querySelector('#earlier-says').textContent"
OPEN = "document.querySelector('dialog[open]')?.id ?? null"
TEXTS = "[...document.querySelectorAll('.cell textarea')].map((text) => text.value)"
NOTE = "document.querySelector('#note').textContent"
FOCUSED = "document.activeElement.id || document.activeElement.dataset.do || document.activeElement.localName"
WIDE = "((place) => [document.documentElement.scrollWidth <= innerWidth, place.scrollWidth <= place.clientWidth])(document.querySelector('dialog[open]'))"
# The roles of which each has to have a name.
NAMED = ("button", "textbox", "spinbutton", "listbox", "option", "article", "link", "dialog")


@needs_program
@needs_chromium
class InThePage(PageCase):
    def fill(self) -> chromium.Tab:
        self.begin()
        for text in ("say 1", "say <img src=x onerror=window.harmed=1>"):
            self.page.call("eval", id=self.page.call("new", session="s", text=text, after=0)["id"])
            self.page.until_idle()
        self.page.call("set", id=1, base="say 1", text="say 3")
        self.page.call("remove", id=2)
        self.page.call("new", session=None, text="# Head\n\n<b>x</b> [to the cell](#cell-1)", after=0)
        tab = opened(self.browser, self.server)
        tab.click("#cell-1 .number")
        return tab

    def look(self, tab: chromium.Tab, at: int) -> None:
        tab.until(MARK, lambda found: f"after change {at} of" in str(found))

    def test_by_keys(self) -> None:
        """From the list to a look, to a worksheet of its own, and back; no key is for the worksheet below."""
        tab = self.fill()
        tab.key("e", "Shift")
        self.look(tab, 11)
        self.assertEqual(tab.value(FOCUSED), "earlier-list")
        self.assertEqual(tab.value(LISTED)[:4], ["11 cell 3 was made, of session prose", "10 session prose was made", "9 cell 2 was removed", "8 cell 1 got another text"])
        for _ in range(4):
            tab.key("ArrowDown")
        self.look(tab, 7)
        tab.until(THEN, [["2", "say <img src=x onerror=window.harmed=1>"], ["1", "say 1"]])
        self.assertEqual(tab.value("document.querySelector('.then.changed').dataset.of"), "2")
        self.assertIn("Nothing here can be changed", tab.value(MARK))
        for key in ("d", "d", "x", "z", "b"):
            tab.key(key)
        tab.value("document.activeElement.blur()")
        for key in ("d", "d", "x", "b"):
            tab.key(key)
        tab.value("document.querySelector('#earlier-name').focus()")
        tab.key("Enter")
        tab.until(SAYS, "sheet-7 was made: it is the worksheet after change 7")
        tab.key("Enter")
        tab.until(SAYS, "there is a file sheet-7 already")
        self.assertIn("tmhost-notebook sheet-7", tab.value("document.querySelector('#earlier-made').textContent"))
        tab.key("Escape")
        tab.until(OPEN, None)
        self.assertEqual(tab.value(TEXTS), ["# Head\n\n<b>x</b> [to the cell](#cell-1)", "say 3"])
        self.assertEqual(tab.value("document.activeElement.id"), "cell-1")
        self.assertEqual(tab.value(UNHARMED), [0])
        self.assertEqual(self.browser.trouble, [])

    def test_a_number_and_the_ends(self) -> None:
        tab = self.fill()
        tab.key("e", "Shift")
        self.look(tab, 11)
        for key, at in (("End", 1), ("Home", 11), ("PageDown", 1), ("ArrowUp", 2)):
            tab.key(key)
            self.look(tab, at)
        tab.value("(() => { const at = document.querySelector('#earlier-at'); at.value = '0'; at.dispatchEvent(new Event('change')) })()")
        self.look(tab, 0)
        self.assertEqual(tab.value("document.querySelector('#earlier-cells').textContent"), "There was no cell.")
        tab.click("#earlier-after")
        self.look(tab, 1)

    def test_what_a_cell_had(self) -> None:
        """It is copied, and taken back; Z takes that back. What is typed after is no part of it."""
        tab = self.fill()
        self.browser.ask("Browser.grantPermissions", {"permissions": ["clipboardReadWrite", "clipboardSanitizedWrite"]})
        tab.key("e")
        tab.until(THEN, [["1", "say 1"]])
        self.assertIn("Nothing here can be changed", tab.value("document.querySelector('#before-mark').textContent"))
        self.assertEqual(tab.value("document.querySelector('.then .output pre').textContent"), "1")
        for what, text in (("copyText", "say 1"), ("copyAnswer", "1")):
            tab.click(f".then [data-do={what}]")
            tab.until("document.querySelector('#before-says').textContent", lambda found: "is on the clipboard" in str(found))
            self.assertEqual(tab.value("(window.given = new Promise((done) => document.addEventListener('paste', "
                "(event) => done(event.clipboardData.getData('text/plain')), {once: true, capture: true})), 0)"), 0)
            tab.key("v", "Control")
            self.assertEqual(tab.value("window.given"), text)
            tab.value("document.querySelector('#before-says').textContent = ''")
        tab.click(".then [data-do=takeBack]")
        tab.until(TEXTS, ["# Head\n\n<b>x</b> [to the cell](#cell-1)", "say 1"])
        self.assertEqual(tab.value(OPEN), None)
        tab.until("document.querySelector('#cell-1 .output.old pre').textContent", "1")
        tab.until("document.activeElement.id", "cell-1")
        tab.key("z")
        tab.until(TEXTS, ["# Head\n\n<b>x</b> [to the cell](#cell-1)", "say 3"])

    def test_what_was_typed_on(self) -> None:
        """Texts that were saved while somebody typed are one line of the list, and of what a cell had the last of them is shown."""
        self.begin()
        self.page.call("new", session="s", text="", after=0)
        texts = ["a", "ab", "abc", "x", "xy"]
        for before, text in zip(["", *texts], texts):
            self.page.call("set", id=1, base=before, text=text)
        self.page.call("new", session="s", text="", after=0)
        tab = opened(self.browser, self.server)
        tab.click("#cell-1 .number")
        tab.key("e")
        tab.until(THEN, [["1", "abc"]])
        tab.key("Escape")
        tab.key("e", "Shift")
        self.look(tab, 8)
        self.assertEqual(tab.value(LISTED), ["8 cell 2 was made, of session s", "7 cell 1 got another text, 5 times from 3 on",
            "2 cell 1 was made, of session s", "1 session s was made"])
        for key, at in (("ArrowDown", 7), ("ArrowDown", 2), ("ArrowUp", 7)):
            tab.key(key)
            self.look(tab, at)
        tab.click("#earlier-before")
        self.look(tab, 6)
        tab.until(THEN, [["1", "x"]])

    def test_a_cell_that_is_gone(self) -> None:
        """It comes back as a new one, where it stood."""
        tab = self.fill()
        tab.key("e", "Shift")
        self.look(tab, 11)
        tab.value("(() => { const at = document.querySelector('#earlier-at'); at.value = '7'; at.dispatchEvent(new Event('change')) })()")
        self.look(tab, 7)
        tab.click(".then[data-of='2'] [data-do=takeBack]")
        tab.until(f"{TEXTS}.length", 3)
        self.assertEqual(tab.value(TEXTS)[0], "say <img src=x onerror=window.harmed=1>")
        self.assertEqual(tab.value(UNHARMED), [0])

    def test_a_draft_is_not_written_over(self) -> None:
        """A cell that waits keeps its text, and the page says why nothing is done."""
        tab = self.fill()
        self.page.call("set", id=1, base="say 3", text="sleep 60")
        self.page.call("eval", id=1)
        tab.until("document.querySelector('#cell-1').dataset.state", "running")
        tab.key("e")
        tab.until(f"{THEN}.length", 2)
        tab.click(".then:last-child [data-do=takeBack]")
        tab.until(NOTE, lambda found: "waits for its answer" in str(found))
        self.assertEqual(self.page.cells()[1]["input"], "sleep 60")

    def test_a_long_answer_and_many_versions(self) -> None:
        self.begin()
        self.page.call("new", session="s", text="bytes 30000", after=0)
        for number in range(25):
            self.page.call("eval", id=1)
            self.page.until_idle()
        tab = opened(self.browser, self.server)
        tab.click("#cell-1 .number")
        tab.key("e")
        tab.until(f"{THEN}.length", 10)
        tab.click(".then [data-do=showMore]")
        tab.until("document.querySelector('.then .output pre').textContent.length", 30_000)
        for count in (20, 24):
            tab.until("document.querySelector('#before-more').hidden", False)
            tab.click("#before-more")
            tab.until(f"{THEN}.length", count)
        tab.until("document.querySelector('#before-more').hidden", True)
        tab.click(".then [data-do=lookThen]")
        self.look(tab, 50)

    def test_names_and_widths(self) -> None:
        """Each control has a name in the accessibility tree, and a narrow page doesn't scroll sideways."""
        tab = self.fill()
        for opener in ("showEarlier", "showBefore"):
            tab.value(f"document.querySelector('[data-do={opener}]').click()")
            tab.until("document.querySelector('dialog[open] .then') !== null")
            tree = tab.ask("Accessibility.getFullAXTree")["nodes"]
            found = [(node["role"]["value"], node.get("name", {}).get("value")) for node in tree if not node["ignored"]]
            self.assertEqual([one for one in found if one[0] in NAMED and not one[1]], [])
            names = {name for _, name in found}
            wanted = {"Changes, the newest first", "11 cell 3 was made, of session prose", "Restore"} if opener == "showEarlier" else {"Before: cell 1"}
            self.assertLessEqual({*wanted, "Back to the worksheet"}, names)
            for width in (1200, 700, 360):
                tab.size(width, 740)
                self.assertEqual(tab.value(WIDE), [True, True], (opener, width))
            tab.key("Escape")
            tab.until(OPEN, None)

    def test_many_changes(self) -> None:
        """They are listed in parts, and a number leads to its part."""
        self.begin()
        self.page.call("step", what="x", set=[], move=[], remove=[], new=[{"after": 0, "session": "s", "text": f"say {n}"} for n in range(450)])
        tab = opened(self.browser, self.server)
        tab.value("document.querySelector('[data-do=showEarlier]').click()")
        self.look(tab, 451)
        self.assertEqual(tab.value(f"{LISTED}.length"), 200)
        tab.click("#earlier-older")
        tab.until(f"{LISTED}[0]", "251 cell 250 was made, of session s")
        tab.value("(() => { const at = document.querySelector('#earlier-at'); at.value = '5'; at.dispatchEvent(new Event('change')) })()")
        self.look(tab, 5)
        tab.until("document.querySelector('#earlier-list [aria-selected=true]').textContent", "5 cell 4 was made, of session s")
        tab.value("document.querySelector('#earlier-list').focus()")
        tab.key("Home")
        self.look(tab, 451)
        tab.click("#earlier-below")
        tab.until("document.querySelector('#earlier-parts span').textContent", "cells 51 to 100 of 450 are shown")


@needs_program
@needs_chromium
class OfAFolder(FolderCase):
    def test_a_link_to_what_was_made(self) -> None:
        listed = self.begin("one")
        page = SheetPage(listed, "one")
        page.get()
        self.fill(page, "say 1")
        tab = self.browse().open(self.server.address)
        tab.click("tr[data-name=one] a")
        tab.until("document.querySelectorAll('.cell').length", 1)
        tab.value("document.querySelector('[data-do=showEarlier]').click()")
        tab.until(MARK, lambda found: "after change 4 of 4" in str(found))
        tab.value("document.querySelector('#earlier-name').value = 'two \u00e4'")
        tab.click("#earlier-restore")
        tab.click("#earlier-made a")
        tab.until("[document.title, document.querySelector('#cell-1 .output pre')?.textContent]", ["two \u00e4", "1"])


if __name__ == "__main__":
    unittest.main()
