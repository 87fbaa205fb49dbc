"""The page by keys: from an empty worksheet to an answer, buttons, the dialog of a new session, what is undone and found."""

import os
import shutil
import sys
import unittest
from typing import Any, List, Tuple, Union

import harness
from harness import HOLDS, IN_TEXT, READY, SPOKEN, Page, PageCase, needs_chromium, needs_program, opened

sys.path[:0] = [harness.NOTEBOOK, harness.REPOSITORY + "/clients/python"]

from tmhost_notebook.suggested import kernels  # noqa: E402

FOCUSED = "document.activeElement.dataset?.do || document.activeElement.id || document.activeElement.className || document.activeElement.localName"
NAME_OF = "((node) => node.dataset?.do || node.id || node.href || node.localName)(%s)"
USABLE = f"""
[...document.querySelectorAll("button, select, a[href]")].filter((node) => node.getBoundingClientRect().height && !node.disabled)
  .map((node) => {NAME_OF % "node"})
"""
# The reply to the next request comes when `go` is called.
IS_SLOW = """
(() => {
  const kept = fetch;
  window.fetch = (...words) => {
    window.fetch = kept;
    const reply = kept(...words);
    return new Promise((done) => {
      window.go = () => done(reply);
    });
  };
})()
"""
# The next request fails when `go` is called.
FAILS = """
(() => {
  const kept = fetch;
  window.fetch = () => new Promise((_, fail) => {
    window.go = () => {
      window.fetch = kept;
      fail(new TypeError());
    };
  });
})()
"""
SUGGESTED = "[...document.querySelectorAll('#session-known button')].map((one) => one.textContent)"
SUGGESTS = "[...document.querySelectorAll('#session-known button')].find((one) => one.textContent === '%s').click()"
SHOWN = "[...document.querySelectorAll('.completions li')].map((one) => one.textContent)"
NAMES = "((name) => [name.value, name.checkValidity()])(document.querySelector('#session-name'))"
# Counts how often the dialog has another height.
MOVES = """
(() => {
  window.moved = -1;
  new ResizeObserver(() => { window.moved += 1; }).observe(document.querySelector("#session-dialog form"));
  return new Promise((done) => setTimeout(done, 100));
})()
"""
UNREAD, NONE = "no completions: the interpreter's completions can't be read", "no completions"
SCRIPT = b"<script>window.harmed=1</script><img src=x onerror=window.harmed=1>"
# What an interpreter answers, and the first lines of the list, or the note and what goes into the text.
HOSTILE: List[Tuple[bytes, Union[List[str], Tuple[str, str]]]] = [
    (b'\x02scheme:(tuple "said" "' + SCRIPT + b'" "<b>")\x05', ["said" + SCRIPT.decode(), "said<b>"]),
    ("\x02scheme:(tuple \"\u202esaid\" \"\u2066a\" \"\0b\")\x05".encode(), ["\\u202esaid\\u2066a", "\\u202esaid\\x00b"]),
    (b'\x02scheme:(tuple "t"' + b"".join(b' "%d"' % one for one in range(20_000)) + b")\x05", ["t0", "t1", "t2"]),
    (b'\x02scheme:(tuple "t" "' + b"x" * 1_000_000 + b'" "y")\x05', ["t" + "x" * 1_000_000, "ty"]),
    (b'\x02scheme:(tuple "t" "' + SCRIPT + b'")\x05', ("", SCRIPT.decode())), (b"\x02scheme:(tuple \"t\" \"\")\x05", (NONE, "")), (b"\x02scheme:\x05", (NONE, "")),
    (b"\x02scheme:(tuple\x05", (UNREAD, "")), (b"\x02scheme:(exec-delayed 1)\x05", (UNREAD, "")), (b"\x02latex:$x$\x05", (UNREAD, "")), (b"\x02verbatim:say\x05", (UNREAD, "")),
    (b'\x02verbatim:\x02scheme:(tuple "a" "b")\x05\x02scheme:(tuple "a" "c")\x05\x05', (UNREAD, "")), (b'\x02scheme:(tuple "a" "b" 1)\x05', (UNREAD, "")),
]
# The suggestions come when `answer` is called.
LATE = """
(() => {
  const kept = fetch;
  window.fetch = (...words) => words[0] !== "suggestions" ? kept(...words) : new Promise((done) => {
    window.answer = () => done(new Response('[{"name":"late","words":"late","tab":false}]'));
  });
})()
"""


@needs_program
@needs_chromium
class KeysOfThePage(PageCase):
    def test_all_by_keys(self) -> None:
        """From an empty worksheet to an answer and back, without a mouse."""
        self.server = self.serve()
        self.browser = self.browse()
        tab = opened(self.browser, self.server)
        self.tab_to(tab, "askSession")
        tab.key("Enter")
        tab.until(FOCUSED, "session-name")
        tab.type("s")
        tab.key("Tab")
        tab.type(SPOKEN)
        self.tab_to(tab, "session-tab")
        tab.key(" ")
        tab.key("Tab")
        tab.key("Enter")
        tab.until(IN_TEXT, "cell-1")
        tab.type("say 1")
        tab.key("Enter", "Shift")
        tab.until(IN_TEXT, "cell-2")
        tab.key("Escape")
        tab.until(FOCUSED, lambda found: str(found).startswith("cell"))
        seen = self.tab_to(tab, "addProse")
        # Each button of the selected cell is on the way, but those that would do nothing, and no other cell's.
        self.assertLessEqual({"evaluate", "evaluateFrom", "stop", "restart", "insertAbove", "insertBelow", "moveUp", "moveDown", "remove",
            "change"}, set(seen))
        self.assertLess(len(seen), 25)
        for _ in range(60):
            tab.key("Tab", "Shift")
            if tab.value(FOCUSED) == "stopSession":
                break
        tab.key("Enter")
        tab.until("document.querySelector('#sessions span').textContent", "not started")

    def test_each_button_is_reached_by_keys(self) -> None:
        """Tab comes to each button, list and link that is seen and does something, in a page that has cells in each state."""
        self.begin()
        self.all_states()
        tab = opened(self.browser, self.server)
        tab.until("document.querySelectorAll('.set').length", 2)
        tab.click("#cell-5 .number")
        wanted = tab.value(USABLE)
        self.assertLessEqual({"showExport", "showRemoved", "interruptSession", "evaluate", "toggleText", "showMore", "addProse"}, set(wanted))
        tab.value("document.activeElement.blur()")
        seen: List[str] = []
        for _ in range(3 * len(wanted)):
            tab.key("Tab")
            seen.append(tab.value(NAME_OF % "document.activeElement"))
        self.assertEqual(set(wanted) - set(seen), set())

    def test_keys_before_their_cell(self) -> None:
        """What is typed while a new cell is on its way is for that cell, and no command to the one that was there. Where none comes it is dropped."""
        self.begin()
        self.page.call("new", session="s", text="say 1", after=0)
        tab = opened(self.browser, self.server)
        tab.click("#cell-1 .number")
        self.press(tab, HOLDS, "b", "Enter", *"say map")
        tab.until(f"[{IN_TEXT}, document.activeElement.value]", ["cell-2", "say map"])
        self.press(tab, HOLDS, "Alt+Enter", *"mdd")
        tab.until(f"[{IN_TEXT}, document.activeElement.value]", ["cell-3", "mdd"])
        tab.until("document.querySelector('#cell-2 .output pre').textContent", "map")
        tab.until("document.querySelector('#cell-3 .text-state').textContent", "saved")
        tab.key("Escape")
        self.press(tab, FAILS, "b", *"dd")
        tab.until("document.querySelector('#note').textContent", "the server can't be reached")
        self.press(tab, "window.go = () => 0", "Enter", "x")
        tab.until("document.querySelector('#cell-3 textarea').value", "mddx")
        self.assertEqual(self.page.snapshot()["order"], [1, 2, 3])

    def test_completions_beside_a_save(self) -> None:
        """They are asked for when a save that is on its way is over: its text isn't another page's."""
        self.begin()
        self.page.call("new", session="s", text="", after=0)
        tab = opened(self.browser, self.server)
        tab.click("#cell-1 .number")
        tab.key("Enter")
        tab.type("say c")
        self.press(tab, IS_SLOW, "Control+s", "a", "Tab")
        tab.until(SHOWN, ["cat", "cave", "call"])
        tab.until("document.querySelector('#cell-1 .text-state').textContent", "saved")
        self.assertEqual((tab.value("document.querySelector('#note').textContent"), self.page.cells()[1]["input"]), ("", "say ca"))

    def test_completions_of_adapters(self) -> None:
        """What is suggested as a session completes, where its adapter does."""
        self.server = self.serve()
        self.page, self.browser = Page(self.server), self.browse()
        tab = opened(self.browser, self.server)
        self.complete_by(tab, "python", "import os; naming = 1", "nami", "naming", "os.getcw", ["getcwd", "getcwdb"])
        for name, line in (("gp", "zz_one = 1; zz_two = 2"), ("octave", "zz_one = 1; zz_two = 2;"), ("r", "zz_one <- 1; zz_two <- 2"), ("maxima", "zz_one: 1$ zz_two: 2$"),
                           ("lua", "zz_one = 1; zz_two = 2"), ("tcl", "set zz_one 1; set zz_two 2")):
            if shutil.which({"r": "R", "tcl": "tclsh"}.get(name, name)):
                self.complete_by(tab, name, line, "zz_o", "zz_one", "zz_", ["zz_one", "zz_two"])
            else:
                print(f" {name} isn't here", end="")
        self.assertEqual(self.browser.trouble, [])

    def test_hostile_completions(self) -> None:
        """Whatever is answered is a text or nothing: it adds no markup, no more lines than are shown, and the next request is answered."""
        os.environ["SAID"] = self.folder
        self.addCleanup(os.environ.pop, "SAID")
        self.begin()
        self.page.call("new", session="s", text="", after=0)
        tab = opened(self.browser, self.server)
        tab.click("#cell-1 .number")
        tab.key("Enter")
        for number, (answer, wanted) in enumerate(HOSTILE):
            with self.subTest(answer=answer[:60]), open(os.path.join(self.folder, str(number)), "wb") as file:
                file.write(answer)
            tab.ask("Input.dispatchKeyEvent", {"type": "keyDown", "commands": ["selectAll"]})
            tab.type(f"say said_{number}")
            tab.key("Tab")
            if isinstance(wanted, list):
                tab.until(f"{SHOWN}.length > 0")
                self.assertEqual(tab.value(f"{SHOWN}.slice(0, 3)"), wanted)
                self.assertLessEqual(tab.value(f"{SHOWN}.length"), 100)
                tab.key("Escape")
            else:
                tab.until("[document.querySelector('#note').textContent, document.activeElement.value]", [wanted[0], f"say said_{number}{wanted[1]}"])
        self.assertEqual(tab.value("[window.harmed ?? 0, document.querySelectorAll('#cells script, #cells img, #cells b').length]"), [0, 0])
        tab.ask("Input.dispatchKeyEvent", {"type": "keyDown", "commands": ["selectAll"]})
        tab.type("say be")
        tab.key("Tab")
        tab.until("document.activeElement.value", "say beta")
        self.assertEqual(self.browser.trouble, [])

    def complete_by(self, tab: Any, name: str, line: str, one: str, whole: str, several: str, shown: List[str]) -> None:
        """Makes a session and a cell of it, and completes in it: one name goes in at once, several are a list."""
        tab.click("[data-do=askSession]")
        tab.until(FOCUSED, "session-name")
        tab.value(SUGGESTS % name)
        tab.until(FOCUSED, "session-make")
        tab.key("Enter")
        tab.until("document.querySelector('#session-dialog').open", False)
        tab.until(f"document.querySelector('#sessions li[data-session={name}]') !== null")
        id = self.page.call("new", session=name, text=line, after=0)["id"]
        self.page.call("eval", id=id)
        self.page.until_idle()
        tab.until(f"document.querySelector('#cell-{id}')?.dataset.state", "answered")
        text = f"document.querySelector('#cell-{id} textarea').value"
        tab.click(f"#cell-{id} .number")
        tab.key("Enter")
        for typed, reported, wanted in ((one, text, f"{line}\n{whole}"), (several, SHOWN, shown)):
            tab.key("Enter")
            tab.type(typed)
            tab.key("Tab")
            tab.until(reported, wanted)
        self.assertEqual(tab.value("document.querySelector('#completions').getAttribute('role')"), "listbox")
        tab.key("ArrowDown")
        tab.key("Enter")
        tab.until(text, f"{line}\n{whole}\n{several[:several.find('.') + 1]}{shown[1]}")
        self.assertEqual(tab.value(SHOWN), [])
        tab.key("Enter")
        tab.key("Tab")
        tab.until(text, f"{line}\n{whole}\n{several[:several.find('.') + 1]}{shown[1]}\n    ")
        tab.key("Escape")

    def test_completions_of_a_busy_session(self) -> None:
        """It isn't asked, the page says so, and nothing is lost."""
        self.begin()
        self.page.call("eval", id=self.page.call("new", session="s", text="sleep 60", after=0)["id"])
        self.page.call("new", session="s", text="", after=1)
        tab = opened(self.browser, self.server)
        tab.until("document.querySelector('#cell-1').dataset.state", "running")
        tab.click("#cell-2 .number")
        tab.key("Enter")
        tab.type("say be")
        tab.key("Tab")
        tab.until("document.querySelector('#note').textContent", "no completions: its interpreter is at work")
        self.assertEqual(tab.value("document.querySelector('#cell-2 textarea').value"), "say be")
        self.assertEqual([session["waiting"] for session in self.page.snapshot()["sessions"]], [1])
        self.page.call("interrupt", session="s")
        self.page.until_idle()
        tab.until("document.querySelector('#cell-1').dataset.state", "answered")
        tab.key("Tab")
        tab.until("document.querySelector('#cell-2 textarea').value", "say beta")

    def press(self, tab: Any, before: str, *keys: str) -> None:
        """Presses keys, the first of which asks the server for something; that goes on when all are pressed."""
        tab.value(before)
        for key in keys:
            *modifiers, name = key.split("+")
            tab.key(name, *modifiers)
        tab.value("window.go(), 0")

    def tab_to(self, tab: Any, wanted: str) -> List[str]:
        seen: List[str] = []
        while wanted not in seen:
            self.assertLess(len(seen), 60, seen)
            tab.key("Tab")
            seen.append(tab.value(FOCUSED))
        return seen

    def test_a_new_session(self) -> None:
        """The first cell asks for its session. What is suggested is there when the dialog is, and takes no name that a user typed or that is taken."""
        self.server = self.serve()
        self.browser = self.browse()
        tab = opened(self.browser, self.server)
        tab.click("[data-do=addCell]")
        tab.until("document.querySelector('#session-dialog').open")
        self.assertIn("sh", tab.value(SUGGESTED))
        for name in kernels():
            self.assertIn(f"jupyter-{name}", tab.value(SUGGESTED))
        tab.value(SUGGESTS % "sh")
        tab.until(FOCUSED, "session-make")
        tab.key("Enter")
        tab.until(IN_TEXT, "cell-1")
        tab.click("[data-do=askSession]")
        tab.until(FOCUSED, "session-name")
        tab.value(SUGGESTS % "sh")
        self.assertEqual(tab.value(NAMES), ["sh-2", True])
        tab.value(SUGGESTS % "python")
        self.assertEqual(tab.value(NAMES), ["python", True])
        tab.click("#session-name")
        tab.ask("Input.dispatchKeyEvent", {"type": "keyDown", "commands": ["selectAll"]})
        tab.type("sh")
        self.assertEqual(tab.value(NAMES), ["sh", False])
        tab.value(SUGGESTS % "python")
        self.assertEqual(tab.value(NAMES), ["sh", False])
        self.assertEqual(self.browser.trouble, [])

    def test_late_suggestions(self) -> None:
        """They don't come into a dialog that is open."""
        self.server = self.serve()
        self.browser = self.browse()
        tab = self.browser.open("about:blank")
        tab.ask("Page.addScriptToEvaluateOnNewDocument", {"source": LATE})
        tab.ask("Page.navigate", {"url": self.server.address})
        tab.until(READY, "true")
        tab.click("[data-do=askSession]")
        tab.until("document.querySelector('#session-dialog').open")
        tab.value(MOVES)
        tab.value("window.answer(), new Promise((done) => setTimeout(done, 300))")
        self.assertEqual([tab.value(SUGGESTED), tab.value("window.moved")], [[], 0])
        tab.key("Escape")
        tab.click("[data-do=askSession]")
        tab.until("document.querySelector('#session-dialog').open")
        self.assertEqual(tab.value(SUGGESTED), ["late"])

    def test_a_new_line(self) -> None:
        """Enter goes on below the first letter of the line, and blanks of TAB and Enter are undone as what is typed."""
        self.begin()
        self.page.call("new", session="s", text="for x:", after=0)
        tab = opened(self.browser, self.server)
        text = "document.querySelector('#cell-1 textarea').value"
        tab.click("#cell-1 .number")
        tab.key("Enter")
        tab.key("End")
        tab.value("document.activeElement.setSelectionRange(9, 9)")
        for key in ("Enter", "Tab", "x", "Enter", "y"):
            tab.key(key)
        tab.until(text, "for x:\n    x\n    y")
        for _ in range(8):
            tab.ask("Input.dispatchKeyEvent", {"type": "keyDown", "key": "z", "modifiers": 2, "commands": ["undo"]})
        tab.until(text, "for x:")

    def test_undo_and_find(self) -> None:
        """The browser's own: a text that is saved already is undone in its cell, and saved again; inputs and outputs are found."""
        self.begin()
        for number in range(60):
            self.page.call("new", session="s", text=f"say needle{number}", after=number)
        self.page.call("eval_from", id=None)
        self.page.until_idle()
        tab = opened(self.browser, self.server)
        text, says = (f"document.querySelector('#cell-1 {place}" for place in ("textarea').value", ".text-state').textContent"))
        tab.click("#cell-1 .number")
        tab.key("Enter")
        tab.type(" more")
        tab.until(says, "saved")
        self.assertIn("> say needle0 more\n", self.show())
        tab.ask("Input.dispatchKeyEvent", {"type": "keyDown", "key": "z", "modifiers": 2, "commands": ["undo"]})
        tab.until(text, "say needle0")
        tab.until(says, "saved")
        self.assertIn("> say needle0\n", self.show())
        self.assertEqual(tab.value("[window.find('needle45'), document.activeElement.closest('.cell')?.id]"), [True, "cell-46"])


if __name__ == "__main__":
    unittest.main()
