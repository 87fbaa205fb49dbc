"""A session of a user, as a script in a real browser. After each action the page must show what is expected of it, and the worksheet's file
must be what the page shows, in the words of `tmhost show`."""

import time
import unittest
from typing import Any, Callable, List

import chromium
import harness
from harness import AS_SHOWN, HOLDS, SPOKEN, Case, needs_chromium, needs_program, opened

STATE = "document.querySelector('#cell-%d').dataset.state"
OUTPUT = "document.querySelector('#cell-%d .output pre').textContent"
SAYS = "document.querySelector('#cell-%d .answer-state').textContent"
SAVED = "document.querySelector('#cell-%d .text-state').textContent"
PROMPT = "document.querySelector('#cell-%d .prompt').textContent"
TEXT = "document.querySelector('#cell-%d textarea').value"
SELECTED = "document.querySelector('.cell.selected')?.id"
ORDER = "[...document.querySelectorAll('.cell')].map((cell) => Number(cell.id.slice(5)))"
CHOOSES = """
(() => {
  const which = document.querySelector(".toolbar select");
  which.value = "%s";
  which.dispatchEvent(new Event("change", { bubbles: true }));
})()
"""
PAGE = "document.body.innerText + [...document.querySelectorAll('textarea')].map((text) => text.value).join('\\n')"
NOTE = "document.querySelector('#note').textContent"
IS_IN_PROSE = "document.activeElement.matches('.cell.prose textarea')"
IS_EDITING = "document.activeElement.tagName === 'TEXTAREA' && document.activeElement.closest('.cell').id"


def begins(text: str) -> Callable[[Any], bool]:
    return lambda found: isinstance(found, str) and found.startswith(text)


def is_there(found: Any) -> bool:
    return bool(found)


@needs_program
@needs_chromium
class Session(Case):
    def setUp(self) -> None:
        super().setUp()
        self.server = self.serve()
        self.browser = self.browse()
        self.tab = opened(self.browser, self.server)
        self.actions: List[str] = []

    def do(self, name: str, action: Callable[[], Any], *expected: Any) -> None:
        """An action, and pairs of what the page must come to and its value; and the file must be what the page shows."""
        action()
        self.actions.append(name)
        try:
            for expression, wanted in zip(expected[::2], expected[1::2]):
                self.tab.until(expression, wanted)
            self.compare()
        except (chromium.Failed, AssertionError) as error:
            self.fail(f"action {len(self.actions)}, {name}: {error}\n{self.browser.trouble}\n{self.tab.value(PAGE)}")

    def compare(self) -> None:
        """The page may be later than the file, or the file later than what is typed, for a moment."""
        end = time.monotonic() + 120
        while True:
            page, file = self.tab.value(AS_SHOWN), self.show()
            if page == file:
                return
            if time.monotonic() > end:
                self.assertEqual(page, file)
            time.sleep(0.1)

    def keys(self, *names: str) -> None:
        for name in names:
            *modifiers, key = name.split("+")
            self.tab.key(key, *modifiers)

    def typed(self, text: str, *keys: str) -> None:
        self.tab.type(text)
        self.keys(*keys)

    def at(self, id: int, *keys: str) -> None:
        self.tab.click(f"#cell-{id} .number")
        self.keys(*keys)

    def rewrite(self, id: int, text: str, *keys: str) -> None:
        self.at(id)
        self.replace(text, *keys)

    def make_session(self, name: str, words: str, has_tab: bool = False) -> None:
        self.tab.click("[data-do=askSession]")
        self.tab.until("document.querySelector('#session-dialog').open")
        self.tab.click("#session-name")
        self.tab.type(name)
        self.tab.click("#session-words")
        self.tab.type(words)
        if has_tab:
            self.tab.click("#session-tab")
        self.keys("Enter")

    def replace(self, text: str, *keys: str) -> None:
        """Edits the selected cell by keys, from command mode."""
        self.keys("Enter")
        self.tab.until(IS_EDITING, is_there)
        self.keys("Control+a")
        self.tab.ask("Input.dispatchKeyEvent", {"type": "keyDown", "commands": ["selectAll"]})
        self.typed(text, *keys)

    def test_a_session(self) -> None:
        self.begin()
        self.arrange_cells()
        self.run_long_lines()
        self.write_prose()
        self.use_two_tabs()
        self.kill_the_server()
        self.go_on()
        print(f" {len(self.actions)} actions", end="")
        self.assertGreaterEqual(len(self.actions), 60)
        # After a kill the browser tells of connections that were refused.
        self.assertEqual([one for one in self.browser.trouble if "ERR_CONNECTION" not in one and "ERR_INCOMPLETE" not in one], [])

    def begin(self) -> None:
        self.do("make a session", lambda: self.make_session("a", SPOKEN, True), ORDER, [1], IS_EDITING, "cell-1")
        self.do("type", lambda: self.typed("say hello"), SAVED % 1, "saved", TEXT % 1, "say hello")
        self.do("evaluate", lambda: self.keys("Control+Enter"), STATE % 1, "answered", OUTPUT % 1, "hello")
        self.do("new cell below", lambda: self.keys("b"), ORDER, [1, 2], SELECTED, "cell-2")
        self.do("edit, evaluate and go on", lambda: self.replace("set 7", "Shift+Enter"), OUTPUT % 2, "kept", ORDER, [1, 2, 3], IS_EDITING, "cell-3")
        self.do("several lines", lambda: self.typed("say one\ntwo", "Control+Enter"), OUTPUT % 3, "one\ntwo")
        self.do("edit it", lambda: self.replace("get", "Control+s"), SAVED % 3, "saved", SAYS % 3, "stale: an earlier answer, no longer in the file")
        self.do("evaluate and insert", lambda: self.keys("Alt+Enter"), OUTPUT % 3, "7", ORDER, [1, 2, 3, 4], IS_EDITING, "cell-4")
        self.do("a second session", lambda: self.make_session("b", SPOKEN), "document.querySelectorAll('#sessions li').length", 2)
        self.do("another session for a cell", lambda: self.change(4, "b"), ORDER, [1, 2, 3, 5], SELECTED, "cell-5")

    def change(self, id: int, session: str) -> None:
        self.tab.click(f"#cell-{id} .number")
        self.tab.until(SELECTED, f"cell-{id}")
        self.tab.value(CHOOSES % session)

    def arrange_cells(self) -> None:
        self.do("write in it", lambda: self.replace("get", "Control+Enter"), OUTPUT % 5, "nothing")
        self.do("move up", lambda: self.keys("Alt+ArrowUp"), ORDER, [1, 2, 5, 3], SELECTED, "cell-5")
        self.do("move up again", lambda: self.keys("Alt+ArrowUp"), ORDER, [1, 5, 2, 3])
        self.do("to the front", lambda: self.keys("Alt+ArrowUp"), ORDER, [5, 1, 2, 3])
        self.do("no further", lambda: self.keys("Alt+ArrowUp"), ORDER, [5, 1, 2, 3], SELECTED, "cell-5")
        self.do("down by its button", lambda: self.tab.click("[data-do=moveDown]"), ORDER, [1, 5, 2, 3])
        self.do("the cell below", lambda: self.at(5, "ArrowDown"), SELECTED, "cell-2")
        self.do("the one above", lambda: self.keys("k"), SELECTED, "cell-5")
        self.do("new cell above", lambda: self.keys("a"), ORDER, [1, 6, 5, 2, 3], SELECTED, "cell-6")
        self.do("remove it", lambda: self.tab.twice("d"), ORDER, [1, 5, 2, 3], SELECTED, "cell-5")
        self.do("remove another", lambda: self.tab.twice("d"), ORDER, [1, 2, 3], SELECTED, "cell-2")
        self.do("bring it back", lambda: self.keys("z"), ORDER, [1, 7, 2, 3], TEXT % 7, "get", SELECTED, "cell-7")
        self.do("bring back one of the list", self.restore_first, ORDER, lambda order: len(order) == 5, SELECTED, "cell-8")
        self.do("evaluate what came back", lambda: self.at(7, "Control+Enter"), STATE % 7, "answered", OUTPUT % 7, "nothing")
        self.do("take its answer away", lambda: self.tab.click("[data-do=clear]"), STATE % 7, "empty", OUTPUT % 7, "")

    def restore_first(self) -> None:
        self.tab.click("[data-do=showRemoved]")
        self.tab.click("#removed-list button")

    def run_long_lines(self) -> None:
        self.do("edit a cell above", lambda: self.rewrite(2, "set 8", "Escape"), SAVED % 2, "saved",
                SAYS % 3, "stale: a cell above it was changed since")
        self.do("evaluate from here on", lambda: self.tab.click("[data-do=evaluateFrom]"), OUTPUT % 2, "kept", OUTPUT % 3, "8", SAYS % 3, "")
        self.do("a long line", lambda: self.replace("sleep 60", "Control+Enter"), SAYS % 2, begins("running since "))
        self.do("one after it", lambda: self.at(3, "Control+Enter"), SAYS % 3, "waits for its turn")
        self.do("interrupt", lambda: self.interrupt(lambda: self.at(2, "i", "i")), OUTPUT % 2, "interrupted", OUTPUT % 3, "8")
        self.do("a loop again", lambda: self.keys("Control+Enter"), STATE % 2, "running")
        self.do("stop it", lambda: self.tab.click("[data-do=stop]"), SAYS % 2, "lost: Stopped (its interpreter was stopped)",
                SAYS % 3, "stale: a cell above it was changed since")
        self.do("a line without an end", lambda: self.replace("slowly 60", "Control+Enter"), STATE % 2, "running")
        self.do("interrupt one that ends by it",
                lambda: self.interrupt(lambda: self.tab.click("[data-session=a] [data-do=interruptSession]")), SAYS % 2,
                "lost: Ended (its interpreter ended)")
        self.do("write a line that ends it", lambda: self.replace("exit", "Control+s"), SAVED % 2, "saved", STATE % 2, "empty")
        self.do("evaluate that", lambda: self.keys("Control+Enter"), SAYS % 2, "lost: Ended (its interpreter ended)")
        self.do("mend it", lambda: self.replace("set 9", "Control+Enter"), OUTPUT % 2, "kept")
        self.do("restart and evaluate its session", lambda: self.keys("0", "0"), OUTPUT % 3, "9", PROMPT % 3, "3> ", SAYS % 3, "")
        self.do("evaluate all", lambda: self.tab.click("[data-do=evaluateAll]"), OUTPUT % 7, "nothing", PROMPT % 1, "4> ", PROMPT % 3, "6> ")
        self.do("restart and evaluate all", lambda: self.tab.click("[data-do=restartAll]"), PROMPT % 1, "1> ", PROMPT % 8, "1> ",
            PROMPT % 7, "2> ", PROMPT % 2, "2> ", PROMPT % 3, "3> ")
        self.do("complete the one", self.complete_one, TEXT % 3, "say beta")
        self.do("complete of three", self.complete_of_three, TEXT % 3, "say cave")
        self.do("evaluate what was completed", lambda: self.keys("Control+Enter"), OUTPUT % 3, "cave")
        self.do("a formula, and its text", self.set_formula, OUTPUT % 3, "{latex:$\\sqrt{x}$}")

    def interrupt(self, press: Callable[[], Any]) -> None:
        """A signal may come before the interpreter has begun with the line. As a user does, it is sent again where nothing comes of it."""
        for _ in range(10):
            press()
            try:
                self.tab.until(STATE % 2, lambda state: bool(state != "running"), chromium.SLOW / 24)
                return
            except chromium.Failed:
                pass

    def set_formula(self) -> None:
        self.replace("block latex JFxzcXJ0e3h9JA==", "Control+Enter")
        self.tab.until("document.querySelector('#cell-3 .formula.set math msqrt') !== null")
        self.keys("t")

    def complete_one(self) -> None:
        self.tab.click("#cell-3 .number")
        self.replace("say be", "Tab")

    def complete_of_three(self) -> None:
        self.keys("Escape")
        self.replace("say ca", "Tab")
        self.tab.until("document.querySelectorAll('.completions li').length", 3)
        self.keys("ArrowDown", "Enter")

    def write_prose(self) -> None:
        self.do("new prose", lambda: self.tab.click("[data-do=addProse]"), "document.querySelectorAll('.cell.prose').length", 1,
                IS_IN_PROSE, True)
        prose = self.tab.value("document.querySelector('.cell.prose').id")
        reading = f"document.querySelector('#{prose} .reading')"
        self.do("write it", lambda: self.typed("# A *title*\n\n- one\n- <b>two</b>\n", "Control+Enter"),
            f"{reading}.querySelector('h3 em')?.textContent", "title",
                f"{reading}.querySelectorAll('li').length", 2, f"{reading}.querySelector('b')", None, SELECTED, prose)
        self.do("to the front", lambda: self.keys(*["Alt+ArrowUp"] * 5), ORDER + "[0]", int(prose[5:]))
        self.do("evaluate all but it", lambda: self.tab.click("[data-do=evaluateAll]"), STATE % int(prose[5:]), "empty")
        self.do("make it a cell", lambda: self.at(int(prose[5:]), "y"), "document.querySelectorAll('.cell.prose').length", 0)
        self.do("and prose again", lambda: self.keys("m"), "document.querySelectorAll('.cell.prose').length", 1)

    def use_two_tabs(self) -> None:
        self.do("reload", self.reload, harness.READY, "true", ORDER + ".length", lambda count: count >= 6)
        first, second = self.tab, opened(self.browser, self.server, in_window=True)
        self.assertEqual([first.value('document.hidden'), second.value('document.hidden')], [False, False])
        self.do("edit in the first", lambda: self.rewrite(1, "say one", "Escape"), SAVED % 1, "saved")
        self.assertEqual(second.until(TEXT % 1, "say one"), "say one")
        self.tab = second
        self.do("evaluate in the second", lambda: self.at(1, "Control+Enter"), OUTPUT % 1, "one")
        self.assertEqual(first.until(OUTPUT % 1, "one"), "one")
        self.assertEqual(first.value(AS_SHOWN), second.value(AS_SHOWN))
        self.do("type the same cell in both", lambda: self.conflict(first, second), SAVED % 1, "saved", TEXT % 1, "say theirs")
        first.until(SAVED % 1, "not saved: it was changed elsewhere")
        self.tab = first
        self.do("keep the text of the first", lambda: first.click("#cell-1 [data-do=keepMine]"), SAVED % 1, "saved", TEXT % 1, "say mine")
        second.until(TEXT % 1, "say mine")
        second.close()

    def conflict(self, first: chromium.Tab, second: chromium.Tab) -> None:
        """Both pages have another text before either is saved: the first one's server doesn't hear of it until the second one's is saved."""
        first.click("#cell-1 .number")
        keep = self.tab
        self.tab = first
        first.value(HOLDS)
        self.replace("say mine", "Escape")
        first.until(SAVED % 1, "saving")
        self.tab = keep
        second.click("#cell-1 .number")
        self.replace("say theirs", "Escape")
        second.until(SAVED % 1, "saved")
        first.value("window.go()")

    def reload(self) -> None:
        self.tab.reload()

    def kill_the_server(self) -> None:
        self.tab.click("#cell-1 .number")
        self.do("a text before the kill", lambda: self.replace("say before", "Escape"), SAVED % 1, "saved")
        self.do("a line that goes on", lambda: self.rewrite(2, "sleep 60", "Control+Enter"), STATE % 2, "running")
        expected = self.tab.value(AS_SHOWN)
        self.server.kill()
        self.actions.append("kill -9 the server")
        self.tab.until("document.querySelector('#connection').classList.contains('bad')")
        self.tab.click("#cell-1 .number")
        self.replace("say after", "Escape")
        self.tab.until(SAVED % 1, begins("not saved"))
        self.assertEqual(self.show(), expected)
        self.server = self.serve()
        self.do("start it again, which the page finds", lambda: None, SAVED % 1, "saved", TEXT % 1, "say after")
        before, self.tab = self.tab, opened(self.browser, self.server)
        before.close()
        self.do("open it again", lambda: None, TEXT % 1, "say after", ORDER + ".length", lambda count: count >= 6)

    def go_on(self) -> None:
        self.do("answers of an earlier process", lambda: None, SAYS % 3, is_there)
        self.do("evaluate again", lambda: self.at(1, "Control+Enter"), OUTPUT % 1, "after")
        self.do("a session that can't start", lambda: self.make_session("c", "/nothing/there"), "document.querySelectorAll('#sessions li').length", 3,
                "document.querySelector('#which').value", "c")
        self.do("a cell of it", self.cell_of_c, NOTE, begins("session c can't be started: there is no program /nothing/there. Its words are: /nothing/there"),
                "document.querySelector('.cell:last-child').dataset.state", "empty")
        self.do("remove it", lambda: self.tab.twice("d"), NOTE, "")

    def cell_of_c(self) -> None:
        self.tab.click("[data-do=addCell]")
        self.tab.until(IS_EDITING, is_there)
        self.typed("x", "Control+Enter")



if __name__ == "__main__":
    unittest.main()
