"""An hour of a teacher, by keys as a user presses them: the 66 cells of `lesson.py` are typed, evaluated, changed, and looked at in light, dark, narrow and on
paper. TMHOST_PICTURES names a folder for pictures of it. It is left out where gp, Maxima or what Python needs isn't here."""

import base64
import contextlib
import os
import re
import shutil
import subprocess
import time
import unittest
from typing import Any, Dict, List, Optional

import chromium
from harness import AS_SHOWN, IN_TEXT, Page, PageCase, needs_chromium, needs_program, opened
from lesson import ERROR, LESSON, NOTHING, PICTURE

PICTURES = os.environ.get("TMHOST_PICTURES", "")
MODULES = "import matplotlib, sympy"
LACKS = [name for name in ("gp", "maxima", "gnuplot") if not shutil.which(name)]
if subprocess.run(["/usr/bin/env", "python3", "-c", MODULES], capture_output=True).returncode:
    LACKS.append("matplotlib or sympy of python3")
SUGGESTS = "[...document.querySelectorAll('#session-known button')].find((one) => one.textContent === '%s').click()"
INDENT = "((text) => /^ *$/.test(text) ? text.length : -1)(document.activeElement.value.slice(0, document.activeElement.selectionStart).split('\\n').at(-1))"
IDLE = "document.querySelectorAll('.cell:is([data-state=queued], [data-state=running], [data-state=asked])').length"
SAVED = "[...document.querySelectorAll('.cell')].filter((one) => one.dataset.text !== 'saved').length"
TEXTS = "[...document.querySelectorAll('.cell textarea')].map((one) => one.value)"
# Of each cell: what it says, its formulas, whether it is an error, its pictures that are drawn, its state in words.
ANSWERS = """
[...document.querySelectorAll(".cell")].map((cell) => {
  const output = cell.querySelector(".output"), formulas = [...output.querySelectorAll("[data-tex]")].map((one) => one.dataset.tex).join(" ");
  const drawn = [...output.querySelectorAll(".picture img")].filter((one) => one.complete && one.naturalWidth > 9).length;
  return {text: (cell.querySelector(".reading") ?? output.querySelector("pre")).textContent + formulas, isError: output.classList.contains("failed"), drawn,
    state: cell.querySelector(".answer-state").textContent, took: cell.querySelector(".took").textContent};
})
"""
UNSET = "[...document.querySelectorAll('.formula:not(.set)')].map((one) => one.dataset.tex)"
PRINTED = re.compile(r"\{image/[^:{}]*:(?:[^{}]|\{[^{}]*\})*\}")  # a style sheet in it has braces
NOTE = "document.querySelector('#note').textContent"
LINES = "document.documentElement.scrollWidth <= innerWidth"


@needs_program
@needs_chromium
@unittest.skipIf(bool(LACKS), f"there is no {', '.join(LACKS)}")
class Hour(PageCase):
    def setUp(self) -> None:
        super().setUp()
        self.server = self.serve()
        self.page, self.browser = Page(self.server), self.browse()
        self.tab = opened(self.browser, self.server)

    def make_sessions(self) -> None:
        for name in ("gp", "maxima", "python"):
            self.tab.click("[data-do=askSession]")
            self.tab.until("document.activeElement.id", "session-name")
            self.tab.value(SUGGESTS % name)
            self.tab.key("Enter")
            self.tab.until(f"document.querySelector('#sessions li[data-session={name}]') !== null")

    # ---- as a user types

    def write(self, text: str) -> None:
        """Types lines, whose indentation is put right by Tab and Shift-Tab where Enter hasn't made it as it is wanted."""
        for number, line in enumerate(text.split("\n")):
            if number:
                self.tab.key("Enter")
                wanted = len(line) - len(line.lstrip(" ")) if line.strip() else self.tab.value(INDENT)
                while (there := self.tab.value(INDENT)) != wanted:
                    self.assertEqual((there - wanted) % 4, 0, (line, there))
                    self.tab.key("Tab", *(["Shift"] if there > wanted else []))
            self.tab.type(line.lstrip(" ") if number else line)

    def begin_cell(self, session: Optional[str], id: int, is_next: bool) -> None:
        """The cell that Alt-Enter has made below the one before, or one by the buttons at the end."""
        if not is_next:
            if session is not None:
                self.tab.value(f"document.querySelector('#which').value = '{session}'")
            self.press("[data-do=addProse]" if session is None else "[data-do=addCell]", id)
        self.tab.until(IN_TEXT, f"cell-{id}")

    def press(self, button: str, id: int) -> None:
        """A button below the cells moves while answers come above it: a click beside it is made again."""
        while self.tab.value("document.querySelectorAll('.cell').length") < id:
            self.tab.click(button)
            with contextlib.suppress(chromium.Failed):
                self.tab.until(f"document.querySelectorAll('.cell').length >= {id}", seconds=10)

    def type_lesson(self) -> None:
        before: Any = "none"
        for id, (session, text, _) in enumerate(LESSON, 1):
            self.begin_cell(session, id, session is not None and session == before)
            self.write(text)
            following = LESSON[id][0] if id < len(LESSON) else None
            self.tab.key("Escape" if session is None else "Enter", *([] if session is None else ["Alt"] if following == session else ["Control"]))
            before = session
            if id == 1:  # a first session would make a first cell
                self.make_sessions()
        self.settle()

    def settle(self) -> None:
        self.tab.until(IDLE, 0, 300)
        self.tab.until(SAVED, 0)

    # ---- what is there

    def check_answers(self) -> None:
        wrong = []
        self.tab.until(UNSET, [])
        for (session, text, wanted), found in zip(LESSON, self.tab.value(ANSWERS)):
            if wanted == ERROR:
                is_so = found["isError"]
            elif wanted == PICTURE:
                is_so = found["drawn"] == 1
            elif wanted == NOTHING:
                is_so = found["state"] == "evaluated: it has no output"
            else:
                is_so = wanted in found["text"] and (wanted == "ZeroDivisionError") == found["isError"]
            if not is_so or (session is not None and not re.match(r"answer \d+, [\d.]+ s$", found["took"])):
                wrong.append((text, wanted, found))
        self.assertEqual(wrong, [], "\n".join(map(str, wrong)))

    def compare(self) -> None:
        """The page is what the file has."""
        end = time.monotonic() + 60
        while without_pictures(self.tab.value(AS_SHOWN)) != without_pictures(self.show()):
            if time.monotonic() > end:
                self.assertEqual(without_pictures(self.tab.value(AS_SHOWN)), without_pictures(self.show()))
            time.sleep(0.2)

    # ---- what is done with it

    def complete(self) -> None:
        """Completions in each of three sessions, and help."""
        for id, typed, whole in ((2, "primep", "primepi"), (26, "integrate_use_root", "integrate_use_rootsof"), (44, "math.fact", "math.factorial")):
            self.tab.click(f"#cell-{id} .number")
            self.tab.key("b")
            self.tab.until("document.querySelector('.cell.selected').id", lambda found: bool(found != f"cell-{id}"))
            self.tab.key("Enter")
            self.tab.type(typed)
            self.tab.key("Tab")
            self.tab.until("document.activeElement.value", whole)
            self.tab.key("Escape")
            self.tab.twice("d")
            self.tab.until(f"{TEXTS}.length", len(LESSON))
        self.tab.click("#cell-60 .number")
        self.tab.key("Enter")
        self.tab.value("document.activeElement.setSelectionRange(8, 8)")
        self.tab.key("Tab", "Shift")
        self.tab.until("document.querySelector('.help')?.textContent ?? ''", lambda found: "Greatest Common Divisor" in str(found))
        self.tab.key("Escape")
        self.tab.key("Escape")

    def change(self) -> None:
        """Cuts, pastes, splits, merges, renames and takes it all back, and evaluates what is stale by then."""
        before = self.tab.value(TEXTS)
        self.tab.click("#cell-3 .number")
        self.tab.key("ArrowDown", "Shift")
        self.tab.key("x")
        self.tab.until(f"{TEXTS}.length", len(LESSON) - 2)
        self.tab.key("End")
        self.tab.key("v")
        self.tab.until(f"{TEXTS}.slice(-2)", ["factor(2^64 + 1)", "isprime(2^61 - 1)"])
        for count in (len(LESSON) - 2, len(LESSON)):
            self.tab.key("z")
            self.tab.until(f"{TEXTS}.length", count)
        self.tab.click("#cell-54 .number")
        self.tab.key("Enter")
        self.tab.value("document.activeElement.setSelectionRange(document.activeElement.value.indexOf('\\n', 20) + 1, document.activeElement.value.indexOf('\\n', 20) + 1)")
        self.tab.key("-", "Control", "Shift")
        self.tab.until(f"{TEXTS}.length", len(LESSON) + 1)
        self.tab.key("Escape")
        self.tab.key("z")
        self.tab.until(TEXTS, before)
        self.tab.key("f")
        self.tab.until("document.activeElement.id", "find-text")
        self.tab.type("pi_(")
        self.tab.value("document.querySelector('#find-other').value = 'count('")
        self.tab.click("[data-do=replaceAll]")
        self.tab.until(NOTE, lambda found: "replaced" in str(found))
        self.tab.key("Escape")
        self.assertEqual(self.tab.value(TEXTS), [text.replace("pi_(", "count(") for text in before])
        self.assertEqual(self.tab.value("document.querySelectorAll('.cell.chosen').length"), 0)
        self.tab.click("[data-do=evaluateStale]")
        self.tab.until("document.querySelectorAll('.cell:not(.prose) .output.old').length", 0)
        self.settle()

    def look(self) -> None:
        """Pictures of it; and nothing is wider than its page, where formulas and tables are, too."""
        for name, width, scheme, media in (("light", 1000, "light", ""), ("dark", 1000, "dark", ""), ("narrow", 360, "light", ""), ("paper", 700, "light", "print")):
            self.tab.ask("Emulation.setEmulatedMedia", {"media": media, "features": [{"name": "prefers-color-scheme", "value": scheme}]})
            self.tab.size(width, 900)
            self.tab.value("scrollTo(0, 0)")
            for place in range(12):
                self.tab.value(f"scrollTo(0, {place * 800}), new Promise((done) => requestAnimationFrame(() => setTimeout(done, 100)))")
                self.assertTrue(self.tab.value(LINES), name)
                self.keep(f"{name}{place:02}.png", self.tab.ask("Page.captureScreenshot", {"format": "png"})["data"])
        self.assertLess(self.head(360), 180)
        self.tab.size(1000, 800)
        self.tab.ask("Emulation.setEmulatedMedia", {"media": ""})
        data = self.tab.ask("Page.printToPDF", {"printBackground": True})["data"]
        self.keep("print.pdf", data)
        self.assertIn(base64.b64decode(data).count(b"/Type /Page\n"), range(4, 40))

    def head(self, width: int) -> float:
        """How high the head is that stays in view."""
        self.tab.ask("Emulation.setEmulatedMedia", {"media": ""})
        self.tab.size(width, 740)
        height: float = self.tab.value("document.querySelector('#bar').getBoundingClientRect().height")
        return height

    def keep(self, name: str, data: str) -> None:
        if PICTURES:
            with open(os.path.join(PICTURES, name), "wb") as file:
                file.write(base64.b64decode(data))

    def listen(self) -> None:
        """Each cell has its name and its state in the accessibility tree, and errors say so."""
        tree = self.tab.ask("Accessibility.getFullAXTree")["nodes"]
        reported: Dict[str, str] = {node.get("name", {}).get("value", ""): node.get("description", {}).get("value", "") for node in tree if node.get("role", {}).get("value") == "group"}
        names = [f"Prose {id}" if session is None else f"Cell {id}, {session}" for id, (session, _, _) in enumerate(LESSON, 1)]
        cells: List[str] = [name for name in reported if re.match(r"(Prose|Cell) \d", name)]
        self.assertEqual(sorted(name for name in names if name.split(",")[0] not in ("Cell 3", "Cell 4")), sorted(name for name in cells if name in names))
        self.assertTrue(all("saved" in reported[name] for name in cells), reported)
        errors = [f"Cell {id}, {session}" for id, (session, _, wanted) in enumerate(LESSON, 1) if wanted in (ERROR, "ZeroDivisionError")]
        self.assertEqual([name for name in cells if "Error" in reported[name]], errors)

    def test_an_hour(self) -> None:
        begin = time.monotonic()
        self.type_lesson()
        self.assertEqual(self.tab.value(TEXTS), [text for _, text, _ in LESSON])
        self.check_answers()
        self.compare()
        self.complete()
        self.change()
        self.check_answers()
        self.compare()
        self.listen()
        self.look()
        self.assertEqual(self.browser.trouble, [])
        print(f" {len(LESSON)} cells, typed and looked at in {time.monotonic() - begin:.0f} s", end="")


def without_pictures(text: str) -> str:
    """`show` prints a picture by its bytes, and a page has a button beside it."""
    return PRINTED.sub("(a picture)", text).replace("Save", "(a picture)")


if __name__ == "__main__":
    unittest.main()
