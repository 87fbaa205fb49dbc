"""Texts as they are written: colours, brackets, comments, indentation, numbers of lines; find and replace, folds, contents, help, and what is read out."""

import base64
import glob
import json
import os
import shutil
import subprocess
import sys
import unittest
from typing import List, Tuple

import chromium
from harness import IN_TEXT, PROGRAM, READY, REPOSITORY, SPOKEN, Page, SharedCase, needs_chromium, needs_program

TEXTS = "[...document.querySelectorAll('.cell textarea')].map((text) => text.value)"
PIECES = "[...document.querySelectorAll('#cell-%d .layer [class^=t-]')].map((one) => `${one.className.slice(2)} ${one.textContent}`)"
TOKENS = """
import(location.href + "languages.js").then(({ tokensOf, languageOf, bracketsAt }) => CASES.map(([words, text]) => {
  const name = words === "prose" ? words : languageOf(words);
  return tokensOf(name, text).map(({ kind, start, end }) => `${kind} ${text.slice(start, end)}`);
}))
"""
# Words of sessions, texts, and their tokens.
LANGUAGES: List[Tuple[str, str, List[str]]] = [
    ("/a/adapters/gp --no-numbers", 'if(x > 1.5, /* no "*/ f(y)) \\\\ 1\n"a\\"b"',
     ["keyword if", "bracket (", "number 1.5", 'comment /* no "*/', "call f", "bracket (", "bracket )", "bracket )", "comment \\\\ 1", 'string "a\\"b"']),
    ("tmhost-python", "def f(x):\n    '''a\n# b'''\n    return rb'c' # d\n@e", ["keyword def", "call f", "bracket (", "bracket )", "string '''a\n# b'''",
     "keyword return", "string rb'c'", "comment # d", "keyword @e"]),
    ("python3 /a/prompted.py maxima --latex", "block([a], /* x */ sin(%pi), 2)$", ["keyword block", "bracket (", "bracket [", "bracket ]", "comment /* x */",
     "call sin", "bracket (", "bracket )", "number 2", "bracket )"]),
    ("/a/prompted.py R", "f <- function(x) 'a # b' # TRUE\nNULL", ["keyword function", "bracket (", "bracket )", "string 'a # b'", "comment # TRUE", "keyword NULL"]),
    ("/a/prompted.py octave", "a = b' + [1 2]'; s = 'it''s'; % c", ["bracket [", "number 1", "number 2", "bracket ]", "string 'it''s'", "comment % c"]),
    ("/a/jupyter ir", "if (a) 1", ["keyword if", "bracket (", "bracket )", "number 1"]),
    ("tmhost-lua", "for i = 1, #t do -- it's\n  f('a') end --[[ x\ny ]] [[\n(]]", ["keyword for", "number 1", "keyword do", "comment -- it's", "call f", "bracket (", "string 'a'", "bracket )", "keyword end", "comment --[[ x\ny ]]", "string [[\n(]]"]),
    ("tmhost-node", "const x = f(`a\n${1}`) // 'b", ["keyword const", "call f", "bracket (", "string `a\n${1}`", "bracket )", "comment // 'b"]),
    ("tmhost-sqlite3", "SELECT 'it''s' from t -- x", ["keyword SELECT", "string 'it'", "string 's'", "keyword from", "comment -- x"]),
    ("tmhost-guile", '(define x "a") ; (b', ["bracket (", "keyword define", 'string "a"', "bracket )", "comment ; (b"]),
    ("prose", "# Head\n\n- a *b* **c** `d` $x_1$ [e](f)\n```\n# g\n```", ["heading # Head", "mark -", "emphasis *b*", "strong **c**", "code `d`",
     "formula $x_1$", "link [e](f)", "code ```\n# g\n```"]),
    ("python3 /a/spoken.py", 'def "a" (1)', ['string "a"', "bracket (", "number 1", "bracket )"]),
]
# The place of each letter of the text area, as its own mirror has it, is that of the layer: both have the same lines.
SAME_LINES = """
[...document.querySelectorAll('.painted')].filter((line) => /[^\\n]$/.test(line.querySelector('textarea').value)).flatMap((line) => {
  const [text, layer] = [line.querySelector('textarea'), line.querySelector('.layer')];
  const range = document.createRange();
  range.selectNodeContents(layer);
  const [one, other] = [text.getBoundingClientRect(), layer.getBoundingClientRect()];
  const [style, own] = [getComputedStyle(text), getComputedStyle(layer)];
  const others = ["fontFamily", "fontSize", "lineHeight", "letterSpacing", "wordSpacing", "tabSize", "paddingLeft", "direction"].filter((name) => style[name] !== own[name]);
  const height = text.scrollHeight - range.getBoundingClientRect().height;
  return [...(one.x === other.x && one.width === other.width && one.y === other.y ? [] : ["place"]), ...(Math.abs(height) < 10 ? [] : [height]), ...others];
})
"""
NOTE = "document.querySelector('#note').textContent"
NEWS = "document.querySelector('#news').textContent"
HELP = "document.querySelector('.help')?.textContent ?? ''"
SHOWN = "[...document.querySelectorAll('.cell')].filter((cell) => cell.getBoundingClientRect().height).map((cell) => cell.id)"
CURSOR = "document.activeElement.setSelectionRange(%d, %d)"
GP_WORDS = "/nowhere/gp"  # of a session that is never started


class Written(SharedCase):
    def start(self, *texts: str, words: str = GP_WORDS) -> chromium.Tab:
        self.begin()
        self.page.call("session", name="g", words=words, tab=False)
        for after, text in enumerate(texts):
            self.page.call("new", session=None if text.startswith("#") else "g", text=text, after=after)
        return self.open()

    def edit(self, tab: chromium.Tab, id: int, start: int = 0, end: int = -1) -> None:
        tab.click(f"#cell-{id} .number")
        tab.key("Enter")
        tab.value(CURSOR % (start, start if end < 0 else end))


@needs_program
@needs_chromium
class Colours(Written):
    def test_languages(self) -> None:
        tab = self.start("x")
        found = tab.value(TOKENS.replace("CASES", json.dumps([[words, text] for words, text, _ in LANGUAGES])))
        for (words, _, wanted), one in zip(LANGUAGES, found):
            with self.subTest(words=words):
                self.assertEqual(one, wanted)

    def test_the_layer(self) -> None:
        """It has the text's letters in its lines, as they are typed; brackets that belong together are marked."""
        long = "f(x) = sum(k = 1, " + "x^k + " * 60 + "0);"
        tab = self.start("f(x) = if(x, \"(\");", long, "\n\na\n\n", "")
        tab.until(PIECES % 1, ["call f", "bracket (", "bracket )", "keyword if", "bracket (", 'string "("', "bracket )"])
        self.assertEqual(tab.value("[...document.querySelectorAll('.layer')].map((one) => one.textContent)"), tab.value(TEXTS))
        for width in (1000, 360):
            tab.size(width, 700)
            self.assertEqual(tab.value(SAME_LINES), [], width)
        self.edit(tab, 1, 17, 17)
        tab.until("[...document.querySelectorAll('.pair')].map((one) => one.textContent)", ["(", ")"])
        tab.type(")")
        tab.until("[...document.querySelectorAll('.alone')].map((one) => one.textContent)", [")"])
        tab.value(CURSOR % (0, 0))
        tab.until("document.querySelectorAll('.alone, .pair').length", 0)
        self.assertEqual(tab.value("document.querySelector('#cell-1 .layer').textContent"), "f(x) = if(x, \"(\"));")
        self.assertEqual(tab.value("getComputedStyle(document.querySelector('#cell-1 textarea')).webkitTextFillColor"), "rgba(0, 0, 0, 0)")
        self.assertEqual(self.browser.trouble, [])

    def test_comments_and_lines(self) -> None:
        """Control-/ makes comments and takes them back; Enter goes deeper after what opens; L shows numbers of lines, over a reload too."""
        tab = self.start("a\n  b\n\nc")
        self.edit(tab, 1, 0, 8)
        tab.key("/", "Control")
        tab.until(TEXTS, ["\\\\ a\n\\\\   b\n\n\\\\ c"])
        tab.key("/", "Control")
        tab.until(TEXTS, ["a\n  b\n\nc"])
        tab.value(CURSOR % (8, 8))
        tab.type(" = {")
        tab.key("Enter")
        tab.type("x")
        tab.until(TEXTS, ["a\n  b\n\nc = {\n    x"])
        tab.key("Enter")
        tab.key("Enter")
        tab.until(TEXTS, ["a\n  b\n\nc = {\n    x\n\n    "])
        tab.key("Escape")
        tab.key("l")
        numbers = "getComputedStyle(document.querySelector('#cell-1 .line:nth-child(5)'), '::before').content"
        tab.until(numbers, 'counter(line)')
        tab.until("document.querySelector('#cell-1 .text-state').textContent", "saved")
        tab.reload()
        tab.until(f"{READY} && {numbers}", 'counter(line)')
        tab.key("l")
        tab.until(numbers, "none")

    def test_cells_that_are_not_seen(self) -> None:
        """They have no parts till they are wanted; what is reported of them, found, copied and read out is theirs all the same."""
        self.begin()
        self.server.stop()
        lines = [f"session s tab {SPOKEN}", *(f"new {number} s say {number}{' needle' if number == 950 else ''}" for number in range(1_000))]
        self.sheet += "2"
        subprocess.run([PROGRAM or "", "create", self.sheet], check=True, stdout=subprocess.DEVNULL)
        subprocess.run([PROGRAM or "", "run", self.sheet], input="\n".join(lines).encode() + b"\n", check=True, stdout=subprocess.DEVNULL)
        self.server = self.serve()
        self.page = Page(self.server)
        tab = self.browser.open("about:blank")
        self.addCleanup(tab.close)
        tab.ask("Page.addScriptToEvaluateOnNewDocument", {"source": "window.requestIdleCallback = (does) => { window.idle = does; return 1 }"})
        tab.ask("Page.navigate", {"url": self.server.address})
        tab.until(READY, "true")
        empty = "document.querySelectorAll('.cell:empty').length"
        self.assertEqual(tab.value(empty), 800)
        reported = "((cell) => [cell.ariaLabel, cell.getAttribute('aria-description'), cell.dataset.text, cell.dataset.state])(document.querySelector('#cell-900'))"
        self.assertEqual(tab.value(reported), ["Cell 900, s", "saved", "saved", "empty"])
        self.page.call("set", id=900, text="say other", base="say 899")
        self.page.call("eval", id=900)
        tab.until(reported, ["Cell 900, s", "saved", "saved", "answered"])
        self.assertEqual(tab.value(empty), 800)
        tab.value("document.querySelector('#cell-900').scrollIntoView()")
        tab.until("['textarea', '.output pre'].map((name) => document.querySelector(`#cell-900 ${name}`)?.[name === 'textarea' ? 'value' : 'textContent'])", ["say other", "other"])
        tab.click("#cell-900 .number")
        tab.key("f")
        tab.until("document.activeElement.id", "find-text")
        tab.type("needle")
        tab.until("document.querySelector('.cell.selected').id", "cell-951")
        tab.key("Escape")
        tab.key("a", "Control")
        tab.key("c")
        tab.until("JSON.parse(localStorage.getItem('tmhost-cells') ?? '[]').length", 1_000)
        self.assertGreater(tab.value(empty), 600)
        tab.value("window.idle({timeRemaining: () => 50})")
        self.assertEqual(tab.value(empty), 0)
        self.fold_unseen(tab)
        self.assertEqual(self.browser.trouble, [])

    def fold_unseen(self, tab: chromium.Tab) -> None:
        """What is folded of a cell that isn't seen stands after its parts, when it has them."""
        tab.click("#cell-900 .number")
        tab.key("O", "Shift")
        tab.until("document.querySelector('#cell-900 > .unfold')?.textContent", "1 line folded")
        tab.reload()
        tab.until(f"{READY} && [...document.querySelector('#cell-900').children].map((one) => one.className)", ["unfold"])
        tab.value("document.querySelector('#cell-900').scrollIntoView()")
        tab.until("[...document.querySelector('#cell-900').children].map((one) => one.className.split(' ')[0])", ["", "input", "output", "unfold"])
        self.assertEqual(tab.value("document.querySelector('#cell-900 textarea').value"), "say other")

    def test_many_cells(self) -> None:
        """Of 10,000 cells those that are seen have colours, and a key is seen as soon as in few."""
        self.begin()
        lines = [f"session g plain {GP_WORDS}", *(f"new {number} g f(x) = sum(k = 1, 10, x^k) + {number}" for number in range(10_000))]
        self.server.stop()
        subprocess.run([PROGRAM or "", "run", self.sheet], input="\n".join(lines).encode() + b"\n", check=True, stdout=subprocess.DEVNULL)
        self.server = self.serve()
        tab = self.open()
        tab.until("document.querySelectorAll('#cell-1 .layer .t-call').length", 2)
        self.assertLess(tab.value("document.querySelectorAll('.layer').length"), 200)
        tab.value("document.querySelector('#cell-5000').scrollIntoView()")
        tab.until("document.querySelectorAll('#cell-5000 .layer .t-call').length", 2)
        tab.click("#cell-5000 .number")
        tab.key("Enter")
        times = tab.value(KEYS)
        print(f" a key takes the page {sorted(times)[len(times) // 2]:.1f} ms at 10,000 cells", end="")
        self.assertLess(sorted(times)[len(times) // 2], 50)


# What is done at the event of a key, without the browser's own layout.
KEYS = """
new Promise((done) => {
  const text = document.activeElement, times = [];
  const next = () => {
    if (times.length === 20) return done(times);
    const start = performance.now();
    text.setRangeText("x", text.value.length, text.value.length, "end");
    text.dispatchEvent(new Event("input", { bubbles: true }));
    times.push(performance.now() - start);
    requestAnimationFrame(next);
  };
  next();
})
"""


@needs_program
@needs_chromium
class Finding(Written):
    def test_find_and_replace(self) -> None:
        tab = self.start("alpha = beta", "# A beta", "beta + Beta\nbeta")
        count = "document.querySelector('#find-count').textContent"
        tab.click("#cell-1 .number")
        tab.key("f")
        tab.until("document.activeElement.id", "find-text")
        tab.type("beta")
        tab.until(count, "1 of 5")
        self.assertEqual(tab.value("[...document.querySelectorAll('.t-now, .t-found')].map((one) => one.textContent)"), ["beta", "beta", "beta", "Beta", "beta"])
        tab.key("Enter")
        tab.key("Enter")
        tab.until(count, "3 of 5")
        self.assertEqual(tab.value("[document.querySelector('.t-now').closest('.cell').id, document.activeElement.id]"), ["cell-3", "find-text"])
        tab.click("#find-case")
        tab.until(count, "3 of 4")
        tab.value("document.querySelector('#find-other').value = 'gamma'")
        tab.click("[data-do=replace]")
        tab.until(TEXTS, ["alpha = beta", "# A beta", "gamma + Beta\nbeta"])
        tab.until(count, "3 of 3")
        tab.click("#find-form")
        tab.value("(() => { const [one, other] = [document.querySelector('#find-text'), document.querySelector('#find-other')]; one.value = 'b(e)ta'; "
            "other.value = '$1$&'; one.dispatchEvent(new Event('input', {bubbles: true})) })()")
        tab.click("[data-do=replaceAll]")
        tab.until(TEXTS, ["alpha = ebeta", "# A ebeta", "gamma + Beta\nebeta"])
        tab.until(NOTE, "3 replaced; Z takes it back")
        self.assertIn("> alpha = ebeta\n", self.show())
        tab.key("Escape")
        tab.until("document.querySelector('#find').hidden")
        tab.key("z")
        tab.until(TEXTS, ["alpha = beta", "# A beta", "gamma + Beta\nbeta"])
        self.assertEqual(tab.value("document.querySelectorAll('.t-now, .t-found').length"), 0)
        self.assertEqual(self.browser.trouble, [])

    def test_folds_and_contents(self) -> None:
        """A section, an answer and a text are folded, over a reload too; arrows go over what is folded; contents lead to headings."""
        tab = self.start("# One\n\ntext", "a\nb", "## Two", "c", "# Three", "d")
        self.page.call("session", name="t", words=SPOKEN, tab=False)
        self.page.call("eval", id=self.page.call("new", session="t", text="say 1", after=6)["id"])
        tab.until("document.querySelector('#cell-7 .output pre')?.textContent", "1")
        tab.click("#cell-1 .number, #cell-1 .reading")
        tab.key("o")
        tab.until(SHOWN, ["cell-1", "cell-5", "cell-6", "cell-7"])
        tab.key("ArrowDown")
        self.assertEqual(tab.value("document.querySelector('.cell.selected').id"), "cell-5")
        tab.click("#cell-7 .number")
        tab.key("o")
        tab.key("O", "Shift")
        says = "[...document.querySelectorAll('.unfold')].map((one) => one.textContent)"
        tab.until(says, ["3 cells folded", "1 line folded, answer folded"])
        tab.reload()
        tab.until(f"{READY} && {SHOWN}", ["cell-1", "cell-5", "cell-6", "cell-7"])
        tab.until(says, ["3 cells folded", "1 line folded, answer folded"])
        self.assertEqual(tab.value("document.querySelector('#cell-7 .output').getBoundingClientRect().height"), 0)
        tab.click("#cell-7 .unfold")
        tab.click("#cell-1 .unfold")
        tab.until(f"{SHOWN}.length", 7)
        tab.click("[data-do=showContents]")
        contents = "[...document.querySelectorAll('#contents-list li')].map((one) => `${one.style.marginInlineStart} ${one.textContent}`)"
        tab.until(contents, ["0em One", "1em Two", "0em Three"])
        tab.click("#contents-list li:nth-child(3) button")
        tab.until("[document.querySelector('.cell.selected').id, document.querySelector('#contents-dialog').open]", ["cell-5", False])


@needs_program
@needs_chromium
class Said(Written):
    def test_news(self) -> None:
        """An answer is read out when it comes, of many their number; a cell says its state."""
        tab = self.start()
        for after, text in enumerate(("say hello", "exit", *["say x"] * 5)):
            self.page.call("new", session="s", text=text, after=after)
        tab.until("document.querySelectorAll('.cell').length", 7)
        tab.click("#cell-1 .number")
        tab.key("Enter", "Control")
        tab.until(NEWS, "Cell 1 has its answer: hello")
        self.page.call("eval", id=2)
        tab.until(NEWS, lambda found: "Cell 2 is lost: Ended" in str(found))
        for id in range(3, 8):
            self.page.call("eval", id=id)
        tab.until(NEWS, lambda found: "answers" in str(found) or "Cell 7 has its answer" in str(found))
        tree = tab.ask("Accessibility.getFullAXTree")["nodes"]
        reported = {node.get("name", {}).get("value"): node.get("description", {}).get("value", "") for node in tree}
        self.assertIn("saved", reported["Cell 2, s"])
        self.assertIn("lost: Ended", reported["Cell 2, s"])

    def test_formulas_on_paper(self) -> None:
        """One that is wider than a page is set smaller; what is too wide for that says that it is cut."""
        self.begin()
        for after, count in enumerate((3, 30, 300)):
            tex = "$\\begin{pmatrix}" + " & ".join(["x"] * count) + "\\end{pmatrix}$"
            self.page.call("eval", id=self.page.call("new", session="s", text=f"block latex {base64.b64encode(tex.encode()).decode()}", after=after)["id"])
        self.page.until_idle()
        tab = self.open()
        tab.until("document.querySelectorAll('.formula.set').length", 3)
        tab.value("dispatchEvent(new Event('beforeprint'))")
        found = tab.value("[...document.querySelectorAll('.formula')].map((one) => [parseFloat(one.style.fontSize), one.classList.contains('is-cut')])")
        self.assertEqual((found[0], found[2]), ([None, False], [50, True]))
        self.assertTrue(50 < found[1][0] < 100 and not found[1][1], found)
        tab.value("dispatchEvent(new Event('afterprint'))")
        self.assertEqual(tab.value("document.querySelectorAll('.formula[style*=font], .is-cut').length"), 0)

    def test_help(self) -> None:
        """Shift-Tab asks an interpreter of its own of the word at the cursor: nothing of the session is changed, nor of the worksheet."""
        tab = self.start("import json\njson.dumps(1)", words=f"{sys.executable} {os.path.join(REPOSITORY, 'adapters', 'python')}")
        before = self.show()
        self.edit(tab, 1, 23)
        tab.key("Tab", "Shift")
        tab.until(HELP, lambda found: "Serialize ``obj`` to a JSON formatted" in str(found))
        self.assertEqual((tab.value(IN_TEXT), tab.value(TEXTS)), ("cell-1", ["import json\njson.dumps(1)"]))
        self.assertEqual((self.show(), [one["runs"] for one in self.page.snapshot()["sessions"]]), (before, [False, False]))
        tab.key("Escape")
        self.assertEqual((tab.value(HELP), tab.value(IN_TEXT)), ("", "cell-1"))
        self.page.call("new", session="s", text="say x", after=1)
        tab.until(f"{TEXTS}.length", 2)
        self.edit(tab, 2, 5)
        tab.key("Tab", "Shift")
        tab.until(HELP, "no help on x: this interpreter has no help that is known here")
        tab.type("y")
        tab.until(HELP, "")

    def test_help_of_interpreters(self) -> None:
        """What each says of one of its functions."""
        self.begin()
        for name, words, language, word, wanted in (
            ("gp", "gp", "gp", "factor", "factorization"), ("maxima", "prompted.py maxima", "maxima", "integrate", "Function: integrate"),
            ("R", "prompted.py R", "r", "mean", "Arithmetic Mean"), ("octave", "prompted.py octave", "octave", "fix", "Truncate fractional"),
        ):
            if not shutil.which(name) or (name == "maxima" and not glob.glob("/usr/share/info/maxima*")):
                print(f" {name} or its manual isn't here", end="")
                continue
            with self.subTest(name=name):
                self.page.call("session", name=name, words=f"{sys.executable} {os.path.join(REPOSITORY, 'adapters')}/{words}", tab=False)
                id = self.page.call("new", session=name, text="", after=0)["id"]
                reported = self.page.call("help", id=id, language=language, word=word)
                self.assertIn(wanted, reported["output"]["text"] if "output" in reported else reported)
                self.assertEqual(self.page.call("help", id=id, language=language, word="a); 1")["refused"], "NoHelp")


if __name__ == "__main__":
    unittest.main()
