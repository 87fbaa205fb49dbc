"""Fences, words and options that are most likely a misspelling: each is said with its line, and the status is 1. The rest is woven."""
import os
import unittest
from typing import List, Tuple

from .interpreter import value
from .support import Case, answers, fences

from tmhost_fences.meant import session_meant

NONE = "no session is called {}, so this fence isn't evaluated: is {} meant? (As text it is `{}`)"


class Sessions(unittest.TestCase):
    def test_which_session_is_meant(self) -> None:
        sessions = {
            "py": ("tmhost-python",), "gp": ("tmhost-gp", "--no-numbers"), "r": ("tmhost-R",), "shell": ("env", "A=1", "tmhost-sh"), "js": ("tmhost-node",),
            "ju": ("tmhost-jupyter", "--text", "julia-1.10"), "maxima": ("sh", "mine.sh"), "pari": ("adapters/gp",), "text1": ("mine",),
        }
        for name, meant in (
            ("python", "py"), ("Python", "py"), ("python3", "py"), ("ipython", "py"), ("pyhton", "py"), ("pythn", "py"), ("PY", "py"), ("R", "r"), ("sh", "shell"),
            ("bash", "shell"), ("tmhost-gp", "gp"), ("tmhost-pg", "gp"), ("tmhost-pyhton", "py"), ("tmhost-bash", "shell"), ("javascript", "js"), ("julia", "ju"), ("jula", "ju"), ("gpp", "gp"), ("maxma", "maxima"), ("shll", "shell"),
            ("json", None), ("text", None), ("c", None), ("go", None), ("", None), ("sage", None), ("jsx", None), ("latex", None), ("tmhost-answer", None), ("tmhost-error", None), ("tmhost-no-answer", None), ("tmhost-lua", None), ("tmhost-mine", None),
        ):
            self.assertEqual(session_meant(name, sessions), meant, name)
        for name in ("python", "json", "sh", "text", "mine", "test"):
            self.assertIsNone(session_meant(name, {"a": ("python3", "mine.py")}), name)


class Meant(Case):
    def said(self, text: str) -> Tuple[int, List[str], str]:
        """The status, what is said of the text, and how it is woven."""
        self.write(text)
        done = self.run_weave()
        return done.status, [line.split(": ", 1)[1] for line in done.errors.split("\n")[:-1]], self.read()

    def sessions(self) -> str:
        return self.front("a", py=["tmhost-python"])

    def test_a_misspelt_program(self) -> None:
        status, said, _ = self.said(self.front(gp=["tmhost-pg"]) + fences([("gp", "x")]))
        self.assertEqual((status, said[0]), (1, "gp: there is no program tmhost-pg: is tmhost-gp meant?"))
        status, said, woven = self.said(self.front(gp=["gp -q"]) + fences([("gp", "x")]))
        self.assertEqual((status, said), (1, ["the session gp has a word with a space, 'gp -q': write [gp, -q]"]))

    def test_a_plain_fence_of_an_rmd(self) -> None:
        """As the page's table "From knitr" says: a session's name counts, and no ending of the file."""
        for name in ("text.Rmd", "text.md"):
            self.text, self.sheet = self.place(name), self.place("text.sheet")
            given = fences([("python", "x"), ("{python}", "y"), ("python {literal}", "z")])
            status, said, woven = self.said(self.front("python") + given)
            self.assertEqual((status, said, self.logged("python")), (0, ["python: 2 evaluated"], ["x", "y"]), name)
            self.assertIn("```python\nx\n```\n\n```tmhost-answer\n", woven)
            os.unlink(self.sheet)
            given = self.sessions() + fences([("a", "x"), ("python", "x")])
            line = given.split("\n").index("```python") + 1
            status, said, woven = self.said(given)
            self.assertEqual((status, said[0], len(answers(woven))), (1, f"line {line}: {NONE.format('python', 'py', 'python {literal}')}", 1))
            os.unlink(self.sheet)
            self.assertEqual(self.said(self.front("a") + fences([("a", "x"), ("python", "x")]))[:2], (0, ["a: 1 evaluated"]))
            os.unlink(self.sheet)

    def test_fences_near_to_sessions(self) -> None:
        """With --check and --test, too. What says that it is text is text, and so is another language."""
        blocks = [("a", "x"), ("python", "1"), ("pyhton {hide}", "2"), ("{.Python}", "3"), ("{python plot, echo=FALSE}", "4"), ("aa", "5"), ("a1a", "y")]
        silent = [("json", "{}"), ("text", "t"), ("sh", "ls"), ("c", "x"), ("python {literal}", "1"), ("{.python .literal}", "1"), ("python {eval=FALSE}", "1")]
        text = self.sessions() + fences(blocks + silent)
        status, said, woven = self.said(text)
        lines = [text[: text.index(f"```{info}")].count("\n") + 1 for info, _ in blocks]
        self.assertEqual(said, [
            f"line {lines[1]}: " + NONE.format("python", "py", "python {literal}"),
            f"line {lines[2]}: " + NONE.format("pyhton", "py", "pyhton {literal}"),
            f"line {lines[3]}: " + NONE.format("Python", "py", "Python {literal}"),
            f"line {lines[4]}: " + NONE.format("python", "py", "{python, eval=FALSE}"),
            "a: 1 evaluated",
        ])
        self.assertEqual((status, answers(woven)), (1, [value(["x"])]))
        for words in (["--check", self.text], ["--test", self.text]):
            done = self.run_weave(*words)
            self.assertEqual((done.status, done.output, done.errors.count(": is py meant?")), (1, "", 4))
        mended = text.replace("```pyhton {hide}", "```text").replace("```{.Python}", "```text").replace("```{python plot", "```{python plot, eval=FALSE").replace("```python\n", "```text\n")
        self.assertEqual(self.said(mended)[:2], (0, []))

    def test_sessions_of_which_nothing_is_evaluated(self) -> None:
        """It is a failure, but where each fence of theirs says that it is text."""
        status, said, woven = self.said(self.sessions() + "```python\n1\n```\n")
        self.assertEqual((status, len(said)), (1, 2))
        self.assertIn("no fence is of a session, so nothing is evaluated", said[1])
        for info in ("a {literal}", "a {eval=FALSE}", "{a, eval=FALSE}"):
            text = self.sessions() + f"```{info}\nx\n```\n"
            status, said, woven = self.said(text)
            self.assertEqual((status, woven, len(said)), (0, text, 1))
            self.assertIn("each fence of a session says that it is text, so nothing is evaluated", said[0])

    def test_words_of_a_fence(self) -> None:
        for info, why in (
            ("a hdie", "'hdie' changes nothing: is {hide} meant?"),
            ("a hide", "'hide' changes nothing without braces: {hide}"),
            ("a {.hdie}", "'hdie' changes nothing: is {hide} meant?"),
            ("{.a .fodl}", "'fodl' changes nothing: is {fold} meant?"),
            ("a litteral", "'litteral' changes nothing: is {literal} meant?"),
            ("a {eror=TRUE}", "the option 'eror' changes nothing: is error meant?"),
            ("{a, evall=FALSE}", "the option 'evall' changes nothing: is eval meant?"),
        ):
            with self.subTest(info):
                text = self.front("a") + fences([("a", "x"), (info, "y")])
                status, said, woven = self.said(text)
                line = text[: text.index(f"```{info}\n")].count("\n") + 1
                self.assertEqual((status, said), (1, [f"line {line}: {why}", "a: 2 evaluated"]))
                os.remove(self.sheet)
                self.assertEqual(answers(woven), [value(["x"]), value(["x", "y"])])
        for info in ("a {.numberLines}", 'a title="hid" {start=3}', "a lines", "{a hdie}", "{a hide, echo=TRUE}"):
            with self.subTest(info):
                self.assertEqual(self.said(self.front("a") + fences([(info, "x")]))[0], 0)

    def test_a_bare_word_in_braces(self) -> None:
        text = self.front("a") + "```a {hdie}\nx\n```\n"
        self.assertEqual(self.said(text), (1, [f"line 5: 'hdie' is none of the words that a fence can have: hide, fold, pure, whole, ends, literal: is hide meant?"], text))
