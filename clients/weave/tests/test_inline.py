"""Code within a paragraph: it isn't evaluated, and that is said once."""
import os
from typing import List

from .support import Case, fences

FENCE = fences([("py", "x")])


class InParagraphs(Case):
    def said(self, prose: str, *words: str, name: str = "text.md") -> List[str]:
        """What is said of a text with this prose after a fence that is answered already. The status is 0, and nothing changes."""
        path = self.place(name)
        self.write(self.front("py") + FENCE, path)
        self.run_weave(path)
        woven = self.read(path) + prose
        self.write(woven, path)
        self.first = self.read(path)[: -len(prose)].count("\n") + 1
        done = self.run_weave(*words, path)
        self.assertEqual((done.status, done.output, self.read(path)), (0, "", woven), done.errors)
        return [line.removeprefix(f"{path}: ") for line in done.errors.split("\n")[:-1]]

    def line(self, at: int, text: str, more: int = 0) -> List[str]:
        return [f"line {self.first + at}: code within a paragraph isn't evaluated: {text}" + (f" (and {more} more)" if more else "")]

    def test_what_looks_like_code(self) -> None:
        for code in ("r 1+1", "{r} 1+1", "{python} 2", "{julia} 3", "{py} 4"):
            self.assertEqual(self.said(f"Sum\nis `{code}`.\n"), self.line(1, code))
        for words in (["--check"], ["--test"]):
            self.assertEqual(self.said("`r 1+1`\n", *words), self.line(0, "r 1+1"))

    def test_where_it_stands(self) -> None:
        """In headings, lists, quotes and tables, after texts that go over lines. It is named once, with the first one."""
        prose = "One `a b\nc` and\n> * `not\n> this`, but [`r 1`](a\xe9.md)\n\n# Two `{python} 2`\n\n| a |\n|---|\n| ``r `3` `` |\n"
        self.assertEqual(self.said(prose), self.line(3, "r 1", 2))
        self.assertEqual(self.said("> `a\n> b` c `{py} 1`\n> `r 2`\n", name="text.Rmd"), self.line(1, "{py} 1", 1))
        self.assertEqual(self.said("`r " + "1+" * 40 + "1`\n"), self.line(0, "r " + "1+" * 19 + ".."))
        self.assertEqual(self.said("`r \x1b[1m`\n"), self.line(0, "r \\x1b[1m"))

    def test_what_is_text(self) -> None:
        """Other words in backquotes, code of fences and HTML, and what stands as an answer."""
        prose = "`r`, `rm x`, `py x.py`, `python x.py`, `{x} y`, `{{r}} 1`, `{r 1`, `r} 1`, `R 1`, \\`r 1`, `` `r 1` ``\n\n```\n`r 1`\n```\n\n    `r 1`\n\n<!-- `r 1` -->\n"
        self.assertEqual(self.said(prose), [])
        answer = "<!-- tmhost-answer -->\n$$`r 1`$$\n<!-- /tmhost-answer -->"
        self.write(self.front("py") + FENCE.rstrip("\n") + "\n\n" + answer + "\n")
        self.assertNotIn("within", self.run_weave("--check", self.text).errors)

    def test_other_bytes(self) -> None:
        path = self.text
        with open(path, "wb") as file:
            file.write((self.front("py") + FENCE).encode() + b"[\xff](\xff.md) `r 1`\n")
        done = self.run_weave()
        self.assertEqual((done.status, done.errors.count("\n"), os.path.exists(self.sheet)), (1, 3, True), done.errors)
        self.assertIn("code within a paragraph isn't evaluated: r 1\n", done.errors)
