"""Settings of knitr in code of R are left out, whether fences are whole or not."""
import sys
import unittest
from typing import List, Tuple

from .support import INTERPRETER, Case, fences
from tmhost_fences.fields import LINE_END
from tmhost_weave.knitr import groups_without, settings_in, uses_knitr

SETUP = "knitr::opts_chunk$set(\n  echo = TRUE, # (\n  comment = ')')\nlibrary(knitr)\n\nsay y"


class Settings(unittest.TestCase):
    def fields(self, code: str, is_whole: bool, keeps_library: bool = False) -> List[Tuple[int, str]]:
        lines = code.split("\n")
        return [(group.at, group.input.replace(LINE_END, "|")) for group in groups_without(lines, list(settings_in(lines, keeps_library)), is_whole)]

    def test_what_is_one(self) -> None:
        for code in (
            "knitr::opts_chunk$set(echo = TRUE)", "opts_chunk$set(a = c(1, 2)) # so", " knitr :: opts_knit $ set (\n)", "opts_knit$set(root.dir = ')');", "library(knitr)", 'library("knitr")', "require(knitr) # it",
        ):
            self.assertEqual((self.fields(code, False), self.fields(code, True)), ([], []), code)
        for code in (
            "knitr::opts_chunk$set(a = 1); y <- 5", "x <- opts_chunk$set(a = 1)", "knitr::opts_chunk$get('a')", "knitr::opts_chunk$set(a = 1)$b", "opts_chunk$set(", "library(knitrs)", "library(knitr); y", "knitr::kable(y)", "opts_chunk$set",
        ):
            self.assertEqual((self.fields(code, False), self.fields(code, True)), ([(0, code)], [(0, code)]), code)

    def test_what_is_left(self) -> None:
        self.assertEqual(self.fields(SETUP + "\nz", False), [(5, "say y"), (6, "z")])
        self.assertEqual(self.fields(SETUP + "\n\nlibrary(knitr)\nz", True), [(5, "say y||z")])
        self.assertEqual(self.fields(SETUP, True, True), [(3, "library(knitr)||say y")])

    def test_code_that_needs_knitr(self) -> None:
        self.assertTrue(uses_knitr([["y"], ["kable(", "y)"]]))
        for line in ("knitr::kable(y)", "my.kable(y)", "'kable(y)'", "# kable(y)", "kable"):
            self.assertFalse(uses_knitr([[line]]), line)


class Woven(Case):
    def test_a_text(self) -> None:
        """What is left out is said, once of each kind, and of another language it is code."""
        front = self.front(r=[sys.executable, INTERPRETER, self.place("r.log"), "tmhost-R"])
        blocks = [("{r setup, include=FALSE}", SETUP), ("{r}", "say x\nlibrary(knitr)")]
        said = f"{self.text}: settings of knitr, which change nothing here, are left out: knitr::opts_chunk$set (line 8), library(knitr) (line 11)\n"
        for more in ("", "fences: whole\n"):
            woven = self.weave(front[: -len("---\n")] + more + "---\n" + fences(blocks))
            self.assertEqual([field["input"] for field in self.fields()], ["say y", "say x"])
            done = self.run_weave(self.text)
            self.assertEqual((done.status, done.errors), (0, said if not more else said.replace("8", "9").replace("11", "12")))
            self.assertEqual((self.read(), woven.count("tmhost-answer"), self.run_weave("--check", self.text).status), (woven, 1, 0))
        self.write(self.front("r") + fences([("r", "library(knitr)")]))
        self.assertNotIn("knitr", self.run_weave(self.text).errors)
