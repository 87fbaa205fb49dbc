"""Fences that are one field each by the front matter, figures that are shown too early, texts that are tested, and what is said while fields are evaluated."""
import contextlib
import io
import os
import sys
from unittest import mock

from .support import INTERPRETER, PROGRAM, Case, answers, fences
from tmhost_weave import evaluation
from tmhost_weave.weaving import Weave

SVG = '<svg xmlns="http://www.w3.org/2000/svg" width="9" height="9"></svg>'
DRAWS = f"picture |image/svg+xml|{SVG}"


class Whole(Case):
    def document(self, *codes: str, more: str = "", info: str = "p", adapter: str = "tmhost-python") -> str:
        """A text whose interpreter has the name of an adapter among its words."""
        front = self.front(p=[sys.executable, INTERPRETER, self.place("p.log"), adapter])
        return front[: -len("---\n")] + more + "---\n" + fences([(info, code) for code in codes])

    def test_each_fence_is_one_field(self) -> None:
        woven = self.weave(self.document("say 1\nx\n\ny", "say 2", more="fences: whole\n"))
        self.assertEqual([field["input"] for field in self.fields()], ["say 1\nx\n\ny", "say 2"])
        self.assertEqual(len(answers(woven)), 2)
        self.assertEqual(self.weave(woven), woven)
        self.assertEqual(self.run_weave("--check", self.text).status, 0)

    def test_two_words_with_a_comma(self) -> None:
        self.weave(self.document("say 1\nx", info="p {whole, hide}"))
        self.assertEqual([field["input"] for field in self.fields()], ["say 1\nx"])

    def test_a_figure_that_is_shown_too_early(self) -> None:
        said = "its figure is shown before the lines after it draw"
        self.write(self.document(DRAWS + "\nx\n" + DRAWS + "\ny", "say 1\n" + DRAWS, f"picture show()|image/svg+xml|{SVG}\nx"))
        done = self.run_weave(self.text)
        self.assertEqual((done.status, done.errors.count(said)), (0, 1), done.errors)
        self.assertIn("text.md: line 8: " + said, done.errors)
        self.write(self.document(DRAWS + "\nx", more="fences: whole\n"))
        self.assertNotIn(said, self.run_weave(self.text).errors)
        self.write(self.front("a") + fences([("a", DRAWS + "\nx")]))  # of another interpreter nothing is known of that
        self.assertNotIn(said, self.run_weave(self.text).errors)

    def test_a_figure_of_r_or_octave_that_is_shown_too_early(self) -> None:
        """Where a later line draws on it, as far as that is seen: R has no figure then, and Octave has another one."""
        hint = ": its figure is shown before the lines after it draw: {whole} at the fence, or `fences: whole` in the front matter, makes them one field"
        draws = DRAWS + "\\x20"  # since a line of R goes on after `>`
        without = "error |Error in plot.xy(xy) :\\n  plot.new wurde noch nicht aufgerufen"
        for adapter, codes, lines in (
            ("tmhost-R", [f"say 1\n{draws}\nsay 2\n{without}\n{without}", f"{draws}\nerror |other\n{draws}", f"{draws}\nx"], [9]),
            ("tmhost-octave", [f"{draws}\nsay 1\n{draws}\n{draws}", f"{draws}\n{without}", f"say 1\n{draws}"], [8]),
        ):
            for more in ("", "fences: whole\n"):
                self.write(self.document(*codes, more=more, adapter=adapter))
                said = [line for line in self.run_weave(self.text).errors.split("\n") if "figure" in line]
                self.assertEqual(said, [] if more else [f"{self.text}: line {line}{hint}" for line in lines])


class Tested(Case):
    def test_a_text(self) -> None:
        """All is evaluated again, and nothing is written."""
        text = self.front("a") + fences([("a", f"file {self.place('value')}"), ("a", DRAWS)])
        self.write("old\n", self.place("value"))
        woven = self.weave(text)
        self.logged("a")
        before = sorted(os.listdir(self.folder))
        done = self.run_weave("--test", self.text)
        self.assertEqual((done.status, done.output, done.errors), (0, "", ""))
        self.assertEqual(len(self.logged("a")), 2)
        self.write("new\n", self.place("value"))
        done = self.run_weave("--test", self.text)
        self.assertEqual(done.status, 1)
        self.assertEqual([line for line in done.output.split("\n") if line and line[0] in "+-"], [f"--- {self.text}", f"+++ {self.text}, evaluated now", "-old", "+new"])
        self.assertEqual((self.read(), self.logged("a") and sorted(os.listdir(self.folder))), (woven, before))
        for name in (self.sheet, self.sheet + ".alt"):
            os.unlink(name)
        self.write("old\n", self.place("value"))
        self.assertEqual(self.run_weave("--test", self.text).status, 0)
        picture = os.path.join(self.place("text.pictures"), os.listdir(self.place("text.pictures"))[0])
        os.unlink(picture)
        done = self.run_weave("--test", self.text)
        self.assertEqual((done.status, done.output), (1, f"{self.text}: the picture {os.path.basename(picture)} isn't there\n"))

    def test_what_has_no_answer(self) -> None:
        woven = self.weave(self.front("a") + fences([("a", "die")]), 1)
        done = self.run_weave("--test", self.text)
        self.assertEqual((done.status, done.output, self.read()), (1, "", woven))
        self.assertIn("a: no answer: its interpreter ended at this code", done.errors)

    def test_words_that_are_refused(self) -> None:
        self.write(self.front("a"))
        for words in (["--check"], ["--output", "-"]):
            self.assertEqual(self.run_weave("--test", *words, self.text).status, 2)


class Said(Case):
    def test_what_starts_no_interpreter(self) -> None:
        self.write(self.front(a=["tmhost-nothing"]) + fences([("a", "1")]))
        done = self.run_weave(self.text)
        self.assertEqual(done.status, 1)
        self.assertIn("text.md: a: there is no program tmhost-nothing\n", done.errors)
        self.write(self.front(a=["sh"]) + fences([("a", "true")]))
        self.assertIn("sh by itself has no blocks for its answers: the words tmhost-sh start it with an adapter\n", self.run_weave("--seconds", "1", self.text).errors)

    def test_a_field_that_takes_long(self) -> None:
        self.write(self.front("a") + fences([("a", "sleep 2")]))
        said = io.StringIO()
        with mock.patch.dict(os.environ, {"TMHOST": PROGRAM}), mock.patch.object(evaluation, "PATIENCE", 0.5), contextlib.redirect_stderr(said):
            self.assertTrue(Weave(self.text, None).weave(None))
        self.assertIn("line 8: a: no answer after 0.5 seconds, and it waits on (--seconds N ends a field)\n", said.getvalue())
