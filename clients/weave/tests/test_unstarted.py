"""What stands in a text of a session whose interpreter never starts: its answers stay, and are taken for nothing else."""
import os
import sys
from typing import List, Optional

from .support import INTERPRETER, Case, Outcome, answers, fences
from .watcher import STAYS, Watching, in_place

BLOCKS = [("a", "x\ny"), ("b", "1"), ("a {hide}", "z"), ("a", "quiet"), ("a {fold}", "both v|w"), ("a {pure}", "p"), ("a", "error e|f")]


class Unstarted(Case):
    def setUp(self) -> None:
        super().setUp()
        self.begins = f"{self.text}: "

    def front_of(self, words: Optional[List[str]] = None) -> str:
        return self.front("a", "b", **{"a": words} if words else {})

    def woven_once(self) -> str:
        """A woven text, without its worksheet."""
        woven = self.weave(self.front_of() + fences(BLOCKS))
        self.forget()
        return woven

    def forget(self) -> None:
        for path in (self.sheet, self.sheet + ".alt"):
            os.remove(path)

    def with_words(self, woven: str, *words: str) -> str:
        return woven.replace(self.front_of(), self.front_of(list(words)))

    def said(self, done: Outcome) -> List[str]:
        return [line[len(self.begins) :] for line in done.errors.split("\n")[:-1]]

    def test_a_program_that_is_not_there(self) -> None:
        """All stays in each byte, and the other session is woven. Nothing of it is in the worksheet; when the program is there, all is evaluated."""
        woven = self.woven_once()
        self.logged("a")
        none = self.with_words(woven, self.place("none")).replace("\n1\n", "\n2\n")
        self.write(none)
        done = self.run_weave()
        self.assertEqual(done.status, 1)
        self.assertIn("a: 6 answers are left as they stand", self.said(done))
        self.assertEqual(self.said(done)[0], f"a: there is no program {self.place('none')}")
        now = self.read()
        self.assertEqual(now.replace(answers(now)[2], "B", 1), none.replace(answers(none)[2], "B", 1))
        self.assertNotEqual(answers(now)[2], answers(none)[2])
        self.assertEqual([field["session"] for field in self.fields() if field["state"] == "answered"], ["b"])
        self.assertEqual(self.run_weave("--check", self.text).status, 1)
        self.assertEqual(self.weave(now.replace(self.front_of([self.place("none")]), self.front_of())), woven.replace("\n1\n", "\n2\n").replace(answers(woven)[2], answers(now)[2], 1))
        self.assertEqual(len(self.logged("a")), 7)

    def test_one_that_ends_at_its_start(self) -> None:
        woven = self.woven_once()
        for words in (["sh", "-c", "exit"], ["false"]):
            text = self.with_words(woven, *words)
            self.write(text)
            done = self.run_weave()
            self.assertEqual((done.status, self.read()), (1, text))
            self.assertIn("a: 6 answers are left as they stand", self.said(done))
            self.forget()

    def test_one_that_never_greets(self) -> None:
        woven = self.woven_once()
        text = self.with_words(woven, "sleep", "100")
        self.write(text)
        done = self.run_weave("--seconds", "2", self.text)
        self.assertEqual((done.status, self.read()), (1, text))
        self.assertIn("a: 6 answers are left as they stand", self.said(done))

    def test_code_that_was_changed(self) -> None:
        """What the worksheet has is shown, and what stands after changed code stays, too."""
        link = self.place("python")
        text = self.front(a=[link, INTERPRETER, self.place("a.log")]) + fences([("a", "x"), ("a", "y"), ("a", "z")])
        os.symlink(sys.executable, link)
        woven = self.weave(text)
        os.remove(link)
        changed = woven.replace("\ny\n", "\nother\n").replace(answers(woven)[0], "mine")
        self.write(changed)
        done = self.run_weave()
        self.assertEqual((done.status, self.read()), (1, changed.replace("mine", answers(woven)[0])))
        self.assertEqual(self.said(done)[-1], "a: 2 answers are left as they stand")
        self.assertEqual([field["state"] for field in self.fields()], ["answered", "empty", "empty"])
        os.symlink(sys.executable, link)
        again = self.weave(self.read())
        self.assertEqual(answers(again)[0], answers(woven)[0])
        self.assertEqual(len(set(answers(again) + answers(woven))), 5)

    def test_where_none_stands(self) -> None:
        """There the reason stands, as also in place of such a one."""
        text = self.front(a=[self.place("none")]) + fences([("a", "x"), ("a", "y")])
        first = self.weave(text, 1)
        self.assertEqual(first.count("```tmhost-no-answer\n"), 2)
        self.assertEqual(self.weave(first, 1), first)

    def test_code_that_ends_its_interpreter_and_one_that_takes_long(self) -> None:
        """These have been started, so the reason takes the place of an answer."""
        for code, words in (("die", ("--longest=99",)), ("stuck", ("--seconds=3",))):
            woven = self.weave(self.front("a") + fences([("a", "x"), ("a", "y")]))
            self.forget()
            self.write(woven.replace("\ny\n", f"\n{code}\n"))
            done = self.run_weave(*words, self.text)
            self.assertEqual((done.status, answers(self.read()), self.read().count("tmhost-no-answer")), (1, answers(woven)[:1], 1))
            self.assertNotIn("left", done.errors)
            self.forget()

    def test_pictures_and_places(self) -> None:
        """A picture that the text still names stays, and lines are those of the text as it stands then. Spaces that nobody writes stay, too."""
        svg = "<svg xmlns=\"http://www.w3.org/2000/svg\"/>"
        woven = self.weave(self.front_of() + fences([("a", f"picture t|image/svg+xml|{svg}"), ("b", "1"), ("a", "y")]))
        self.forget()
        pictures = os.listdir(self.place("text.pictures"))
        text = self.with_words(woven, self.place("none")).replace("```\n\n```tmhost-answer", "```\n\n\n```tmhost-answer", 1)
        self.write(text)
        done = self.run_weave()
        self.assertEqual((done.status, self.read(), os.listdir(self.place("text.pictures"))), (1, text, pictures))
        self.assertIn(f"line {text.split(chr(10)).index('y') + 1}", self.said(done)[-2])
        self.assertEqual(self.said(done)[-1], "a: 3 answers are left as they stand")

    def test_of_a_test_and_a_page(self) -> None:
        woven = self.woven_once()
        self.write(self.with_words(woven, self.place("none")))
        done = self.run_weave("--test", self.text)
        self.assertEqual((done.status, done.output), (1, ""))
        self.assertEqual(self.said(done)[-1], "a: 6 answers are not compared")
        page = self.place("page.html")
        done = self.run_weave("--html", page, self.text)
        self.assertEqual((done.status, os.path.exists(page)), (1, False))


class Watched(Watching):
    def test_a_slip_in_the_front_matter(self) -> None:
        """The answers stay while it is there, and are evaluated again without it."""
        self.write(self.front("a") + fences([("a", "x"), ("a", "y")]))
        with self.watching():
            self.until_said(STAYS)
            woven = self.read()
            self.logged("a")
            slip = woven.replace(self.front("a"), self.front(a=[self.place("pyhton")]))
            in_place(self.text, slip)
            self.until_said(f"{self.text}: a: 2 answers are left as they stand\n")
            self.assertEqual((self.read(), self.logged("a")), (slip, []))
            in_place(self.text, woven)
            self.until_said("a: 2 evaluated", 2)
            self.assertEqual((self.read(), self.logged("a")), (woven, ["x", "y"]))
