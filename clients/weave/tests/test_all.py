"""All is evaluated again, by --all, as for code that reads a file which has changed."""
import os
import subprocess
import sys
import time

from .interpreter import value
from .support import INTERPRETER, Case, answers, command_words, environment, fences
from .test_kills import kill_weave
from .watcher import STAYS, Watching, in_place


class All(Case):
    def setUp(self) -> None:
        super().setUp()
        self.write("one", self.place("data"))
        self.blocks = [("a", "x"), ("b", f"file {self.place('data')}"), ("a {pure}", "p"), ("a", "y"), ("a {ends}", "die w"), ("a", "z")]
        self.whole = self.front("a", "b") + fences(self.blocks)

    def test_as_a_first_weave(self) -> None:
        """In order, by interpreters that start empty. The worksheet has the same fields as before."""
        woven = self.weave(self.whole)
        first, fields = self.logged("a"), [field["id"] for field in self.fields() if field["session"] != "tmhost-weave-ended"]
        self.logged("b")
        self.write("two", self.place("data"))
        self.assertEqual((self.run_weave(), self.logged("a"), self.logged("b")), ((0, "", ""), [], []))
        done = self.run_weave("--all", self.text)
        self.assertEqual((done.status, done.errors), (0, f"{self.text}: a: 4 evaluated again\n{self.text}: b: 1 evaluated again\n{self.text}: a {{pure}}: 1 evaluated again\n"))
        self.assertEqual((self.logged("a"), self.logged("b"), self.read()), (first, [f"file {self.place('data')}"], woven.replace("\none\n", "\ntwo\n")))
        self.assertEqual([field["id"] for field in self.fields() if field["session"] != "tmhost-weave-ended"], fields)
        self.assertEqual((self.run_weave("--check", self.text), self.logged("a")), ((0, "", ""), []))

    def test_where_there_is_no_worksheet(self) -> None:
        self.write(self.whole)
        self.assertEqual((self.run_weave("--all", self.text).status, self.run_weave(), len(self.logged("a"))), (0, (0, "", ""), 5))

    def test_words_that_are_refused(self) -> None:
        self.write(self.whole)
        for word in ("--check", "--test"):
            self.assertEqual((self.run_weave("--all", word, self.text).status, self.logged("a")), (2, []))

    def test_one_that_is_killed(self) -> None:
        """The next weave goes on from there: what was evaluated again stays."""
        self.weave(self.front("a") + fences([("a", "x"), ("a", "y"), ("a", "z")]))
        self.logged("a")
        with subprocess.Popen(command_words("--all", self.text), env=environment(TMHOST_SLEEP="1"), stderr=subprocess.DEVNULL) as weave:
            while weave.poll() is None and (not os.path.exists(self.place("a.log")) or "y" not in self.read(self.place("a.log"))):
                time.sleep(0.02)
            kill_weave(weave.pid)
        self.assertEqual([field["state"] for field in self.fields()], ["answered", "empty", "empty"])
        self.assertEqual(self.run_weave(), (0, "", f"{self.text}: a: 1 kept, 2 evaluated, 1 replayed\n"))
        self.assertEqual(answers(self.read()), [value(["x"]), value(["x", "y"]), value(["x", "y", "z"])])

    def test_what_a_replay_says(self) -> None:
        """That the kept answers aren't those of now, and what makes all again."""
        self.weave(self.front(a=[sys.executable, INTERPRETER, self.place("a.log")]) + fences([("a", f"file {self.place('data')}"), ("a", "x")]))
        self.write("two", self.place("data"))
        self.write(self.read().replace("\nx\n", "\ny\n"))
        self.assertEqual(self.run_weave().errors.split("\n")[1], f"{self.text}: a: 1 kept answers aren't those of the replay; --all evaluates all again")


class Watched(Watching):
    def test_the_first_weave(self) -> None:
        """It evaluates all again, and those after it what a save changes."""
        self.weave(self.front("a") + fences([("a", "x"), ("a", "y")]))
        self.logged("a")
        with self.watching("--all", self.text):
            self.until_said(STAYS)
            self.assertEqual(self.logged("a"), ["x", "y"])
            in_place(self.text, self.read() + fences([("a", "z")]))
            self.until_answers(3)
        self.assertEqual(self.logged("a"), ["z"])
