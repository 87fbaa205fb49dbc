"""A weave that watches: what it evaluates after a save, what it says, and what it leaves to others."""
import contextlib
import io
import os
import re
import signal
import sys
import time
from unittest import mock

from .interpreter import value
from .support import INTERPRETER, PROGRAM, ROOT, answers, fences
from .watcher import STAYS, WAYS, Watching, by_rename, in_place
from tmhost_weave import files
from tmhost_weave.files import exchange
from tmhost_weave.weaving import Weave

FENCES = [("a", "x"), ("a", "y")]
BROKEN = "```a\nz\n"


class Saved(Watching):
    """The session `a` has an interpreter that logs its lines."""

    def setUp(self) -> None:
        super().setUp()
        self.front_a = self.front("a")
        self.write(self.front_a + fences(FENCES))

    def test_what_is_new_alone_is_evaluated(self) -> None:
        with self.watching():
            self.until_said(STAYS)
            self.assertEqual((answers(self.read()), self.logged("a")), ([value(["x"]), value(["x", "y"])], ["x", "y"]))
            in_place(self.text, self.read() + fences([("a", "z")]))
            woven = self.until_answers(3)
            self.assertEqual((answers(woven)[-1], self.logged("a")), (value(["x", "y", "z"]), ["z"]))
            in_place(self.text, woven.replace("\nz\n", "\nz\nlast\n"))  # the same fence, which has one line more
            woven = self.until_answers(4)
            self.assertEqual((answers(woven)[-1], self.logged("a")), (value(["x", "y", "z", "last"]), ["last"]))
        said = [f"{self.text}: a: {rest}\n" for rest in ("2 evaluated", "2 kept, 1 evaluated", "3 kept, 1 evaluated")]
        self.assertEqual(self.said(), said[0] + STAYS + "".join(said[1:]))
        self.assertEqual(self.run_weave("--check", self.text).status, 0)

    def test_what_was_evaluated_and_is_another(self) -> None:
        """A field that is changed, removed or moved has the session replayed: each answer is that of a weave from the start."""
        after = [["x2", "y"], ["x2"], ["x2", "y"], ["y", "x2"], ["y", "y"]]
        replayed = [["x2", "y"], [], ["x2", "y"], ["y", "x2"], ["y", "y"]]
        with self.watching():
            self.until_said(STAYS)
            self.logged("a")
            for lines, sent in zip(after, replayed):
                before = len(self.said())
                by_rename(self.text, self.front_a + fences([("a", line) for line in lines]))
                self.until(lambda: len(self.said()) > before and "tmhost-answer" in self.text_now(), "it is woven")
                self.assertEqual(answers(self.until_answers(len(lines))), [value(lines[: at + 1]) for at in range(len(lines))])
                self.assertEqual(self.logged("a"), sent)

    def test_the_front_matter(self) -> None:
        """Other words of a session have another interpreter, and that of the old ones ends."""
        with self.watching():
            self.until_said(STAYS)
            old = self.interpreters()
            front = self.front(a=[sys.executable, INTERPRETER, self.place("b.log")])
            by_rename(self.text, front + fences(FENCES))
            self.until_said("a: 2 evaluated", 2)
            self.assertEqual(self.logged("b"), ["x", "y"])
            self.until(lambda: not set(old) & set(self.interpreters()), "the first interpreter has ended")
            in_place(self.text, self.read() + fences([("a", "z")]))
            self.until_answers(3)
            self.assertEqual(self.logged("b"), ["z"])

    def test_pure_fences(self) -> None:
        self.write(self.front_a + fences([("a {pure}", "p"), ("a", "x")]))
        with self.watching():
            self.until_said(STAYS)
            self.until(lambda: len(self.interpreters()) == 1, "the interpreter of the pure fence has ended")
            in_place(self.text, self.read() + fences([("a {pure}", "q"), ("a", "y")]))
            self.assertEqual(answers(self.until_answers(4)), [value(["p"]), value(["x"]), value(["q"]), value(["x", "y"])])
            self.assertEqual(self.logged("a"), ["p", "x", "q", "y"])

    def test_the_ways_of_editors(self) -> None:
        lines = ["x", "y"]
        with self.watching():
            self.until_said(STAYS)
            for number, way in enumerate(WAYS):
                lines.append(f"line {number}")
                way(self.text, self.read() + fences([("a", lines[-1])]))
                self.assertEqual(answers(self.until_answers(len(lines)))[-1], value(lines), way)
        self.assertEqual(self.logged("a"), lines)

    def test_a_text_that_is_broken_for_a_moment(self) -> None:
        """It is said. The interpreters go on."""
        with self.watching():
            self.until_said(STAYS)
            whole = self.read()
            in_place(self.text, whole + BROKEN)
            self.until_said("isn't closed\n")
            self.assertEqual(self.read(), whole + BROKEN)
            in_place(self.text, whole + BROKEN + "```\n")
            self.assertEqual(answers(self.until_answers(3))[-1], value(["x", "y", "z"]))
            os.replace(self.text, self.place("elsewhere"))
            self.until_said("No such file or directory")
            os.replace(self.place("elsewhere"), self.text)
            self.until_said("nothing was to evaluate")
        self.assertEqual(self.logged("a"), ["x", "y", "z"])

    def test_an_unchanged_text_is_woven_again(self) -> None:
        """Its first field had no answer; it has one after what it wants is there, and the text is saved as it is."""
        self.write(self.front(a=[sys.executable, INTERPRETER, os.path.join(self.folder, "new", "log")]) + fences([("a", "x")]))
        with self.watching():
            self.until_said("no answer")
            self.until_said(STAYS)
            os.mkdir(self.place("new"))
            os.utime(self.text)
            self.until_answers(1)

    def test_others_have_the_text_and_not_the_worksheet(self) -> None:
        with self.watching():
            self.until_said(STAYS)
            done = self.run_weave("--check", self.text)
            self.assertEqual((done.status, "fault 35 InUse" in done.errors), (1, True))
        self.assertEqual(len(self.fields()), 2)
        self.assertEqual(sorted(os.listdir(self.folder)), ["a.log", "said", "text.md", "text.sheet", "text.sheet.alt"])

    def test_a_place_for_the_woven_text(self) -> None:
        text = self.read()
        with self.watching("--output", self.place("woven.md"), "--html", self.place("page.html"), self.text):
            self.until_said(STAYS)
            self.nothing_comes()
            in_place(self.text, text + fences([("a", "z")]))
            self.until_said("page.html is written", 2)
            self.assertEqual((self.read(), answers(self.read(self.place("woven.md")))[2:]), (text + fences([("a", "z")]), [value(["x", "y", "z"])]))
            self.assertIn(value(["x", "y", "z"]), self.read(self.place("page.html")))

    def test_a_picture_of_the_prose(self) -> None:
        """A page is made again where one that it has is saved, and nothing is evaluated."""
        picture = self.place("a.svg")
        self.write("<svg></svg>", picture)
        in_place(self.text, self.read() + "![](a.svg)\n")
        with self.watching("--html", self.place("page.html"), self.text):
            self.until_said(STAYS)
            before = self.read(self.place("page.html"))
            self.nothing_comes()
            by_rename(picture, "<svg><g/></svg>")
            self.until(lambda: self.read(self.place("page.html")) != before, "the page has the new picture")
            self.until_said("page.html is written", 2)
        self.assertEqual(self.logged("a"), ["x", "y"])

    def test_where_interpreters_start(self) -> None:
        """Another folder has the worksheet opened again: no interpreter goes on in the old one."""
        os.mkdir(self.place("in"))
        fence = fences([("s", "pwd")])
        front = "---\nsessions: {s: [tmhost-sh]}\n"
        self.write(front + "---\n" + fence)
        with self.watching():
            self.until_said(STAYS)
            in_place(self.text, front + "folder: in\n---\n" + fence + fence)
            self.assertIn("\n" + os.path.realpath(self.place("in")) + "\n", self.until_answers(2))
            self.assertIn("1 kept, 1 evaluated, 1 replayed", self.said())

    def test_several_texts(self) -> None:
        other = self.place("other.md")
        self.write(self.front("b") + fences([("b", "x")]), other)
        with self.watching(self.text, other):
            self.until_said(STAYS)
            in_place(other, self.read(other) + fences([("b", "y")]))
            self.until(lambda: self.read(other).count("tmhost-answer") == 2, "the second text is woven")
            in_place(self.text, self.read() + fences([("a", "z")]))
            self.until_answers(3)
        self.assertEqual((self.logged("a"), self.logged("b")), (["x", "y", "z"], ["x", "y"]))

    def test_words_that_are_refused(self) -> None:
        for words in (["--check"], ["--test"], ["--output", "-"]):
            done = self.run_weave("--watch", *words, self.text)
            self.assertEqual((done.status, self.logged("a")), (2, []), done.errors)


class Meanwhile(Watching):
    """The text is saved while it is woven."""

    def begin(self, *lines: str) -> str:
        """A text whose last line waits for a file."""
        self.write(self.front("a") + fences([("a", line) for line in lines] + [("a", f"until {self.place('end')}")]))
        return self.read()

    def until_it_waits(self) -> None:
        self.until(lambda: os.path.exists(self.place("a.log")) and "until" in self.read(self.place("a.log")), "it waits")

    def test_what_is_saved_stays(self) -> None:
        """Two saves within a weave: the last one is woven, and nothing is written over it. What was evaluated goes on, since it is still wanted."""
        text = self.begin("x")
        with self.watching():
            self.until_it_waits()
            in_place(self.text, text + "First.\n")
            time.sleep(0.5)
            by_rename(self.text, text + "Second.\n\n" + fences([("a", "y")]))
            time.sleep(0.5)
            self.write("", self.place("end"))
            woven = self.until_answers(3)
            self.until_said(STAYS)
            lines = ["x", f"until {self.place('end')}", "y"]
            self.assertEqual((answers(woven)[-1], self.logged("a")), (value(lines), lines))
            self.assertIn("\nSecond.\n", woven)
        self.assertIn(f"{self.text}: it was saved meanwhile, and is woven again\n", self.said())

    def test_what_is_stuck_and_no_more_wanted(self) -> None:
        """A line that never answers is broken off when the text asks for another one in its place. The text is called as it is seen from another folder
        than that of its interpreters."""
        text = self.begin("x").replace("sessions:", "folder: .\nsessions:")
        self.write(text)
        with self.watching(os.path.relpath(self.text, ROOT)):
            self.until_it_waits()
            in_place(self.text, text + BROKEN)  # asks for nothing else as long as it can't be read
            time.sleep(1)
            in_place(self.text, re.sub("\nuntil .*\n", "\ny\n", text))
            woven = self.until_answers(2)
            self.assertEqual(answers(woven), [value(["x"]), value(["x", "y"])])
        self.assertEqual(self.logged("a"), ["x", f"until {self.place('end')}", "x", "y"])
        self.assertEqual([field["input"] for field in self.fields()], ["x", "y"])

    def test_a_save_in_the_last_moment(self) -> None:
        """What is saved while the woven text is about to be written stays, also what is saved while that is noticed."""
        self.write("", self.place("end"))
        for saves in (["first"], ["first", "second"], ["first", "second", "third"]):
            text, left = self.begin("x"), list(saves)

            def save_and_exchange(one: str, other: str) -> bool:
                if left:
                    by_rename(self.text, left.pop(0))
                return exchange(one, other)

            with mock.patch.dict(os.environ, {"TMHOST": PROGRAM}), mock.patch.object(files, "exchange", save_and_exchange):
                with contextlib.redirect_stderr(io.StringIO()), self.assertRaises(files.Changed):
                    Weave(self.text, None).weave(None)
            self.assertEqual((self.read(), left), (saves[-1], []))
            self.assertEqual([name for name in os.listdir(self.folder) if ".tmhost-weave" in name], [])
        self.write(text)
        with mock.patch.dict(os.environ, {"TMHOST": PROGRAM}), mock.patch.object(files, "exchange", lambda one, other: False):
            self.assertTrue(Weave(self.text, None).weave(None))  # where the system can't exchange files
        self.until_answers(2)

    def test_an_interrupt(self) -> None:
        """It breaks off the weave, and the next one goes on from there."""
        text = self.begin("x")
        with self.watching(status=130):
            self.until_it_waits()
        self.assertEqual((self.read(), self.said()), (text, f"{self.text}: broken off: 1 of 2 answered; weave it again\n"))
        self.write("", self.place("end"))
        self.logged("a")
        self.assertEqual(self.run_weave().errors, f"{self.text}: a: 1 kept, 1 evaluated, 1 replayed\n")


class Ended(Watching):
    """Interpreters and programs that end by another hand, and a worksheet that is taken away."""

    def setUp(self) -> None:
        super().setUp()
        self.write(self.front("a") + fences(FENCES))

    def goes_on(self, sent: "list[str]") -> None:
        """A further line is answered as after all others, for which these were sent."""
        self.logged("a")
        in_place(self.text, self.read() + fences([("a", "z")]))
        self.assertEqual(answers(self.until_answers(3)), [value(["x"]), value(["x", "y"]), value(["x", "y", "z"])])
        self.assertEqual(self.logged("a"), sent)

    def test_an_interpreter(self) -> None:
        with self.watching():
            self.until_said(STAYS)
            self.end_interpreters()
            self.goes_on(["x", "y", "z"])

    def test_a_line_that_ends_it(self) -> None:
        """Nothing is evaluated after it. The fixed text has the answers of a new one."""
        with self.watching():
            self.until_said(STAYS)
            whole = self.read()
            in_place(self.text, whole + fences([("a", "die"), ("a", "z")]))
            self.until_said("its interpreter ended at this code")
            self.assertIn("tmhost-no-answer", self.until_text_has("tmhost-no-answer"))
            in_place(self.text, whole)
            self.until_said("nothing was to evaluate")
            self.goes_on(["x", "y", "z"])

    def test_the_program(self) -> None:
        with self.watching():
            self.until_said(STAYS)
            os.kill(self.host(), signal.SIGKILL)
            self.goes_on(["x", "y", "z"])

    def test_the_worksheet(self) -> None:
        """All is evaluated again, as by a weave whose worksheet was removed."""
        with self.watching():
            self.until_said(STAYS)
            for name in (self.sheet, self.sheet + ".alt"):
                os.unlink(name)
            self.goes_on(["x", "y", "z"])
        self.assertEqual(len(self.fields()), 3)
        self.assertIn("a: 3 evaluated\n", self.said())

    def test_a_limit(self) -> None:
        """A line for which the time is over loses its interpreter."""
        with self.watching("--seconds", "1", self.text):
            self.until_said(STAYS)
            whole = self.read()
            in_place(self.text, whole + fences([("a", "stuck")]))
            self.until_said("no answer within 1 seconds")
            self.until_text_has("tmhost-no-answer")
            in_place(self.text, whole)
            self.until_said("nothing was to evaluate")
            self.goes_on(["x", "y", "z"])
