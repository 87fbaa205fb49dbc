"""Code that is meant to end its interpreter, as {ends} at its fence says: what stands in the text, what is kept of it, and where it doesn't."""
import contextlib
import os
import random
import re
import shutil
import subprocess
import time
from typing import List

from .interpreter import value
from .support import ROOT, Case, answers, command_words, environment, fences
from .test_kills import KILLS, kill_program, kill_weave
from .watcher import STAYS, Watching, in_place
from tmhost_weave.plan import LEFT_OUT, MOST_NOTED, note_of, noted

ENDED = "```tmhost-no-answer\nthe interpreter ended\n```"
NOT_ENDED = "this code didn't end its interpreter, as {ends} says that it does"


def shown(text: str) -> str:
    return f"```tmhost-answer\n{text}\n```"


class Ends(Case):
    def whole(self, text: str, *after: str) -> str:
        """A text with what stands after each of its fences."""
        parts = re.split(r"(?<=\n```\n)(?=\nText |\n\Z)", text)
        return "".join(part + "".join(f"\n{one}\n" for one in these.split("\n\n") if one) for part, these in zip(parts, [*after, ""]))

    def stays(self, woven: str) -> None:
        """A second weave evaluates nothing, and a check and a test agree with it."""
        self.logged("a")
        self.assertEqual((self.run_weave(), self.read(), self.logged("a")), ((0, "", ""), woven, []))
        self.assertEqual((self.run_weave("--check", self.text), self.logged("a")), ((0, "", ""), []))
        self.assertEqual(self.run_weave("--test", self.text), (0, "", ""))
        self.assertEqual(self.read(), woven)
        self.logged("a")

    def test_what_stands_in_the_text(self) -> None:
        """What it wrote before it ended, and that it ended. The lines after that in its fence aren't evaluated, and the next fence begins empty."""
        text = self.front("a") + fences([("a", "x"), ("a {ends}", "y\ndie its last\\nwords\\n\nnever"), ("a", "z"), ("a {pure ends}", "die"), ("a {pure}", "q"), ("a", "w")])
        self.write(text)
        self.assertEqual(self.run_weave(), (0, "", f"{self.text}: a: 5 evaluated\n{self.text}: a {{pure}}: 2 evaluated\n"))
        self.assertEqual(self.logged("a"), ["x", "y", "die its last\\nwords\\n", "z", "die", "q", "w"])
        woven = self.read()
        self.assertEqual(woven, self.whole(
            text, shown(value(["x"])), "\n\n".join([shown(value(["x", "y"])), shown("its last\nwords"), ENDED]), shown(value(["z"])), ENDED, shown(value(["q"])),
            shown(value(["z", "w"])),
        ))
        self.stays(woven)

    def test_an_end_after_an_answer(self) -> None:
        text = self.front("a") + fences([("a {ends}", "x\nbye"), ("a {ends}", "bye\nnever"), ("a", "y")])
        woven = self.weave(text)
        both = "\n\n".join([shown(value(["x"])), shown(value(["x", "bye"])), ENDED])
        self.assertEqual(woven, self.whole(text, both, "\n\n".join([shown(value(["bye"])), ENDED]), shown(value(["y"]))))
        self.stays(woven)

    def test_one_that_does_not_end(self) -> None:
        """That is said, and tried again. The fences after it begin empty all the same."""
        text = self.front("a") + fences([("a", "x"), ("a {ends}", "y"), ("a", "z")])
        for sent in (["x", "y", "z"], ["x", "y"]):
            woven = self.weave(text, 1)
            self.assertEqual(woven, self.whole(text, shown(value(["x"])), shown(value(["x", "y"])) + f"\n\n```tmhost-no-answer\n{NOT_ENDED}\n```", shown(value(["z"]))))
            self.assertEqual(self.logged("a"), sent)
        line = woven.split("\n").index("y") + 1
        self.assertEqual(self.run_weave().errors.split("\n")[1], f"{self.text}: line {line}: a: {NOT_ENDED}")
        self.assertEqual([self.run_weave(word, self.text).status for word in ("--check", "--test")], [1, 1])
        self.logged("a")
        self.weave(woven.replace(" {ends}", ""))
        self.assertEqual(self.logged("a"), ["x", "y", "z"])
        self.weave(self.front("a") + fences([("a {ends}", "")]), 1)

    def test_a_line_after_it_that_no_field_can_have(self) -> None:
        text = self.front("a") + fences([("a {ends}", f"die w\n{'x' * 4096}\nnever"), ("a", "y")])
        for _ in range(2):
            woven = self.weave(text, 1)
            refused = "```tmhost-no-answer\nrefused: it has 4,096 bytes, "
            self.assertEqual((answers(woven), woven.count(ENDED), woven.count(refused), woven.count("no-answer")), (["w", value(["y"])], 1, 1, 2))

    def test_the_word_comes_and_goes(self) -> None:
        """What was answered without it isn't kept with it, nor the other way round."""
        blocks = [("a", "x\nbye"), ("a", "y")]
        with_word = self.front("a") + fences([("a {ends}", "x\nbye"), ("a", "y")])
        self.assertEqual(self.weave(self.front("a") + fences(blocks), 1).count("tmhost-no-answer"), 1)
        for _ in range(2):
            self.logged("a")
            self.assertEqual(answers(self.weave(with_word)), [value(["x"]), value(["x", "bye"]), value(["y"])])
            self.assertEqual(self.logged("a"), ["x", "bye", "y"])
            self.assertEqual(answers(self.weave(self.front("a") + fences(blocks), 1)), [value(["x"]), value(["x", "bye"])])
        self.assertEqual(len(self.fields()), 3)

    def test_what_is_evaluated_after_a_change(self) -> None:
        """Each interpreter has its own fences: only those of one are evaluated again in which something is changed."""
        blocks = [("a", "x"), ("a {ends}", "y\ndie w\nnever"), ("a", "z"), ("a", "u"), ("a {ends}", "die"), ("a", "v")]
        self.weave(self.front("a") + fences(blocks))
        for at, code, sent in (
            (3, "other", ["z", "other", "die"]), (0, "other", ["other", "y", "die w"]), (5, "other", ["other"]), (1, "y\ndie w\nother", ["other", "y", "die w"]),
            (1, "y\ndie", ["other", "y", "die"]),
        ):
            blocks[at] = blocks[at][0], code
            self.logged("a")
            woven = self.weave(self.front("a") + fences(blocks))
            self.assertEqual(self.logged("a"), sent)
            self.assertEqual(woven.count(ENDED), 2)
            self.stays(woven)

    def test_other_ends(self) -> None:
        """An end at the start of an interpreter, and one between two fields of other fences, are none that are meant."""
        for front, before in ((self.front("a"), "bye"), (self.front(a=["sh", "-c", "exit"]), "x"), (self.front(a=["sh", "-c", "exit"]), "")):
            woven = self.weave(front + fences([("a", before), ("a {ends}", "y\ndie")]), 1)
            self.assertEqual((woven.count(ENDED), answers(woven)), (0, [value(["bye"])] if before == "bye" else []))
            self.assertEqual((self.read() == woven, self.run_weave("--check", self.text).status), (True, 1))
            os.remove(self.sheet)

    def test_with_other_words(self) -> None:
        """Hidden, folded, in a list, and where only errors and figures are wanted."""
        text = self.front("a") + fences([("a {ends hide}", "x\ndie w"), ("a {fold ends}", "die w"), ("{.a .ends results='hide'}", "die w")]) + "- ```a {ends}\n  die w\n  ```\n"
        woven = self.weave(text)
        self.assertEqual((woven.count(ENDED), woven.count("\nw\n"), woven.count("\n  w\n"), woven.count("  the interpreter ended\n")), (2, 1, 1, 1))
        self.assertIn(f"<!-- tmhost-answer --><details><summary>Answer</summary>\n\n{shown('w')}\n\n{ENDED}\n\n<!-- tmhost-answer --></details>\n", woven)
        self.stays(woven)
        page = self.place("page.html")
        self.assertEqual((self.run_weave("--html", page, self.text).status, self.read(page).count('<p class="none">the interpreter ended</p>')), (0, 3))

    def test_misspelt(self) -> None:
        for info, why in (("a ends", "'ends' changes nothing without braces: {ends}"), ("a {.end}", "'end' changes nothing: is {ends} meant?")):
            self.write(self.front("a") + fences([(info, "x")]))
            done = self.run_weave()
            self.assertEqual((done.status, why in done.errors), (1, True), done.errors)

    def test_of_adapters(self) -> None:
        """The cases of an author: a status, `set -e`, a signal; the page of a shell and of Python."""
        front = "---\nsessions: {s: [tmhost-sh], py: [tmhost-python]}\n---\n"
        ends = [("s {ends}", "set -e\necho before\nfalse\necho never"), ("s", "echo ${x-unset}"), ("s {pure ends}", "echo $((1 + 1)); kill -9 $$"),
                ("py {whole ends}", "print('before')\nimport os\nos._exit(3)"), ("py", "1 + 1")]
        woven = self.weave(front + fences(ends))
        self.assertEqual((answers(woven), woven.count(ENDED)), (["before", "unset", "2", "before", "2"], 3))
        self.stays(woven)

    def test_what_a_note_has(self) -> None:
        """The end of a long text, what `tmhost show` shows of control characters, and no more than an input may have."""
        self.assertEqual(noted("a\tb\x1b\x7f\u2028c\n\n"), "a\tb\\x1b\\x7f\nc")
        for text in ("é" * 9_000, "line\n" * 9_000, "\u2028" * 5_000, "x" * MOST_NOTED, "x" * (MOST_NOTED + 1)):
            found = noted(text)
            self.assertLess(len(note_of(1_000_000, found).encode()), 4_095)
            self.assertEqual((found.startswith(LEFT_OUT), found.endswith(text.rstrip("\n\u2028")[-5:])), (len(text.rstrip("\n\u2028").encode()) > MOST_NOTED, True))
        text = self.front("a") + fences([("a {ends}", "die \\x07" + "long " * 790 + "\\n")])
        self.stays(self.weave(text))


class Watched(Watching):
    def test_a_text_that_gets_one(self) -> None:
        """The worksheet is opened so that its last words are heard. What comes after it goes on with an interpreter of its own."""
        self.write(self.front("a") + fences([("a", "x")]))
        with self.watching():
            self.until_said(STAYS)
            in_place(self.text, self.read() + fences([("a {ends}", "die its words"), ("a", "y")]))
            woven = self.until_answers(3)
            self.assertEqual((answers(woven), woven.count(ENDED)), ([value(["x"]), "its words", value(["y"])], 1))
            self.logged("a")
            in_place(self.text, woven + fences([("a", "z")]))
            self.assertEqual((answers(self.until_answers(4))[-1], self.logged("a")), (value(["y", "z"]), ["z"]))
            in_place(self.text, self.read() + fences([("a {ends}", "u\ndie")]))
            self.until_text_has(ENDED, 2)
            self.assertEqual(self.logged("a"), ["u", "die"])
            before = self.read()
            in_place(self.text, before.replace("\ny\n", "\nw\n"))
            self.until_said("4 evaluated again")
            self.assertEqual(self.logged("a"), ["w", "z", "u", "die"])
        self.assertEqual(self.run_weave(), (0, "", ""))


class Kills(Case):
    """`kill -9` at random moments of texts with such code: the next weave ends in the text of one that wasn't killed."""

    def setUp(self) -> None:
        super().setUp()
        self.random = random.Random(self.id())
        os.mkdir(self.place("fresh"))

    def block(self) -> "tuple[str, str]":
        lines = [f"line {self.random.randrange(3)}" for _ in range(self.random.randrange(1, 3))]
        if self.random.random() < 0.5:
            lines.insert(self.random.randrange(len(lines) + 1), self.random.choice(["die", "die words", "bye"]))
            return "a {ends}", "\n".join(lines)
        if self.random.random() < 0.2:
            return "a {pure ends}", self.random.choice(["die", "die words", "bye"])
        return self.random.choice(["a", "a", "a {pure}"]), "\n".join(lines)

    def fresh(self, text: str) -> str:
        folder = self.place("fresh")
        shutil.rmtree(folder)
        os.mkdir(folder)
        path = os.path.join(folder, "text.md")
        self.write(text, path)
        done = subprocess.run(command_words(path), env=environment(), cwd=ROOT, capture_output=True, timeout=300)
        self.assertEqual(done.returncode, 0, done.stderr)
        return self.read(path)

    def test_kills(self) -> None:
        blocks = [self.block() for _ in range(8)]
        for _ in range(max(4, KILLS // 2)):
            blocks[self.random.randrange(8)] = self.block()
            moved = blocks.pop(self.random.randrange(8))
            blocks.insert(self.random.randrange(8), moved)
            text = self.front("a") + fences(blocks)
            wanted = self.fresh(text)
            self.write(text)
            for kill in self.random.sample([kill_weave, kill_program], 2):
                with subprocess.Popen(command_words(self.text), env=environment(), stderr=subprocess.DEVNULL) as weave:
                    with contextlib.suppress(subprocess.TimeoutExpired):
                        weave.wait(self.random.uniform(0.2, 1.2))
                    if weave.poll() is None:
                        kill(weave.pid)
                self.assertIn(self.read(), [text, wanted])
            self.fields()  # when nobody has the worksheet any more
            self.assertEqual((self.run_weave().status, self.read()), (0, wanted))
            self.logged("a")
            self.assertEqual((self.run_weave(), self.logged("a")), ((0, "", ""), []))
