"""What is evaluated after which change, over the real program, by an interpreter that logs its lines."""
import os
import re
import shutil
import stat
import subprocess
import sys
import threading
import time
from typing import List, Sequence, Tuple

from .interpreter import value
from .support import INTERPRETER, KEPT, PROGRAM, Case, answers, command_words, environment, fences

Blocks = List[Tuple[str, str]]


def expected(lines: List[str]) -> List[str]:
    """What an interpreter answers that gets these lines."""
    return [value(lines[: at + 1]) for at in range(len(lines))]


class Weaving(Case):
    def setUp(self) -> None:
        super().setUp()
        self.blocks: Blocks = [("a" if at % 2 else "b", f"line {at}") for at in range(12)]

    def source(self, *names: str) -> str:
        return self.front("a", "b", *names) + fences(self.blocks)

    def lines(self, session: str) -> List[str]:
        return [code for info, code in self.blocks if info == session]

    def shown(self, session: str, woven: str) -> List[str]:
        """The answers after the fences of a session, each of which has one."""
        return [one for (info, _), one in zip(self.blocks, answers(woven)) if info == session]

    def test_first_and_again(self) -> None:
        woven = self.weave(self.source())
        for name in "ab":
            self.assertEqual(self.shown(name, woven), expected(self.lines(name)))
            self.assertEqual(self.logged(name), self.lines(name))
        self.assertEqual(self.weave(woven), woven)
        self.assertEqual(self.weave(self.source()), woven)
        self.assertEqual(self.logged("a") + self.logged("b"), [])
        self.assertEqual([field["input"] for field in self.fields()], [code for _, code in self.blocks])

    def test_from_the_first_change_on(self) -> None:
        self.weave(self.source())
        before = {field["id"]: field for field in self.fields()}
        self.logged("a"), self.logged("b")
        self.blocks[6] = ("b", "other")
        woven = self.weave(self.source())
        self.assertEqual(self.shown("b", woven), expected(self.lines("b")))
        self.assertEqual(self.logged("b"), self.lines("b"))  # three of them in a replay
        self.assertEqual(self.logged("a"), [])
        after = {field["id"]: field for field in self.fields()}
        self.assertEqual(list(after), list(before))
        self.assertEqual([id for id in after if after[id] != before[id]], [7, 9, 11])

    def test_prose_and_order_of_sessions_change_nothing(self) -> None:
        woven = self.weave(self.source())
        self.logged("a"), self.logged("b")
        self.blocks.sort(key=lambda block: block[0])
        again = self.weave(self.source().replace("Text", "Prose"))
        self.assertEqual(self.logged("a") + self.logged("b"), [])
        self.assertEqual([field["input"] for field in self.fields()], [code for _, code in self.blocks])
        self.assertEqual(sorted(answers(again)), sorted(answers(woven)))
        self.assertEqual(self.shown("a", again), expected(self.lines("a")))

    def test_removed_and_put_in(self) -> None:
        """Also where lines are alike, no answer stands that was given after other lines."""
        self.blocks = [("a", "x")] * 6
        self.weave(self.source())
        for at, what in [(2, [("a", "y")]), (0, [("a", "x")]), (7, [("a", "x"), ("b", "x")])]:
            self.blocks[at:at] = what
            self.assertEqual(self.shown("a", self.weave(self.source())), expected(self.lines("a")))
        while len(self.blocks) > 1:
            del self.blocks[len(self.blocks) // 2]
            woven = self.weave(self.source())
            self.assertEqual(self.shown("a", woven), expected(self.lines("a")))
            self.assertEqual([field["input"] for field in self.fields()], [code for _, code in self.blocks])

    def test_a_fence_is_evaluated_whole(self) -> None:
        self.blocks = [("a", "one\ntwo"), ("a", "three\nfour\nfive"), ("a", "six")]
        self.weave(self.source())
        before = {field["input"]: field["id"] for field in self.fields()}
        self.blocks[1] = ("a", "three\nfour\nother")
        self.weave(self.source())
        self.logged("a")
        self.assertEqual([field["id"] for field in self.fields()], list(before.values()))
        self.write(self.read().replace("other", "another"))
        done = self.run_weave()
        self.assertIn("a: 2 kept, 4 evaluated again, 2 replayed", done.errors)
        self.assertEqual(self.logged("a"), ["one", "two", "three", "four", "another", "six"])

    def test_pure(self) -> None:
        self.blocks = [("a", "first"), ("a {pure}", "p\nq"), ("a", "second"), ("a {pure}", "r"), ("a {pure}", "p\nq")]
        woven = self.weave(self.source())
        self.assertEqual(answers(woven), [value(["first"]), value(["p\u2028q"]), value(["first", "second"]), value(["r"]), value(["p\u2028q"])])
        self.logged("a")
        self.blocks[3] = ("a {pure}", "s")
        self.assertEqual(answers(self.weave(self.source()))[3], value(["s"]))
        self.assertEqual(self.logged("a"), ["s"])
        self.blocks[0] = ("a", "other")
        self.weave(self.source())
        self.assertEqual(self.logged("a"), ["other", "second"])
        self.blocks.reverse()
        again = self.weave(self.source())
        self.assertEqual(self.logged("a"), ["second", "other"])
        self.assertEqual(answers(again)[0], value(["p\u2028q"]))
        self.assertEqual([field["input"] for field in self.fields()], [code for _, code in self.blocks])

    def test_other_words(self) -> None:
        text = self.source()
        woven = self.weave(text)
        self.logged("a"), self.logged("b")
        for flag in ["-u", "-s"]:
            other = text.replace(f'"{INTERPRETER}"', f'"{flag}", "{INTERPRETER}"', 1)
            again = self.weave(other)
            self.assertEqual(answers(again), answers(woven))
            self.assertEqual(self.logged("a"), self.lines("a"))
            self.assertEqual(len(self.fields()), len(self.blocks))
        self.weave(text)
        self.assertEqual(self.logged("a"), self.lines("a"))
        self.assertEqual(self.logged("b"), [])

    def test_hide_and_fold(self) -> None:
        self.blocks = [("a {hide}", "x"), ("a {fold}", "y"), ("a {fold}", "quiet"), ("{.a .hide}", "z")]
        woven = self.weave(self.source())
        self.assertEqual(self.logged("a"), ["x", "y", "quiet", "z"])
        self.assertEqual(answers(woven), [value(["x", "y"])])
        self.assertIn("```a {fold}\ny\n```\n\n<!-- tmhost-answer --><details><summary>Answer</summary>\n\n```tmhost-answer\n", woven)
        self.assertEqual(woven.count("details"), 2)
        self.assertEqual(self.weave(woven), woven)
        shown = self.weave(woven.replace(" {hide}", "").replace(" {fold}", ""))
        self.assertEqual(self.logged("a"), [])
        self.assertEqual(answers(shown), [value(["x"]), value(["x", "y"])])

    def test_errors(self) -> None:
        """An error has fences of its own, after what was printed before it, and is found again; in a list all is one text."""
        woven = self.weave(self.front("a") + fences([("a", "error a\\n|no\\nway"), ("a", "error |b")]) + "\n- c\n\n  ```a\n  error d\\n|e\n  ```\n")
        self.assertIn("\n\n```tmhost-answer\na\n```\n\n```tmhost-error\nno\nway\n```\n", woven)
        self.assertIn("error |b\n```\n\n```tmhost-error\nb\n```\n", woven)
        self.assertIn("  ```\n  ```tmhost-error\n  d\n  e\n  ```\n", woven)
        self.assertEqual(self.weave(woven), woven)

    def test_how_many_errors(self) -> None:
        """They are answers, so the status is 0. The lines are those of their code in the text as it stands then."""
        text = self.front("a", "b") + fences([("a", "x"), ("a", "y\nerror |one"), ("b {hide}", "error |two"), ("a", "z"), ("a {pure}", "error |three")])
        self.write(text)
        done = self.run_weave()
        lines = [str(at) for at, line in enumerate(self.read().split("\n"), 1) if line.startswith("error |")]
        said = f"{self.text}: 3 errors: lines {', '.join(lines)}\n"
        self.assertEqual((done.status, len(lines), done.errors.endswith(said)), (0, 3, True), done.errors)
        for words in ([self.text], ["--check", self.text], ["--test", self.text]):
            self.assertEqual(self.run_weave(*words), (0, "", said if "--test" in words else said[:-1] + KEPT))
        self.write(text)
        aside = [str(at) for at, line in enumerate(text.split("\n"), 1) if line.startswith("error |")]
        self.assertIn(f": 3 errors: lines {', '.join(aside)}{KEPT}", self.run_weave("--output", self.place("other.md"), self.text).errors)
        woven = self.weave(self.front("a") + fences([("a", "x\nerror |one")]))
        self.assertEqual(self.run_weave().errors, f"{self.text}: 1 error: line {woven.split(chr(10)).index('error |one') + 1}" + KEPT)
        self.weave(self.front("a") + fences([("a", "\n".join(["error |one"] * 30))]))
        self.assertRegex(self.run_weave().errors, r"30 errors: lines (\d+, ){20}\.\.; kept from .*\n\Z")

    def test_errors_that_fail(self) -> None:
        """With --no-errors those that nobody wanted, and those of error=FALSE in any case. The text is woven all the same."""
        def ends(words: Sequence[str], *infos: str) -> Tuple[int, str]:
            self.write(self.front("a") + fences([(info, f"error |{at}") for at, info in enumerate(infos)]) + fences([("a", "x")]))
            done = self.run_weave(*words, self.text)
            woven = self.read()
            self.assertEqual((woven.count("```tmhost-error\n"), len(answers(woven))), (len(infos), 1))
            return done.status, re.sub(": lines? .*", "", done.errors.split("\n")[-2].split(": ", 1)[1])

        cases: Sequence[Tuple[List[str], List[str], Tuple[int, str]]] = (
            ([], ["a"], (0, "1 error")),
            (["--no-errors"], ["a"], (1, "1 error")),
            (["--no-errors"], ["a {error=TRUE}", "{a, error=true}"], (0, "a: 3 evaluated")),
            (["--no-errors"], ["a {error=TRUE}", "a"], (1, "1 error")),
            ([], ["{a, error=FALSE}"], (1, "1 error")),
            ([], ["{a, error=f}", "{a, error=T}", "a"], (1, "2 errors")),
            (["--no-errors"], [], (0, "a: 1 evaluated")),
        )
        for words, infos, wanted in cases:
            with self.subTest(words=words, infos=infos):
                self.assertEqual(ends(words, *infos), wanted)
                for more in ("--check", "--test"):
                    self.assertEqual(self.run_weave(*words, more, self.text).status, wanted[0])
                os.remove(self.sheet)

    def test_lines_of_what_failed(self) -> None:
        self.write(self.front("a") + fences([("a", "x"), ("a", "die"), ("a", "y")]))
        done = self.run_weave()
        at = self.read().split("\n").index("die") + 1
        self.assertEqual((done.status, f"{self.text}: line {at}: a: no answer: its interpreter ended at this code (where that is meant: {{ends}} at its fence)\n" in done.errors), (1, True), done.errors)

    def test_what_a_replay_shows(self) -> None:
        """Where an interpreter answers otherwise now, that is reported of the answers that are kept."""
        self.write("one", self.place("file"))
        text = self.front("a") + fences([("a", f"file {self.place('file')}"), ("a", "say x")])
        woven = self.weave(text)
        self.write("two", self.place("file"))
        self.write(woven.replace("say x\n", "say y\n"))
        done = self.run_weave()
        self.assertIn("a: 1 kept answers aren't those of the replay", done.errors)
        self.assertEqual(answers(self.read()), ["one", "y"])

    def test_strays(self) -> None:
        self.write(self.front("a") + "```c\nx\n```\n\n```tmhost-answer\n1\n```\n")
        text = self.read()
        done = self.run_weave()
        self.assertEqual((done.status, self.read()), (1, text))
        self.assertIn("line 9: an answer that is after no fence", done.errors)

    def test_check(self) -> None:
        self.write(self.source())
        done = self.run_weave("--check", self.text)
        self.assertEqual(done.status, 1)
        self.assertIn("b: 6 fields would be evaluated, from line 9 on\n", done.output)
        self.assertEqual(os.listdir(self.folder), ["text.md"])
        woven = self.weave(self.source())
        self.logged("a"), self.logged("b")
        self.assertEqual(self.run_weave("--check", self.text), (0, "", ""))
        self.write(woven.replace("line 7", "line seven"))
        held = self.fields()
        done = self.run_weave("--check", self.text)
        self.assertEqual(done.status, 1)
        self.assertIn("a: 3 fields would be evaluated, from line 79 on, after 3 that would be replayed\n", done.output)
        self.write(woven.replace("```tmhost-answer\n4 ", "```tmhost-answer\n5 ", 1))
        done = self.run_weave("--check", self.text)
        self.assertEqual((done.status, done.output.count("the text would change from line ")), (1, 1))
        self.assertEqual((self.fields(), self.logged("a") + self.logged("b")), (held, []))

    def test_output(self) -> None:
        text = self.source()
        self.write(text)
        done = self.run_weave("--output", "-", self.text)
        self.assertEqual(self.read(), text)
        self.assertEqual(self.run_weave("--output", self.place("out.md"), self.text).status, 0)
        self.assertEqual(self.read(self.place("out.md")), done.output)
        self.assertEqual(self.read(), text)
        self.assertEqual(self.run_weave("--check", "--output", self.place("out.md"), self.text).status, 0)
        self.assertEqual(self.run_weave("--check", self.text).status, 1)
        self.assertEqual(self.weave(text), done.output)

    def test_what_has_no_sessions_stays(self) -> None:
        without = ["", "# x\n```py\n1\n```\n", "---\r\n\0\r\n---", "---\nsessions: {}\n---\n```a\n"]
        for text, status in [*((one, 0) for one in without), (self.front("a") + "```c\nx\n```\n", 1), (self.front("a"), 1)]:
            self.assertEqual(self.weave(text, status), text)
            for words in (["--check", self.text], ["--test", self.text]):
                done = self.run_weave(*words)
                self.assertEqual((done.status, done.output), (status, ""))
            self.assertIn("no fence is of a session, so nothing is evaluated", done.errors)
            self.assertEqual(self.run_weave("--output", "-", self.text).output, text)
        self.assertEqual(os.listdir(self.folder), ["text.md"])

    def test_a_text_without_code_of_a_session_is_reported(self) -> None:
        """With what it has, since a session may have another name than its fences."""
        for text, sessions, found in (
            ("```python\nx\n```\n```r\ny\n```\n```python\nz\n```\n", "none; write them as `sessions: {py: [tmhost-python]}`", "python (2), r (1)"),
            (self.front("a") + "```\nx\n```\n", "a", "without a word (1)"),
            ("text\n", "none; write them as `sessions: {py: [tmhost-python]}`", "none"),
            (self.front("a") + "".join(f"```x{number}\n```\n" for number in range(9)), "a", "x0 (1), x1 (1), x2 (1), x3 (1), x4 (1), .."),
        ):
            self.write(text)
            said = f"{self.text}: no fence is of a session, so nothing is evaluated. Sessions in the front matter: {sessions}. Fences: {found}\n"
            self.assertEqual(self.run_weave(self.text), (int(sessions == "a"), "", said))
        self.assertEqual(self.weave(self.front("a") + "```a\nx\n```\n").count("tmhost-answer"), 1)
        self.assertEqual(self.run_weave(self.text).errors, "")

    def test_chunks_and_fences_with_flags_of_no_session(self) -> None:
        """They are meant to be evaluated, so each is reported with its line, and the status is 1; the others are woven as before."""
        plain = "```json\n{}\n```\n\n```r\nx\n```\n\n```{.r .numberLines}\nx\n```\n\n```{r, eval=FALSE}\nx\n```\n\n```{r}\n#| eval: false\nx\n```\n\n````md\n```{r}\n```\n````\n\n"
        self.weave(self.front("a") + plain + "```a\nx\n```\n")
        self.assertEqual(self.run_weave("--check", self.text), (0, "", ""))
        none = "no session is called {}, so this fence isn't evaluated"
        for info, why in (
            ("{r}", none.format("r")),
            ("{r, echo=FALSE}", none.format("r")),
            ("{python plot}", none.format("python")),
            ("{\u00e9\u00e9}", none.format("\\xe9\\xe9")),
            ("r {hide}", none.format("r")),
            ("{.r .whole}", none.format("r")),
            ("{#one .a .fold}", "no session is named here, so this fence isn't evaluated"),
        ):
            with self.subTest(info):
                text = self.front("a") + "```a\nx\n```\n\n> ```" + info + "\n> y\n> ```\n"
                woven = self.weave(text, 1)
                said = f"{self.text}: line {woven[: woven.index('> ```')].count(chr(10)) + 1}: {why}\n"
                self.assertEqual(woven, text.replace("x\n```\n", f"x\n```\n\n```tmhost-answer\n{value(['x'])}\n```\n"))
                self.assertEqual(self.run_weave("--check", self.text), (1, "", said))
                self.assertEqual(self.run_weave(self.text), (1, "", said))
        self.write("```{r}\nx\n```\n\n```{python}\ny\n```\n")
        for words in ([self.text], ["--check", self.text]):
            done = self.run_weave(*words)
            self.assertEqual((done.status, done.output), (1, ""))
            self.assertEqual(done.errors.split("\n")[:2], [f"{self.text}: line 1: {none.format('r')}", f"{self.text}: line 5: {none.format('python')}"])
            self.assertIn("Fences: {r} (1), {python} (1)", done.errors)

    def test_chunks_of_sessions(self) -> None:
        """As knitr and Quarto have them. Their options stay as they are."""
        off = "```{a, eval=FALSE}\nu\n```\n\n```{a}\n#| eval: false\nu\n```\n\n"
        chunks = [("{a}", "x"), ('{a plot, echo=FALSE, fig.cap="a {b}"}', "y"), ("{a whole, hide=TRUE}", "z"), ("a", "w"), ("{a, eval=TRUE}", "quiet")]
        given = self.front("a") + off + fences(chunks)
        for name in ("text.Rmd", "text.qmd"):
            with self.subTest(name):
                self.text, self.sheet = self.place(name), self.place("text.sheet")
                woven = self.weave(given)
                lines = [code for _, code in chunks]
                self.assertEqual(self.logged("a"), lines)
                wanted = given
                for at, (info, code) in enumerate(chunks[:4], 1):
                    fence = f"```{info}\n{code}\n```\n"
                    wanted = wanted.replace(fence, f"{fence}\n```tmhost-answer\n{value(lines[:at])}\n```\n")
                self.assertEqual(woven, wanted)
                self.assertEqual(self.weave(woven), woven)
                self.assertEqual(self.logged("a"), [])
                os.remove(self.sheet)

    def test_options_of_a_chunk(self) -> None:
        """What is hidden is evaluated all the same, and comes back where the option goes. Each option that is ignored is named once."""
        picture = 'picture |image/svg+xml|<svg xmlns="http://www.w3.org/2000/svg" width="9" height="9"/>'
        hidden = [("{a, include=FALSE}", "x"), ("{a}", "#| include: false\ny"), ("{a, results='hide'}", "z\nerror b\\n|no\n" + picture)]
        text = self.front("a") + fences(hidden) + fences([("{a, echo=FALSE, fig.width=4}", "w"), ("{a plot, echo=FALSE, warning=TRUE, echo=FALSE}", "v")])
        self.write(text)
        done = self.run_weave()
        lines = ["x", "#| include: false", "y", "z", "error b\\n|no", picture, "w", "v"]
        self.assertEqual((done.status, self.logged("a")), (0, lines))
        first, second = (text[: text.index(info)].count("\n") + 1 for info in ("{a, echo", "{a plot"))
        self.assertEqual(done.errors.split("\n")[0], f"{self.text}: options that are ignored: echo (line {first}), fig.width (line {first}), warning (line {second})")
        woven = self.read()
        self.assertEqual(answers(woven), [value(lines[:7]), value(lines)])
        self.assertEqual((woven.count("```tmhost-error\nno\n```"), woven.count("![](text.pictures/")), (1, 1))
        self.assertEqual(self.weave(woven), woven)
        seen = self.weave(woven.replace("include=FALSE", "include=TRUE").replace("results='hide'", "results='markup'"))
        self.assertEqual((self.logged("a"), answers(seen)), ([], [value(lines[:1]), value(lines[:4]), "b", value(lines[:7]), value(lines)]))

    def test_lines_of_a_chunk(self) -> None:
        """Each is a field, and each chunk is one where the front matter says so. A remark with an option is a line of it."""
        text = self.front("a") + "> ```{a}\n> #| echo: false\n> x\n> ```\n"
        self.weave(text)
        self.assertEqual(self.logged("a"), ["#| echo: false", "x"])
        os.remove(self.sheet)
        self.weave(text.replace("sessions:", "fences: whole\nsessions:", 1))
        self.assertEqual(self.logged("a"), ["#| echo: false\u2028x"])

    def test_fences_that_are_not_to_be_evaluated(self) -> None:
        shown = "```a {eval=FALSE}\nx\n```\n\n```a\n#| eval: false\ny\n```\n\n```{.a eval=no}\nz\n```\n\n"
        woven = self.weave(self.front("a") + shown + "```a {eval=TRUE}\n#| echo: false\nw\n```\n")
        self.assertTrue(woven.startswith(self.front("a") + shown))
        self.assertEqual(self.logged("a"), ["#| echo: false", "w"])

    def test_bytes_stay(self) -> None:
        """Ends of lines, bytes that are no UTF-8, of which the status says that they are there, the mode of the file, and a link to it."""
        data = self.front("a").encode().replace(b"\n", b"\r\n") + b"\xff\0\r\n> ```a\r\n> x\r\n> ```\ry\n\n```a\nz\n```"
        with open(self.text, "wb") as file:
            file.write(data)
        os.chmod(self.text, 0o640)
        os.symlink("text.md", self.place("link.md"))
        self.assertEqual(self.run_weave(self.place("link.md")).status, 1)
        with open(self.text, "rb") as file:
            woven = file.read()
        one = b"\r\n> ```tmhost-answer\r\n> " + value(["x"]).encode() + b"\r\n> ```"
        two = b"\n\n```tmhost-answer\n" + value(["x", "z"]).encode() + b"\n```"
        self.assertEqual(woven, data.replace(b"> ```\r", b"> ```" + one + b"\r")[: -len(b"\nz\n```")] + b"\nz\n```" + two)
        self.assertEqual(stat.S_IMODE(os.stat(self.text).st_mode), 0o640)
        self.assertTrue(os.path.islink(self.place("link.md")))


class Failures(Case):
    def test_why_an_adapter_has_ended(self) -> None:
        """It stands on standard error, once for its session; the text has what a host knows."""
        text = "---\nsessions: {p: [tmhost-python, --no-such-word]}\n---\n" + fences([("p", "1"), ("p {pure}", "2"), ("p {pure}", "3")])
        self.write(text)
        done = self.run_weave(self.text)
        self.assertEqual((done.status, self.read().count("no answer: Ended")), (1, 3))
        self.assertEqual(done.errors.count("p: tmhost-python --no-such-word ended with status 2: python: error: unrecognized arguments: --no-such-word\n"), 1)

    def test_lost(self) -> None:
        text = self.front("a", "b") + fences([("a", "x\ndie\ny\nz"), ("b", "x"), ("a", "w"), ("a {pure}", "p"), ("a {hide}", "v")])
        for _ in range(2):
            woven = self.weave(text, 1)
            self.assertEqual(woven.count("```tmhost-no-answer\nno answer: Ended\n```"), 1)
            self.assertEqual(woven.count("```tmhost-no-answer\nnot evaluated, since"), 2)
            self.assertEqual(answers(woven), [value(["x"]), value(["x"]), value(["p"])])
            self.assertEqual(self.logged("a")[:2], ["x", "die"])
            text = woven
        self.assertEqual(self.run_weave("--check", self.text).status, 1)
        again = self.weave(text.replace("die", "live"))
        self.assertEqual(answers(again)[:2], [value(["x"]), value(["x", "live"])])
        self.assertNotIn("no-answer", again)

    def test_too_long_and_controls(self) -> None:
        for wrong, why in [("x" * 4096, "4,096 bytes"), ("é" * 2048, "4,096 bytes"), ("a\x01", "a control character"), ("a\0", "a control character")]:
            woven = self.weave(self.front("a") + fences([("a", "x"), ("a", f"fine\n{wrong}\nafter"), ("a", "last")]), 1)
            self.assertEqual(woven.count("```tmhost-no-answer\nrefused: it has " + why), 1)
            self.assertEqual(answers(woven), [value(["x"]), value(["x", "fine"])])
            self.assertEqual(woven.count("not evaluated"), 1)
            os.remove(self.sheet)
        self.weave(self.front("a") + fences([("a", "x" * 4095)]))

    def test_seconds(self) -> None:
        text = self.front("a", "b") + fences([("a", "x"), ("a", "stuck"), ("b", "y"), ("a {pure}", "stuck"), ("a {pure}", "p")])
        woven = self.weave(text, 1, "--seconds", "5.5")
        self.assertEqual(woven.count("```tmhost-no-answer\nno answer within 5.5 seconds\n```"), 2)
        self.assertEqual(answers(woven), [value(["x"]), value(["y"]), value(["p"])])
        for wrong in ["0", "-1", "x", "nan", "inf"]:
            self.assertEqual(self.run_weave("--seconds", wrong, self.text).status, 2)

    def test_in_a_replay(self) -> None:
        text = self.front("a") + fences([("a", "sleep 0"), ("a", "x")])
        woven = self.weave(text)
        self.write(woven.replace("\nx\n", "\ny\n"))
        done = self.run_weave("--seconds", "1.5", self.text, TMHOST_SLEEP="4")
        self.assertEqual(done.status, 1)
        self.assertIn("since the replay of what stands before it failed: no answer within 1.5 seconds", self.read())
        self.assertEqual(answers(self.read()), answers(woven)[:1])
        self.assertEqual(len(self.fields()), 2)
        self.assertEqual(answers(self.weave(self.read())), [value(["sleep 0"]), value(["sleep 0", "y"])])

    def test_no_interpreter(self) -> None:
        woven = self.weave(self.front("a", b=[self.place("none")]) + fences([("b", "x"), ("a", "y"), ("b", "z")]), 1)
        self.assertIn(f"b: there is no program {self.place('none')}\n", self.run_weave().errors)
        self.assertIn("```tmhost-no-answer\nno answer: StartRefused\n```", woven)
        self.assertEqual(answers(woven), [value(["y"])])

    def test_sixty_four_sessions(self) -> None:
        names = [f"s{at}" for at in range(70)]
        woven = self.weave(self.front(**{name: [sys.executable, INTERPRETER, self.place("one.log")] for name in names[:2]},
                                      **{name: ["/bin/false"] for name in names[2:]}) + fences([(name, "x") for name in names]), 1)
        self.assertEqual(woven.count("no answer: "), 61)  # one session is the worksheet's own
        self.assertEqual(woven.count("refused: TooManySessions"), 7)
        self.assertEqual(answers(woven), [value(["x"])] * 2)

    def test_worksheets_of_others(self) -> None:
        text = self.front("a") + fences([("a", "x")])
        self.write(text)
        subprocess.run([PROGRAM, "create", self.sheet], check=True)
        subprocess.run([PROGRAM, "run", self.sheet], input=b"session a plain true\nnew 0 a mine\n", check=True, capture_output=True)
        done = self.run_weave()
        self.assertEqual((done.status, self.read(), [field["input"] for field in self.fields()]), (1, text, ["mine"]))
        self.assertIn("not one of tmhost-weave", done.errors)
        self.write("no worksheet\n", self.sheet)
        self.assertEqual((self.run_weave().status, self.read(self.sheet)), (1, "no worksheet\n"))
        os.rename(self.sheet, self.sheet + ".alt")
        self.assertIn("without", self.run_weave().errors)
        self.assertEqual(self.read(self.sheet + ".alt"), "no worksheet\n")

    def test_what_a_killed_making_leaves(self) -> None:
        self.write("", self.sheet + ".alt")
        self.write("x", self.sheet + ".new")
        self.write("y", self.sheet + ".new.alt")
        self.write("z", self.text + ".tmhost-weave")
        self.weave(self.front("a") + fences([("a", "x")]))
        self.assertEqual(sorted(os.listdir(self.folder)), ["a.log", "text.md", "text.sheet", "text.sheet.alt"])

    def test_changed_meanwhile(self) -> None:
        text = self.front("a") + fences([("a", "x"), ("a", f"until {self.place('end')}")])
        self.write(text)
        with subprocess.Popen(command_words(self.text), env=environment(), stderr=subprocess.PIPE) as weave:
            while not os.path.exists(self.place("a.log")):
                time.sleep(0.02)
            self.assertEqual((self.run_weave().status, "another tmhost-weave" in self.run_weave().errors), (1, True))
            self.write(text + "More.\n")
            self.write("", self.place("end"))
            assert weave.stderr
            reported = weave.stderr.read()
        self.assertEqual((weave.returncode, b"changed meanwhile" in reported), (1, True))
        self.assertEqual(self.read(), text + "More.\n")
        self.logged("a")
        self.weave(self.read())
        self.assertEqual(self.logged("a"), [])

    def test_killed_within_a_fence(self) -> None:
        """The fences that were answered whole are kept, and that one is evaluated again from its first line on."""
        lines = ["one", "two", "three", f"until {self.place('end')}", "four"]
        self.write(self.front("a") + fences([("a", "\n".join(lines[:2])), ("a", "\n".join(lines[2:]))]))
        with subprocess.Popen(command_words(self.text), env=environment(), stderr=subprocess.DEVNULL) as weave:
            while not os.path.exists(self.place("a.log")) or lines[3] not in self.read(self.place("a.log")):
                time.sleep(0.02)
            weave.kill()
        self.assertEqual([field["state"] for field in self.fields()][:3], ["answered"] * 3)
        self.write("", self.place("end"))
        self.logged("a")
        self.assertEqual(self.run_weave(), (0, "", f"{self.text}: a: 2 kept, 3 evaluated, 2 replayed\n"))
        self.assertEqual(self.logged("a"), lines)
        self.assertEqual(answers(self.read()), expected(lines))

    def test_in_use(self) -> None:
        """A worksheet that another program has for a moment is waited for."""
        self.weave(self.front("a") + fences([("a", "x")]))
        with subprocess.Popen([PROGRAM, "live", self.sheet], stdin=subprocess.PIPE, stdout=subprocess.PIPE) as other:
            assert other.stdin
            closing = threading.Timer(1, other.stdin.close)
            closing.start()
            self.assertEqual(self.run_weave("--check", self.text).status, 0)
            closing.join()

    def test_words(self) -> None:
        self.assertEqual(self.run_weave("--help").status, 0)
        version = subprocess.run([PROGRAM, "--version"], capture_output=True, text=True, check=True).stdout
        self.assertEqual(self.run_weave("--version"), (0, f"tmhost-weave: {version}", ""))
        self.assertEqual(self.run_weave("--version", TMHOST="/nope"), (1, "", "tmhost-weave: TMHOST names no program: /nope\n"))
        self.assertEqual(self.run_weave("--other", self.text).status, 2)
        self.assertEqual(self.run_weave(self.place("none.md")).status, 1)
        self.write(self.front("a") + "```a\nx\n")
        self.assertIn("isn't closed", self.run_weave().errors)
        self.write(self.front("a") + fences([("a", "x")]))
        self.assertEqual(self.run_weave(self.text, TMHOST=self.place("none")), (1, "", f"{self.text}: TMHOST names no program: {self.place('none')}\n"))
        shutil.move(self.text, self.sheet)
        self.assertIn("name of its worksheet", self.run_weave(self.sheet).errors)
