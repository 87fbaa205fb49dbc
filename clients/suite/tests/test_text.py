"""The text form: how it is read, and how answers are put into it."""
import random
import unittest
from typing import List

from .support import Case, case
from tmhost_suite.text import Text
from tmhost_fences.troubles import Trouble

FRONT = "---\nsessions: {a: [x], b: [x]}\n---\n"


def read(text: str, front: str = FRONT) -> Text:
    return Text("suite.md", front + text)


class Reading(unittest.TestCase):
    def test_a_fence_of_a_session_is_a_case(self) -> None:
        found = read("One.\n\n```a\nx\n```\n\n```answer\n1\n2\n```\n\n~~~b {whole}\ny\n\nz\n~~~\n\n```c\nno\n```\n").cases
        self.assertEqual([(one.session, one.lines, one.wanted, one.line) for one in found], [("a", ("x",), "1\n2", 6), ("b", ("y", "", "z"), None, 15)])

    def doubts(self, text: str, front: str = FRONT) -> List[str]:
        with self.assertRaises(Trouble) as raised:
            read(text, front)
        self.assertEqual(raised.exception.lines[-1], "{literal} after the word of a fence says that it is text")
        return list(raised.exception.lines[:-1])

    def test_a_fence_with_the_name_of_an_adapter(self) -> None:
        """Its author may have meant the session that this starts, so it is refused."""
        front = "---\nsessions: {py: [tmhost-python], a: [x]}\n---\n"
        self.assertEqual(self.doubts("```python\nx\n```\n\n```json\n1\n```\n", front), ["line 4: 'python' is no session (py, a): is py meant?"])
        self.assertEqual(self.doubts("```py\nx\n```\n", front.replace("py:", "python:")), ["line 4: 'py' is no session (python, a): is python meant?"])

    def test_a_fence_with_the_word_of_an_adapter(self) -> None:
        front = "---\nsessions: {gp: [tmhost-gp], py: [tmhost-python]}\n---\n"
        for name, meant in (("tmhost-gp", "gp"), ("tmhost-pg", "gp"), ("tmhost-python", "py")):
            self.assertEqual(self.doubts(f"```{name}\n1\n```\n", front), [f"line 4: '{name}' is no session (gp, py): is {meant} meant?"])
        self.assertEqual(len(read("```gp\n1\n```\n\n```tmhost-answer\n1\n```\n\n```tmhost-error\n1\n```\n", front).cases), 1)

    def test_a_fence_that_is_misspelt(self) -> None:
        """Otherwise its test would be lost, and nobody would hear of it."""
        front = "---\nsessions: {gp: [x], py: [y]}\n---\n"
        found = self.doubts("```py\nx = 1\n```\n\n```anwser\n1\n```\n\n```py\n2\n```\n```answer\n2\n```\n```pyy\n3\n```\n```Error\n```\n~~~{.gpp}\n~~~\n", front)
        self.assertEqual(found, ["line 8: 'anwser': is answer meant?", "line 18: 'pyy' is no session (gp, py): is py meant?", "line 21: 'Error': is error meant?", "line 23: 'gpp' is no session (gp, py): is gp meant?"])
        self.assertEqual(self.doubts("```pyy\n1\n```\n```answer\n1\n```\n", front), ["line 4: 'pyy' is no session (gp, py): is py meant?"])
        self.assertEqual(self.doubts("```py\n1\n```\n```anwser\n```\n```error\n```\n", front), ["line 7: 'anwser': is answer meant?"])
        self.assertEqual(self.doubts("```{py}\n1\n```\n", front), ["line 4: `{py}` is a chunk of another program, and no fence of a session: is `{.py}` meant?"])

    def test_a_fence_of_another_language(self) -> None:
        """One whose word looks like that of a case says that it is text, by a word that tmhost-weave has, too."""
        front = "---\nsessions: {gp: [tmhost-gp], py: [tmhost-python]}\n---\n"
        others = "```gap {literal}\n1\n```\n```python {eval=FALSE}\n1\n```\n```{.pyy .literal}\n1\n```\n```py {hide, eval=FALSE}\n1\n```\n```sage\n1\n```\n```json\n1\n```\n```text\n1\n```\n```{error}\n```\n```\n1\n```\n"
        self.assertEqual([one.line for one in read(others + "```py {xfail by eval=FALSE literal}\n1\n```\n", front).cases], [30])
        with self.assertRaisesRegex(Trouble, "line 7: an answer stands after no case"):
            read("```py {literal}\n1\n```\n```answer\n1\n```\n")

    def test_a_title(self) -> None:
        titles = [one.title for one in read("```a\n\n x\ny\n```\n\n```a\ntmhost_skips || {\n{\nseq 3\n} >out\n}\n```\n\n```a\n{\n```\n").cases]
        self.assertEqual(titles, ["x", "seq 3", "{"])

    def test_fences_that_are_whole(self) -> None:
        fields = [[field.input for field in read("```a\nx\ny\n```\n", FRONT[:-4] + more + "---\n").cases[0].fields] for more in ("", "fences: whole\n")]
        self.assertEqual(fields, [["x", "y"], ["x\u2028y"]])

    def test_an_empty_answer_is_wanted_empty(self) -> None:
        self.assertEqual([one.wanted for one in read("```a\nx\n```\n```answer\n```\n").cases], [""])

    def test_marks(self) -> None:
        marks = read("```a {setup} {xfail it is slow} {timeout 2.5} {tags p, q} {flaky 3}\nx\n```\n").cases[0].marks
        self.assertEqual((marks.is_setup, marks.xfail, marks.timeout, marks.tags, marks.flaky), (True, "it is slow", 2.5, {"p", "q"}, 3))
        marks = read("```a {xfail \"it is slow\"} {skip_if '^skipped: '} {skip '}\nx\n```\n").cases[0].marks
        self.assertEqual((marks.xfail, marks.skip_if, marks.skip), ("it is slow", "^skipped: ", "'"))

    def test_rules_of_a_case(self) -> None:
        text = read("```a {tolerance 1e-3} {normal 'in [0-9]+ ms' 'in TIME'} {normal x y}\nx\n```\n\n```a {tolerance 0 2}\nx\n```\n\n```a\nx\n```\n", FRONT[:-4] + "normal: {z: Z}\ntolerance: 1e-6\n---\n")
        rules = [text.suite.rules_of(one) for one in text.suite.cases]
        self.assertEqual([(str(one.relative), str(one.absolute)) for one in rules], [("0.001", "0"), ("0", "2"), ("0.000001", "0")])
        self.assertEqual([[it.pattern.pattern for it in one.normal] for one in rules], [["z", "in [0-9]+ ms", "x"], ["z"], ["z"]])

    def test_marks_of_pandoc(self) -> None:
        marks = read('``` {.a .setup timeout=2 tags="p q" skip="no net"}\nx\n```\n').cases[0].marks
        self.assertEqual((marks.is_setup, marks.timeout, marks.tags, marks.skip), (True, 2.0, {"p", "q"}, "no net"))

    def test_what_is_refused(self) -> None:
        for text, why in (
            ("```a {setpu}\nx\n```\n", "line 4: 'setpu' is none of the words that a case can have: is setup meant?"),
            ("```a {other}\nx\n```\n", "line 4: 'other' is none of the words that a case can have: setup, teardown, "),
            ("```a {tolerance -1}\nx\n```\n", "line 4: '-1' is nothing that tolerance can have"),
            ("```a {tolerance 1 2 3}\nx\n```\n", "nothing that tolerance can have"),
            ("```a {normal x}\nx\n```\n", "nothing that normal can have"),
            ("```a {normal [ x}\nx\n```\n", "nothing that normal can have"),
            ("```a {timeout soon}\nx\n```\n", "line 4: 'soon' is nothing that timeout can have"),
            ("```a\nx\n```\n\nWords.\n\n```answer\n1\n```\n", "line 10: an answer stands after no case"),
            ("```a\nx\n", "the fence in line 4 isn't closed"),
            ("```a\n\n```\n", "line 4: the case has no code"),
        ):
            with self.assertRaisesRegex(Trouble, why):
                read(text)

    def test_front_matter_that_is_misspelt(self) -> None:
        """All such keys at once. Those of other programs aren't, and no key where the one that it looks like is there, too."""
        for more, meant in (
            ("tolerence: 1\nTimeout: 3\ntitle: x\n", ["'tolerence': is tolerance meant?", "'Timeout': is timeout meant?"]),
            ("folders: .\nsession: q\n", ["'folders': is folder meant?"]), ("fence: whole\n", ["'fence': is fences meant?"]),
        ):
            with self.assertRaises(Trouble) as raised:
                read("```a\nx\n```\n", FRONT[:-4] + more + "---\n")
            self.assertEqual(raised.exception.lines, tuple(f"the front matter has {one}" for one in meant))
        others = "title: x\nauthor: y\ndate: z\nsession: 3\noutput: none\nformat: html\nfooter: no\nerror: x\nerrors: apart\n"
        self.assertEqual(len(read("```a\nx\n```\n", FRONT[:-4] + others + "---\n").cases), 1)
        for key in ("session", "Sessions", "sesions"):
            with self.assertRaisesRegex(Trouble, f"\\Athe front matter has '{key}': is sessions meant\\?\\Z"):
                read("```a\nx\n```\n", FRONT.replace("sessions", key))
        with self.assertRaisesRegex(Trouble, "the front matter is no YAML: .*unhashable key"):
            read("```a\nx\n```\n", FRONT[:-4] + "? [a]\n: b\n---\n")

    def test_a_session_that_may_be_mistyped(self) -> None:
        found = self.doubts("```a\nx\n```\n\n```aa {setup}\ny\n```\n\n```c {hide}\nz\n```\n\n```python {'}\n```\n")
        self.assertEqual(found, ["line 8: 'aa' is no session (a, b)"])

    def test_front_matter_that_is_refused(self) -> None:
        for more, why in (
            ("normal: {'[': x}\n", "`normal` has the pattern"),
            ("normal: x\n", "`normal` is no mapping"),
            ("normal: {'a': '\\1'}\n", "which is no rule: invalid group reference"),
            ("tolerance: much\n", "the tolerance 'much' is no number"),
            ("tolerance: -1\n", "is no number from 0 on"),
            ("timeout: 0\n", "`timeout` is no number of seconds"),
        ):
            with self.assertRaisesRegex(Trouble, why):
                read("```a\nx\n```\n", "---\nsessions: {a: [x]}\n" + more + "---\n")


class Accepting(unittest.TestCase):
    def test_only_the_answers_change(self) -> None:
        text = read("Words.\r\n\r\n```a\r\nx\r\n```\r\n\r\n```answer\r\n1\r\n```\r\nMore.\r\n\r\n> ```b\r\n> y\r\n> ```\r\n\r\nEnd", FRONT.replace("\n", "\r\n"))
        self.assertEqual(
            text.checked({0: "2\n3", 1: "4"})[len(FRONT) + 3 :],
            "Words.\r\n\r\n```a\r\nx\r\n```\r\n\r\n```answer\r\n2\r\n3\r\n```\r\nMore.\r\n\r\n> ```b\r\n> y\r\n> ```\r\n>\r\n> ```answer\r\n> 4\r\n> ```\r\n\r\nEnd",
        )

    def test_a_fence_that_is_the_last_line(self) -> None:
        self.assertEqual(read("```a\nx\n```").checked({0: "1"}), FRONT + "```a\nx\n```\n\n```answer\n1\n```\n")

    def test_hostile_answers_stand_as_they_are(self) -> None:
        chance = random.Random(2)
        parts = ["```", "````", "~~~", "answer", "```a", "> ", "- x", "", " ", "---", "<!--", "# h", "\t", "[a]: b", "\\"]
        text = read("1. ```a\n   x\n   ```\n\n```b\ny\n```\n")
        for _ in range(2000):
            answers = {at: "\n".join("".join(chance.choices(parts, k=chance.randint(0, 3))) for _ in range(chance.randint(1, 5))) for at in (0, 1)}
            try:
                new = text.checked(answers)
            except Trouble:
                continue  # such as a line of blanks in a list; nothing was written
            self.assertEqual([one.wanted for one in Text("suite.md", new).cases], list(answers.values()))


class Whole(Case):
    def test_a_text_without_sessions(self) -> None:
        with open(self.path, "w", encoding="utf-8") as file:
            file.write("```a\nx\n```\n")
        self.assertIn("names no sessions", self.run_suite(self.path).errors)

    def test_accepted_answers_pass(self) -> None:
        self.write(case("say one"), case("say two\\n```\\nthree", "no"), case("quiet"), case("say four", "four"))
        before = self.read()
        self.assertEqual(self.verdicts(self.path), ["new", "differs", "ok", "ok"])
        self.assertEqual(self.read(), before)
        accepted = self.run_suite("--accept", self.path)
        self.assertEqual((accepted.status, accepted.output.split("\n")[-2]), (1, f"{self.path}: 2 accepted"))
        self.assertEqual(self.verdicts(self.path), ["ok", "ok", "ok", "ok"])

    def test_what_is_no_answer_is_not_accepted(self) -> None:
        self.write(case("die", "10"), case("say two", "no", "a {independent}"), case("stuck", "11", "a {timeout 1}"))
        accepted = self.run_suite("--accept", self.path)
        self.assertEqual(accepted.status, 1)
        self.assertIn(f"{self.path}: 2 not accepted, since no answer came to a field\n{self.path}: 1 accepted\n", accepted.output)
        self.assertEqual(self.verdicts(self.path), ["ended", "ok", "over"])
        self.run_suite("--accept", "--interactive", self.path, given="y\nn\n")
        self.assertEqual(self.verdicts(self.path), ["ok", "ok", "over"])

    def test_an_answer_that_reads_as_a_pattern_is_accepted_as_it_is(self) -> None:
        self.write(case("say ...", "x"), case("say a (re)"))
        self.run_suite("--accept", self.path)
        self.assertEqual(self.verdicts(self.path), ["ok", "ok"])
        self.write(case("say b", "\\.\\.\\. (re)"), case("say b", "a (re)"))
        self.assertEqual(self.verdicts(self.path), ["differs", "differs"])

    def test_accepting_one_by_one(self) -> None:
        self.write(case("say one", "x"), case("say two", "y"))
        self.run_suite("--accept", "--interactive", self.path, given="n\ny\n")
        self.assertEqual(self.verdicts(self.path), ["differs", "ok"])
