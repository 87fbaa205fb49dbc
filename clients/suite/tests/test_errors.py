"""Errors that are compared apart, and pictures and formulas by their bytes or left out."""
import unittest

from .support import Case, case
from tmhost import Answer, Block
from tmhost_fences.troubles import Trouble
from tmhost_suite.rules import Rules
from tmhost_suite.shown import shown_of
from tmhost_suite.text import Text


def apart(code: str, wanted: "str | None", errors: str) -> str:
    return case(code, wanted) + f"\n````error\n{errors}\n````\n"


class Errors(Case):
    def test_they_are_compared_apart_where_that_is_wanted(self) -> None:
        self.write(
            apart("error 2\\n|no x", "2", "no x"),
            apart("error 2|no x", "2", "no [xy] (re)"),
            apart("error 2|no x", "2", "no y"),
            apart("error 2|no x", "3", "no x"),
            apart("say no x", None, "no x"),  # a text is no error
            case("error 2\\n|no x", "2\nno x"),
        )
        found = self.objects(self.path)
        self.assertEqual([one["verdict"] for one in found], ["ok", "ok", "differs", "differs", "differs", "ok"], self.outcome.output)
        self.assertEqual([(one["came"], one["error"]) for one in found][3:], [("2", "no x"), ("no x", ""), ("2\nno x", "")])
        self.assertIn("  --- wanted error\n  +++ came error\n  @@ -1 +1 @@\n  -no y\n  +no x\n", self.outcome.output)

    def test_of_a_whole_text(self) -> None:
        self.write(case("error 2|no x", "2"), case("say 1", "1"), apart("error |no", None, "no"), more="errors: apart\n")
        self.assertEqual(self.verdicts(self.path), ["differs", "ok", "ok"], self.outcome.output)

    def test_they_are_accepted(self) -> None:
        self.write(case("error 2|no x"), apart("error |...", None, "old"), apart("say 3", "4", "none"), more="errors: apart\n")
        before = self.read()
        self.assertEqual(self.run_suite(self.path, "--accept").status, 1)
        self.assertEqual(self.verdicts(self.path), ["ok"] * 3, self.read())
        self.assertIn("error 2|no x\n````\n\n```answer\n2\n```\n\n```error\nno x\n```\n", self.read())
        self.assertEqual(self.read().count("```error"), 3)
        self.assertEqual(self.read().count("Text."), before.count("Text."))

    def test_a_long_one_goes_on(self) -> None:
        said = "\U0001f600" * 900
        self.write(apart("error 2|no y", "2", "no x"), apart(f"error 1|{said}\nstuck", "1\n? over 5 s", said).replace("````a", "````a {timeout 5}", 1), self.waiting())
        self.cut_off(2)
        self.assertEqual(self.verdicts(self.path, "--resume"), ["differs", "ok", "xfail"], self.outcome.output)
        self.assertIn("goes on after 2 of 3 cases", self.outcome.output)


class Texts(unittest.TestCase):
    def test_where_an_error_may_stand(self) -> None:
        def read(text: str) -> "list[tuple[str | None, str | None]]":
            return [(one.wanted, one.errors) for one in Text("suite.md", "---\nsessions: {a: [x]}\n---\n" + text).cases]

        fence, answer, error = "```a\nx\n```\n", "```answer\n1\n```\n", "```error\n2\n```\n"
        self.assertEqual(read(fence + answer + error), [("1", "2")])
        self.assertEqual(read(fence + error + "\n" + answer), [("1", "2")])
        self.assertEqual(read(fence + error + fence), [(None, "2"), (None, None)])
        for text in (error, fence + "Words.\n\n" + error, fence + error + error):
            with self.assertRaisesRegex(Trouble, "an error stands after no case"):
                read(text)
        with self.assertRaisesRegex(Trouble, "`errors` can only be `apart`"):
            Text("suite.md", "---\nsessions: {a: [x]}\nerrors: none\n---\n" + fence)
        with self.assertRaisesRegex(Trouble, "`without` can have pictures and formulas"):
            Text("suite.md", "---\nsessions: {a: [x]}\nwithout: words\n---\n" + fence)


class Pictures(unittest.TestCase):
    def answer(self, data: str) -> Answer:
        picture = Block("image/png;base64", "format", (data,))
        formula = Block("latex", "format", ("$x$",))
        whole = Block("verbatim", "format", ("a\x07\n", picture, "\n", formula, "\nb\n", b"\xff"))
        return Answer("", whole, "not looked at")

    def test_by_their_bytes(self) -> None:
        one, same, other = (shown_of(self.answer(data), Rules()).text for data in ("AAAA", "AAAA", "AAAB"))
        self.assertEqual(one, same)
        self.assertNotEqual(one, other)
        self.assertRegex(one, r"\Aa\\x07\n\{image/png;base64: 4 bytes, sha256 [0-9a-f]{16}\}\n\{latex:\$x\$\}\nb\n\\xff\Z")

    def test_left_out(self) -> None:
        self.assertNotIn("image", shown_of(self.answer("AAAA"), Rules(without=frozenset(["pictures"]))).text)
        self.assertEqual(shown_of(self.answer("AAAA"), Rules(without=frozenset(["pictures", "formulas"]))).text, "a\\x07\nb\n\\xff")
