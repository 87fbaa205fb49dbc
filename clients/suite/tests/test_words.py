"""The words of a case: several in one pair of braces, and those that would change nothing, which are refused."""
import unittest
from typing import Dict, List, Tuple

from .support import Case, case
from tmhost_suite.marks import read_marks
from tmhost_suite.text import Text
from tmhost_fences.troubles import Trouble

FRONT = "---\nsessions: {py: [x]}\n---\n"


def said(info: str) -> Dict[str, object]:
    """What an info string says, but for what it doesn't say."""
    none = read_marks("py", 1).__dict__
    return {name: value for name, value in read_marks(info, 1).__dict__.items() if value != none[name]}


class Several(unittest.TestCase):
    def test_in_one_pair_of_braces(self) -> None:
        """One after another. Each of these was obeyed up to its first word."""
        given: List[Tuple[str, Dict[str, object]]] = [
            ("py {pure skip}", {"is_independent": True, "skip": ""}),
            ("py {independent xfail quits at once}", {"is_independent": True, "xfail": "quits at once"}),
            ("py {setup timeout 1}", {"is_setup": True, "timeout": 1.0}),
            ("py {independent timeout 1}", {"is_independent": True, "timeout": 1.0}),
            ("py {timeout 1 setup}", {"is_setup": True, "timeout": 1.0}),
            ("py {whole hide}", {"is_whole": True}),
            ("py {hide, whole,fold}", {"is_whole": True}),
            ("py {flaky setup}", {"flaky": 1, "is_setup": True}),
            ("py {flaky 3, setup}", {"flaky": 3, "is_setup": True}),
            ("py {spaces any teardown}", {"any_spaces": True, "is_teardown": True}),
            ("py {whole tags a, setup}", {"is_whole": True, "tags": frozenset(["a", "setup"])}),
            ("py {xfail 'timeout, 1' timeout 2}", {"xfail": "timeout, 1", "timeout": 2.0}),
            ("py {skip_if \"^no: \" whole}", {"skip_if": "^no: ", "is_whole": True}),
            ("py {skip 'a' or 'b'}", {"skip": "a' or 'b"}),
            ("py {skip don't timeout 1}", {"skip": "don't timeout 1"}),
            ("py {name a sum, setup}", {"name": "a sum, setup"}),
            ("py {whole name ' a sum ' setup}", {"is_whole": True, "name": "a sum", "is_setup": True}),
            ("{.py name='a sum' .setup}", {"name": "a sum", "is_setup": True}),
        ]
        for info, wanted in given:
            with self.subTest(info):
                self.assertEqual(said(info), wanted)

    def test_numbers_and_rules(self) -> None:
        self.assertEqual([str(one) for one in read_marks("py {tolerance 1e-3 2 timeout 4}", 1).tolerance or ()], ["0.001", "2"])
        for info, pairs in (("{normal x y timeout 4}", [("x", "y")]), ("{normal x setup}", [("x", "setup")]), ("{normal , ;}", [(",", ";")]), ("{normal 'a b' \"c d\" normal e f}", [("a b", "c d"), ("e", "f")])):
            self.assertEqual([(rule.pattern.pattern, rule.put) for rule in read_marks(f"py {info}", 1).normal], pairs)

    def test_what_says_that_it_is_text(self) -> None:
        """As to tmhost-weave, and not within a reason."""
        text = "".join(f"```py {info}\nx\n```\n" for info in ("{whole literal}", "{pure, eval=FALSE}", "{hide literal}", "{xfail a literal}"))
        self.assertEqual([one.line for one in Text("suite.md", FRONT + text).cases], [13])


class Refused(unittest.TestCase):
    def refused(self, info: str, why: str) -> None:
        with self.subTest(info), self.assertRaises(Trouble) as raised:
            Text("suite.md", f"{FRONT}```{info}\nx\n```\n")
        self.assertEqual(str(raised.exception), "line 4: " + why)

    def test_in_braces(self) -> None:
        none = "is none of the words that a case can have: setup, teardown, whole, independent, pure, xfail, may_fail, skip, skip_if, timeout, tags, name, flaky, spaces, tolerance, normal"
        for info, why in (
            ("py {setup nonsense}", f"'nonsense' {none}"), ("py {teardown 1}", f"'1' {none}"), ("py {whole, setpu}", "'setpu' is none of the words that a case can have: is setup meant?"),
            ("py {independent xfial why}", "'xfial' is none of the words that a case can have: is xfail meant?"), ("py {hide now}", f"'now' {none}"),
            ("py {timeout 1 nonsense}", "'1 nonsense' is nothing that timeout can have"), ("py {spaces any thing}", "'any thing' is nothing that spaces can have"),
            ("py {timeout 1 literal}", "'1 literal' is nothing that timeout can have"), ("{.py .setup=no}", "'no' is nothing that setup can have"), ("{.py skip='}", "the quotes in \"{.py skip='}\" aren't closed"),
            ("py {name}", "'' is nothing that name can have"), ("py {name ' '}", "\"' '\" is nothing that name can have"), ("py {name a} {name b}", "name stands there twice"),
            ("py {timeout 1} {timeout 2}", "timeout stands there twice"), ("py {tags a} {tags b}", "tags stands there twice"),
            ("py {setup", "'{setup': a pair of braces isn't closed, or has others in it"), ("py {skip a {setup} b}", "'{skip': a pair of braces isn't closed, or has others in it"),
        ):
            self.refused(info, why)

    def test_without_braces(self) -> None:
        for info, name, meant in (
            ("py skip", "skip", "skip"), ("py setup", "setup", "setup"), ("py xfail broken", "xfail", "xfail broken"), ("py timeout 1", "timeout", "timeout 1"), ("py\ttimeout=5", "timeout", "timeout 5"),
            ("py setup nonsense", "setup", "setup"), ("py {whole} setup timeout 1 {tags a}", "setup", "setup timeout 1"), ("{.py .whole} skip", "skip", "skip"), ("py hide", "hide", "hide"),
            ("py literal", "literal", "literal"), ("py timeout", "timeout", "timeout"), ("py title='a' skip", "skip", "skip"),
        ):
            self.refused(info, f"'{name}' changes nothing without braces: {{{meant}}}")
        self.refused("py setpu", "'setpu' changes nothing: is {setup} meant?")

    def test_words_of_other_programs(self) -> None:
        for info in ("py title=\"please skip this\"", "py lines linenos=1 test_1", "{.py} copy", "py title='{'"):
            self.assertEqual(len(Text("suite.md", f"{FRONT}```{info}\nx\n```\n").cases), 1)
        others = "```json {start=3 tags}\n1\n```\n```text skip setup\n1\n```\n"
        self.assertEqual(len(Text("suite.md", f"{FRONT}```py\nx\n```\n\n{others}").cases), 1)

    def test_at_the_wrong_place(self) -> None:
        """Such fences were no cases, and nothing was said."""
        literal = "\n{literal} after the word of a fence says that it is text"
        for info, why in (
            ("py{whole}", "'py{whole}': write a blank before the braces"), ("py{1,3}", "'py{1,3}': write a blank before the braces"), ("answer{1}", "'answer{1}': write a blank before the braces"),
            ("py{skip it", "'py{skip': write a blank before the braces"), ("{#one .py .whole}", "'{#one': .py comes first in its braces"),
        ):
            self.refused(info, why + literal)
        for info in ("py{literal}", "{#one .json}", "{#one .py .literal}", "json{1,3}"):
            self.assertEqual(Text("suite.md", f"{FRONT}```{info}\nx\n```\n").cases, [])

    def test_a_name_of_two_cases(self) -> None:
        with self.assertRaises(Trouble) as raised:
            Text("suite.md", f"{FRONT}```py {{name a}}\nx\n```\n```py {{name b}}\nx\n```\n```py {{name 'a'}}\ny\n```\n")
        self.assertEqual(str(raised.exception), "line 10: the case in line 4 has the name 'a', too")

    def test_at_what_is_wanted(self) -> None:
        for kind, words in (("answer", "{spaces any}"), ("answer", "skip"), ("error", "{xfail why}")):
            with self.assertRaisesRegex(Trouble, f"line 8: the words of a case change nothing at the fence {kind}: they stand at that of its code"):
                Text("suite.md", f"{FRONT}```py\nx\n```\n\n```{kind} {words}\n1\n```\n")


class Whole(Case):
    def test_nothing_of_its_suite_is_run(self) -> None:
        """The other one is, and the status is 1."""
        other = self.place("other.md")
        self.write(case("say 3", "3", "b"), path=other)
        for info, why in (("a {setup nonsense}", "'nonsense' is none of the words that a case can have: "), ("a xfail broken", "'xfail' changes nothing without braces: {xfail broken}\n")):
            self.write(case("say 1", "1"), case("say 2", "2", info))
            ran = self.run_suite(self.path, other)
            self.assertEqual((ran.status, ran.output[:5], self.log("a")), (1, "1 ok ", []))
            self.assertIn(f"tmhost-suite: {self.path}: line 17: {why}", ran.errors)

    def test_they_are_obeyed(self) -> None:
        self.write(case("stuck", "? over 0.3 s", "a {independent timeout 0.3}"), case("say 2", "3", "a {pure skip}"), case("die", "4", "b {independent xfail quits}"))
        self.assertEqual(self.verdicts(self.path), ["ok", "skip", "xfail"])
