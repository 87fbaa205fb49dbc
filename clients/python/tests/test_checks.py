"""Checks of worksheets, and that each line of JSON is of the schema."""

import dataclasses
import importlib
import json
import os
import subprocess
import sys
import unittest
from typing import Any, Iterable, List, Union

from support import PROGRAM, ROOT, WORDS, Case, needs_program

from tmhost import Block, Checked, CheckWords, Compared, Died, InUse, NoWorksheet, Took, check
from tmhost.checks import words_of_check

SCHEMA = os.path.join(ROOT, "docs/use/json.schema.json")
TWICE = """import os, sys
write = lambda text: (sys.stdout.buffer.write(text), sys.stdout.flush())
write(b"\\x02verbatim:\\x05")
for line in sys.stdin:
    if line == "ends\\n" and os.path.exists(sys.argv[1]):
        sys.exit()
    write(b"\\x02verbatim:" + (b"caf\\xe9" if os.path.exists(sys.argv[1]) and line == "again\\n" else line.encode().strip()) + b"\\x05")
"""
# One whose answers are errors.
WRONG = r"""printf '\002verbatim:\005'; while read -r line; do printf '\002output#\002output#oops\005\005'; done"""


def lines(*words: str) -> List[bytes]:
    """The lines that the program writes."""
    return subprocess.run([PROGRAM, *words], stdin=subprocess.DEVNULL, stdout=subprocess.PIPE, stderr=subprocess.DEVNULL).stdout.splitlines()


def bare(reported: "Iterable[Union[Checked, Compared]]") -> "List[Union[Checked, Compared]]":
    """What a check reported, without what each field took, which differs in each run."""
    return [dataclasses.replace(one, took=None) if isinstance(one, Checked) else one for one in reported]


def starts(reported: "Iterable[Union[Checked, Compared]]") -> List[bool]:
    """Of each field, whether an interpreter was started for it. What it took is known."""
    return [one.took.started for one in reported if isinstance(one, Checked) and one.took and 0 <= one.took.millis < 60_000]


class Words(unittest.TestCase):
    def test_what_the_program_is_given(self) -> None:
        self.assertEqual(words_of_check("tmhost", "sheet", CheckWords()), ["tmhost", "check", "--json", "--jobs=1", "sheet"])
        asked = CheckWords("a", [3, 7], 60, 8, True, [1, 2])
        more = ["--only=a", "--leave-out=3,7", "--compare=1,2", "--timeout=60", "--all", "--jobs=8"]
        self.assertEqual(words_of_check("tmhost", "sheet", asked), ["tmhost", "check", "--json", *more, "sheet"])

    def test_what_it_is_not_asked_for(self) -> None:
        """Nothing is begun then."""
        old: Any = "a"
        self.assertRaisesRegex(TypeError, "CheckWords", check, "sheet", old)
        self.assertRaisesRegex(TypeError, "whole", check, "sheet", whole=True)


@needs_program
class Checks(Case):
    def made(self) -> None:
        """A worksheet of four fields, of which one is answered otherwise and one no more."""
        script, mark = os.path.join(self.folder, "twice.py"), os.path.join(self.folder, "mark")
        with open(script, "w") as file:
            file.write(TWICE)
        with self.open() as sheet:
            sheet.session("a", [sys.executable, "-S", "-E", script, mark])
            for text in ("same", "again", "ends", "last"):
                sheet.new("a", text).evaluate()
            sheet.new("a", "not evaluated")
        with open(mark, "w"):
            pass

    def test_each_field(self) -> None:
        self.made()
        reported = list(check(self.path, program=PROGRAM))
        self.assertEqual(starts(reported), [True, False, False, True])
        same, differs, unanswered, last, counts = bare(reported)
        self.assertEqual((same, last), (Checked(1, "a", "same"), Checked(4, "a", "same")))
        assert isinstance(differs, Checked) and differs.shows and differs.came and isinstance(unanswered, Checked) and unanswered.shows
        self.assertEqual((differs.id, differs.verdict, differs.input, differs.shows.text), (2, "differs", "again", "again"))
        self.assertEqual((differs.came.output, differs.came.text), (Block("verbatim", "format", (b"caf\xe9",)), b"caf\xe9"))
        self.assertEqual((unanswered.id, unanswered.verdict, unanswered.reason, unanswered.shows.text), (3, "unanswered", "Ended", "ends"))
        assert isinstance(counts, Compared)
        self.assertEqual(counts, Compared(2, 1, 1, 0))
        self.assertFalse(counts.is_same)

    def test_some_fields(self) -> None:
        self.made()
        reported = list(check(self.path, CheckWords("a", [2, 3], 60), PROGRAM))
        self.assertEqual([one.verdict for one in reported if isinstance(one, Checked)], ["same", "left_out", "left_out", "same"])
        self.assertEqual(reported[-1], Compared(2, 0, 0, 2))
        self.assertEqual(bare(check(self.path, only="a", leave_out=[2, 3], timeout=60, program=PROGRAM)), bare(reported))
        alone = list(check(self.path, only="a", compare=[1, 4], program=PROGRAM))
        self.assertEqual([one.verdict for one in alone if isinstance(one, Checked)], ["same", "left_out", "left_out", "same"])
        self.assertEqual(list(check(self.path, only="b", program=PROGRAM)), [Compared(0, 0, 0, 0)])
        self.assertEqual(list(check(self.path, CheckWords("a", jobs=8), PROGRAM, only="b")), [Compared(0, 0, 0, 0)])

    def test_errors(self) -> None:
        script = os.path.join(self.folder, "wrong.sh")
        with open(script, "w") as file:
            file.write(WRONG)
        with self.open() as sheet:
            sheet.session("a", ["sh", script])
            sheet.new("a", "x").evaluate()
        self.assertEqual(bare(check(self.path, program=PROGRAM)), [Checked(1, "a", "same"), Compared(1, 0, 0, 0, 1)])

    def test_all_fields(self) -> None:
        self.made()
        with self.open() as sheet:
            for text in ("ends", "after"):
                sheet.new("a", text)
        reported = list(check(self.path, program=PROGRAM, all=True))
        self.assertEqual(starts(reported), [True, False, False, True, False, False, True])
        *others, new, ends, after, counts = bare(reported)
        self.assertEqual(others, bare(check(self.path, program=PROGRAM))[:-1])
        assert isinstance(new, Checked) and new.came and isinstance(after, Checked) and after.came
        self.assertEqual(new, Checked(5, "a", "new", "not evaluated", came=new.came))
        self.assertEqual((new.came.text, after.verdict, after.came.text), ("not evaluated", "new", "after"))
        self.assertEqual(ends, Checked(6, "a", "unanswered", "ends", reason="Ended"))
        self.assertEqual(counts, Compared(2, 1, 2, 0, new=2))
        some = bare(check(self.path, leave_out=[2, 3, 6], program=PROGRAM, all=True))[-1]
        self.assertEqual(some, Compared(2, 0, 0, 3, new=2))
        assert isinstance(some, Compared)
        self.assertTrue(some.is_same)

    def test_side_by_side(self) -> None:
        self.made()
        self.assertEqual(bare(check(self.path, program=PROGRAM, jobs=8)), bare(check(self.path, program=PROGRAM)))
        with self.open() as sheet:
            sheet.session("b", WORDS)
            sheet.new("b", "hello")
        reported = list(check(self.path, program=PROGRAM, jobs=8, all=True))
        self.assertEqual(reported, bare(check(self.path, program=PROGRAM, all=True)))
        self.assertRaises(Died, list, check(self.path, program=PROGRAM, jobs=65))

    def test_faults(self) -> None:
        with self.assertRaises(NoWorksheet) as reported:
            list(check(self.path, program=PROGRAM))
        self.assertIsInstance(reported.exception, FileNotFoundError)
        self.assertEqual((reported.exception.fault, reported.exception.number, reported.exception.status), ("Disk", 32, 1))
        sheet = self.open()
        self.assertRaises(InUse, list, check(self.path, program=PROGRAM))
        sheet.close()

    def test_a_number_that_no_field_has(self) -> None:
        self.made()
        with self.assertRaises(Died) as reported:
            list(check(self.path, leave_out=[2, 9], program=PROGRAM))
        self.assertEqual((reported.exception.fault, reported.exception.number, reported.exception.status), ("NoField", 37, 1))

    def test_it_is_closed_early(self) -> None:
        sheet = self.open()
        sheet.session("a", WORDS)
        for number in range(100):
            sheet.new("a", "hello").evaluate()
        sheet.close()
        reported = check(self.path, program=PROGRAM)
        first = next(reported)
        assert isinstance(first, Checked) and first.took
        self.assertEqual(first, Checked(1, "a", "same", took=Took(first.took.millis, True)))
        reported.close()
        self.open().close()

    def test_lines_are_of_the_schema(self) -> None:
        try:
            jsonschema: Any = importlib.import_module("jsonschema")  # by its name: mypy needs no stubs of it
        except ImportError:
            self.skipTest("there is no jsonschema")
        with open(SCHEMA) as file:
            schema = jsonschema.Draft202012Validator(json.load(file))
        self.made()
        everything = [json.loads(line) for line in lines("check", "--json", "--all", self.path)]
        with self.open() as sheet:
            sheet.session("b", WORDS)
            lacking = sheet.new("b", "die").id
        everything += [json.loads(line) for line in lines("check", "--json", "--all", self.path)]
        for one in everything:
            schema.validate(one)
        self.assertEqual([one["verdict"] for one in everything if one["type"] == "checked"], 2 * ["same", "differs", "unanswered", "same", "new"] + ["unanswered"])
        self.assertEqual([one["took"] is None for one in everything if one["type"] == "checked"], 5 * [False] + 6 * [True])
        self.assertIsNone(everything[-3]["shows"])
        with self.open() as sheet:
            sheet.remove(lacking)
        reported = [json.loads(line) for line in [*lines("check", "--json", self.path), *lines("check", "--json", "--leave-out=2", self.path),
                                              *lines("eval", "--json", self.path, "9"), *lines("check", "--json", "--leave-out=9", self.path),
                                              *lines("check", "--json", self.folder)]]
        for one in reported:
            schema.validate(one)
        self.assertEqual([one["type"] for one in reported], ["hello", *4 * ["checked"], "compared", "end", "hello", *4 * ["checked"], "compared", "end", "hello", "fault", "fault", "fault"])
        self.assertEqual(reported[-3:-1], 2 * [{"id": 9, "name": "NoField", "number": 37, "type": "fault"}])

        with self.open() as sheet:
            sheet.session("gone", ["./no-program"])
            lacking = sheet.new("gone", "hello").id
        unfound = [json.loads(line) for line in lines("eval", "--json", self.path, str(lacking))]
        for one in unfound:
            schema.validate(one)
        self.assertEqual(unfound[1:], [{"name": "NoProgram", "number": 44, "session": "gone", "type": "fault"}])


if __name__ == "__main__":
    unittest.main()
