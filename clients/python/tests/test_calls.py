"""Commands, what they change and what is refused."""

import json
import unittest
from typing import Any, Callable, List

from support import WORDS, Case, needs_program

from tmhost import BadLine, Closed, Gone, Refused, Session, Worksheet


@needs_program
class Calls(Case):
    def ids(self, sheet: Worksheet) -> List[int]:
        return [cell.id for cell in sheet.cells]

    def assert_refused(self, name: str, number: int, call: Callable[..., object], *words: Any, **more: Any) -> None:
        with self.assertRaises(Refused) as reported:
            call(*words, **more)
        self.assertEqual((reported.exception.name, reported.exception.number), (name, number))

    def test_an_empty_worksheet(self) -> None:
        sheet = self.open()
        self.assertEqual((sheet.cells, sheet.fields, sheet.sessions, sheet.next_id, sheet.error), ([], [], {}, 1, None))
        self.assert_exact(sheet)

    def test_places_of_new_cells(self) -> None:
        sheet = self.sheet()
        first = sheet.new("a", "one")
        sheet.new("a", "two")
        sheet.new("a", "three", after=0)
        sheet.new("a", "four", after=first)
        sheet.new("a", "five", after=3)
        self.assertEqual(self.ids(sheet), [3, 5, 1, 4, 2])
        self.assertEqual([cell.input for cell in sheet.cells], ["three", "five", "one", "four", "two"])
        self.assert_exact(sheet)

    def test_moves(self) -> None:
        sheet = self.sheet()
        one, two, three = (sheet.new("a", text) for text in ("one", "two", "three"))
        three.move(0)
        self.assertEqual(self.ids(sheet), [3, 1, 2])
        sheet.move(3, two)
        self.assertEqual(self.ids(sheet), [1, 2, 3])
        one.move()
        self.assertEqual(self.ids(sheet), [2, 3, 1])
        self.assert_refused("SamePlace", 8, one.move)
        self.assert_refused("SamePlace", 8, two.move, 0)
        self.assert_refused("NoField", 2, sheet.move, 1, 9)
        self.assert_exact(sheet)

    def test_a_cell_that_goes(self) -> None:
        sheet = self.sheet()
        cell, other = sheet.new("a", "x"), sheet.new("a", "y")
        self.assertTrue(cell.exists and sheet.cell(1) == cell and hash(sheet.cell(1)) == hash(cell))
        cell.remove()
        self.assertFalse(cell.exists)
        for look in (lambda: cell.field, lambda: cell.input, lambda: sheet.cell(1), lambda: sheet.cell(7)):
            self.assertRaises(Gone, look)
        self.assert_refused("NoField", 2, cell.set, "z")
        self.assertEqual((sheet.cells, sheet.new("a").id), ([other], 3))
        self.assert_exact(sheet)

    def test_other_inputs(self) -> None:
        sheet = self.sheet()
        cell = sheet.new("a", "nothing")
        cell.evaluate()
        cell.set("two\nlines\tand\u00e9 \U0001f600")
        self.assertEqual((cell.state, cell.input), ("empty", "two\u2028lines\tand\u00e9 \U0001f600"))
        self.assertEqual(cell.lines, ["two", "lines\tand\u00e9 \U0001f600"])
        self.assertEqual(cell.evaluate().text, cell.input)
        cell.clear()
        self.assertEqual((cell.state, cell.answer, cell.text, cell.output, cell.prompt), ("empty", None, None, None, None))
        self.assert_exact(sheet)

    def test_inputs_that_are_refused(self) -> None:
        sheet = self.sheet()
        cell = sheet.new("a", "before")
        for text in ("\0", "bell \x07", "return\r", "\r\r", "\r\n", "half \ud800", "x" * 4096, "\u00e9" * 2048):
            with self.subTest(text=text[:9]):
                self.assert_refused("BadInput", 7, cell.set, text)
                self.assert_refused("BadInput", 7, sheet.new, "a", text)
        for text in ("", " ", "# x", "x" * 4095, "\x7f\x85", " spaces  stay "):
            cell.set(text)
            self.assertEqual(cell.input, text)
            self.assertEqual(sheet.new("a", text).input, text)
        self.assert_exact(sheet)

    def test_lines_that_are_bad(self) -> None:
        sheet = self.sheet()
        cell = sheet.new("a", "x")
        for call in (lambda: cell.set("x" * 70_000), lambda: sheet.remove(-1), lambda: sheet.eval(2**32), lambda: sheet.wait(0)):
            self.assertRaises(BadLine, call)
        self.assertEqual(cell.input, "x")
        self.assert_exact(sheet)

    def test_sessions(self) -> None:
        sheet = self.open()
        made = sheet.session("a", ["sh", "x.sh"])
        self.assertEqual(made, Session("a", ("sh", "x.sh"), False, None, 0))
        self.assertEqual(sheet.session("b", " sh  y.sh ", tab=True).words, ("sh", "y.sh"))
        self.assertEqual(sheet.ensure_session("a", "sh x.sh"), made)
        self.assertEqual(sheet.ensure_session("c", "sh z.sh").name, "c")
        self.assertEqual(list(sheet.sessions), ["a", "b", "c"])
        self.assert_refused("SessionExists", 4, sheet.ensure_session, "a", "sh x.sh", tab=True)
        self.assert_refused("SessionExists", 4, sheet.ensure_session, "a", "sh")
        self.assert_refused("SessionExists", 4, sheet.session, "a", "sh x.sh")
        self.assert_exact(sheet)

    def test_names_and_words_that_are_refused(self) -> None:
        sheet = self.sheet()
        for name in ("", "a b", "a/b", "x\nsession z plain p", "x" * 33, "\u00e9", "a\r", "a\n"):
            with self.subTest(name=name):
                self.assert_refused("BadName", 5, sheet.session, name, ["p"])
                self.assert_refused("NoSession", 1, sheet.new, name, "x")
                self.assert_refused("NoSession", 1, sheet.stop, name)
                self.assert_refused("NoSession", 1, sheet.interrupt, name)
        for words in ([], [""], ["a b"], ["a\nremove 1"], ["a", ""], ["\x07"], ["a\r"], ["x" * 1025], ["x"] * 17, "", ["\ud800"]):
            with self.subTest(words=words):
                self.assert_refused("BadWords", 6, sheet.session, "b", words)
        self.assertEqual(list(sheet.sessions), ["a"])
        for call in (lambda: sheet.new("b"), lambda: sheet.stop("b"), lambda: sheet.interrupt("b")):
            self.assert_refused("NoSession", 1, call)
        self.assert_exact(sheet)

    def test_refusals_of_what_waits(self) -> None:
        sheet = self.sheet("a", "b_tab")
        cell, other = sheet.new("a", "sleep 60"), sheet.new("b_tab", "\u00e9")
        evaluation = cell.eval()
        for call in (cell.eval, cell.clear, cell.remove, lambda: cell.set("y")):
            self.assert_refused("InFlight", 3, call)
        self.assertEqual((cell.state, cell.evaluation), ("waiting", evaluation))
        self.assertEqual((sheet.sessions["a"].waiting, sheet.sessions["b_tab"].waiting), (1, 0))
        self.assert_refused("NoTab", 12, cell.complete)
        self.assert_refused("BadCursor", 13, other.complete, 1)
        self.assert_refused("BadCursor", 13, other.complete, 3)
        self.assert_exact(sheet)
        sheet.stop("a")
        self.assertEqual((cell.state, cell.evaluation), ("lost", None))
        self.assert_exact(sheet)

    def test_exports(self) -> None:
        sheet = self.open()
        self.assertEqual([sheet.export(format) for format in ("script", "markdown")], ["", ""])
        sheet.session("a", "sh x.sh")
        sheet.new("a", "one\ntwo")
        self.assertEqual(sheet.export("script"), "session a plain sh x.sh\nnew 0 a one\u2028two\n")
        self.assertEqual(sheet.export("markdown"), "```a\none\ntwo\n```\n\n*no answer*\n")
        page = sheet.export("html")
        self.assertTrue(isinstance(page, str) and page.startswith("<!doctype html>") and "<title>worksheet</title>" in page)
        self.assertEqual(json.loads(sheet.export("notebook"))["nbformat"], 4)
        self.assertEqual([json.loads(line)["type"] for line in str(sheet.export("json")).splitlines()], ["hello", "field", "sheet", "end"])
        for format in ("pdf", "", "html ", "script\nremove 1"):
            self.assertRaises(BadLine, sheet.export, format)
        self.assert_exact(sheet)

    def test_an_export_that_is_no_text(self) -> None:
        sheet = self.sheet()
        sheet.new("a", "latin").evaluate()
        reported = sheet.export("markdown")
        self.assertTrue(isinstance(reported, bytes) and b"caf\xe9" in reported)

    def test_a_cell_of_another_worksheet(self) -> None:
        sheet = self.sheet()
        cell = sheet.new("a", "x")
        self.path += "2"
        other = self.sheet()
        other.new("a", "y")
        for call in (other.remove, other.clear, other.eval, lambda its: other.new("a", "z", after=its)):
            self.assertRaises(ValueError, call, cell)
        self.assertNotEqual(cell, other.cell(1))

    def test_a_worksheet_that_is_opened_again(self) -> None:
        with self.sheet() as sheet:
            cells = [sheet.new("a", text) for text in ("latin", "formula x^2", "die", "nothing", "count")]
            for cell in cells[:4]:
                cell.eval().exception()
            cells[0].move()
            cells[3].remove()
            sheet.checkpoint()
            held = self.shown(sheet)
        self.assertEqual(self.shown(sheet)[0], held[0])
        self.assertIsInstance(sheet.error, Closed)
        self.assertRaises(Closed, sheet.new, "a", "x")
        again = self.open()
        self.assertEqual((again.fields, again.next_id, list(again.sessions)), (held[0], held[2], ["a"]))
        self.assertEqual(again.sessions["a"], Session("a", tuple(WORDS), False, None, 0))

    def test_an_exception_within(self) -> None:
        with self.assertRaises(ZeroDivisionError), self.sheet() as sheet:
            sheet.new("a", "x")
            1 / 0
        self.assertEqual(self.open().cell(1).input, "x")


if __name__ == "__main__":
    unittest.main()
