"""Answers, completions, and what comes in their place."""

import time
import unittest

from support import SECONDS, Case, needs_program

from tmhost import Answer, Block, Completions, Evaluation, Lost, LostItem, Refused, TimedOut, readable


@needs_program
class Answers(Case):
    def test_text(self) -> None:
        sheet = self.sheet()
        answer = sheet.new("a", "hello").evaluate(timeout=SECONDS)
        self.assertEqual((answer.text, answer.shown_bytes, str(answer), answer.prompt), ("hello", b"hello", "hello", "> "))
        self.assertEqual(answer.output, Block("verbatim", "format", ("hello",)))
        cell = sheet.cell(1)
        self.assertEqual((cell.state, cell.text, cell.answer, cell.reason), ("answered", "hello", answer, None))
        self.assert_exact(sheet)

    def test_bytes_that_are_no_text(self) -> None:
        sheet = self.sheet()
        answer = sheet.new("a", "latin").evaluate()
        self.assertEqual((answer.text, answer.shown_bytes, str(answer)), (b"caf\xe9", b"caf\xe9", "caf\\xe9"))
        self.assertEqual((answer.output.items, answer.output.plain), ((b"caf\xe9",), b"caf\xe9"))
        self.assert_exact(sheet)

    def test_control_bytes(self) -> None:
        answer = self.sheet().new("a", "control").evaluate()
        self.assertEqual(answer.output.plain, "\x01\x02\x05\x1b\x7f\n\t")
        self.assertEqual(answer.text, "\\x01\\x02\\x05\\x1b\\x7f\n\t")

    def test_blocks(self) -> None:
        answer = self.sheet().new("a", "formula x^2").evaluate()
        latex, warning = Block("latex", "format", ("$x^2$",)), Block("warning", "channel", ("odd",))
        self.assertEqual(answer.output, Block("verbatim", "format", ("so ", latex, warning)))
        self.assertEqual((answer.find("latex"), answer.find("verbatim"), answer.find("no")), ([latex], [answer.output], []))
        self.assertEqual((answer.text, answer.output.plain), ("so {latex:$x^2$}{warning#odd}", "so $x^2$odd"))

    def test_pictures_in_a_few_words(self) -> None:
        picture = Block("image/svg+xml", "format", ("<svg>\x01\u00e9</svg>",))
        text = "a\n{image/svg+xml:<svg>\\x01\u00e9</svg>}b {image/svg+xml:x}"
        answer = Answer("", Block("verbatim", "format", ("a\n", picture, "b {image/svg+xml:x}")), text)
        self.assertEqual(answer.brief, "a\n{image/svg+xml: 14 bytes}b {image/svg+xml:x}")
        self.assertEqual(answer.output.pictures, [picture])
        self.assertEqual(Block("image/png", "format", (picture,)).pictures, [picture])

    def test_errors(self) -> None:
        """Those that adapters write, which print shows bare, and those of the channel `error`."""
        sheet = self.sheet()
        error, own, none = (sheet.new("a", text).evaluate() for text in ("error no way", "reported no", "formula x"))
        self.assertEqual((error.errors, error.text), (["no way"], "so\nno way"))
        self.assertEqual((own.errors, own.text), (["no"], "{error#no}and more"))
        self.assertEqual((none.errors, Block("output", "channel", ("x",)).errors), ([], []))
        deep = Block("verbatim", "format", (Block("output", "channel", (Block("output", "channel", ("a", Block("latex", "format", ("$b$",)))), "c")),))
        self.assertEqual([one.plain for one in deep.errors], ["a$b$"])
        self.assert_exact(sheet)

    def test_prompts(self) -> None:
        sheet = self.sheet()
        one, two = sheet.new("a", "prompted x"), sheet.new("a", "cut")
        self.assertEqual([cell.evaluate().prompt for cell in (one, two)], ["> ", "In 1] "])
        cut = sheet.new("a", "x").evaluate().prompt
        self.assertEqual((cut, readable(cut)), (("\u00e9" * 600).encode()[1:1025], "\\xa9" + "\u00e9" * 511 + "\\xc3"))
        self.assert_exact(sheet)

    def test_a_question_mark_and_no_answer(self) -> None:
        sheet = self.sheet()
        mark, none, nothing, like_lost = (sheet.new("a", text) for text in ("?", "?", "nothing", "? Ended"))
        for cell in (mark, nothing, like_lost):
            cell.evaluate()
        self.assertEqual([(cell.state, cell.text) for cell in (mark, none)], [("answered", "?"), ("empty", None)])
        self.assertEqual([(cell.state, cell.text) for cell in (nothing, like_lost)], [("answered", ""), ("answered", "? Ended")])
        self.assert_exact(sheet)

    def test_lines_in_turn(self) -> None:
        sheet = self.sheet()
        cells = [sheet.new("a", "sleep 1"), *(sheet.new("a", "count") for _ in range(30))]
        evaluations = [cell.eval() for cell in cells]
        self.assertEqual(cells[30].state, "waiting")
        self.assertEqual([one.result(SECONDS).text for one in evaluations[1:]], [str(number) for number in range(2, 32)])
        self.assertTrue(all(one.done() for one in evaluations))
        self.assert_exact(sheet)

    def test_whose_turn_it_is(self) -> None:
        sheet = self.sheet("a", "b")
        first, second, other = sheet.new("a", "sleep 60"), sheet.new("a", "count"), sheet.new("b", "sleep 60")
        sheet.new("a", "hello").evaluate(timeout=SECONDS)  # after it a signal ends no interpreter
        waits = [first.eval(), second.eval(), other.eval()]
        self.until(lambda: other.turn == "running")
        self.assertEqual([cell.turn for cell in sheet.cells], ["running", "queued", "running", None])
        self.interrupt(waits[0])
        self.assertEqual(waits[1].result(SECONDS).text, "3")
        self.assertEqual([cell.turn for cell in sheet.cells], [None, None, "running", None])
        words, number = self.busy()
        sheet.session("c", words)
        mute = sheet.new("c", "x")
        mute.eval()
        number()
        self.assertEqual((mute.state, mute.turn), ("waiting", "queued"))  # it has no banner
        sheet.stop("c")
        self.assertEqual((mute.state, mute.turn), ("lost", None))

    def test_an_answer_that_is_asked_for_again(self) -> None:
        sheet = self.sheet()
        cell = sheet.new("a", "count")
        self.assertEqual([cell.evaluate().text for _ in range(3)], ["1", "2", "3"])
        cell.set("sleep 60")
        evaluation = cell.eval()
        self.assertEqual((cell.state, cell.text, evaluation.done()), ("waiting", None, False))

    def test_sessions_side_by_side(self) -> None:
        sheet = self.sheet("a", "b")
        slow, quick = sheet.new("a", "sleep 60"), sheet.new("b", "quick")
        waits = slow.eval()
        self.assertEqual(quick.evaluate(timeout=SECONDS).text, "quick")
        self.assertFalse(waits.done())
        self.assertEqual([session.waiting for session in sheet.sessions.values()], [1, 0])
        self.assertEqual(len({session.life for session in sheet.sessions.values()}), 2)
        self.assert_exact(sheet)


@needs_program
class Lines(Case):
    """Lines that aren't answered, or not soon."""

    def assert_lost(self, reason: str, evaluation: Evaluation) -> None:
        with self.assertRaises(Lost) as reported:
            evaluation.result(SECONDS)
        self.assertEqual(reported.exception.reason, reason)

    def test_lost_by_a_stop(self) -> None:
        sheet = self.sheet("a", "b")
        cells = [sheet.new("a", text) for text in ("hello", "sleep 60", "x", "y")]
        cells[0].evaluate()
        evaluations = [cell.eval() for cell in cells[1:]]
        self.assertEqual(sheet.stop("a"), tuple(self.lost(*cells[1:])))
        for evaluation in evaluations:
            self.assert_lost("Stopped", evaluation)
        self.assertEqual([cell.state for cell in cells], ["answered", "lost", "empty", "empty"])
        self.assertEqual([cell.reason for cell in cells], [None, "Stopped", None, None])
        self.assertEqual((sheet.sessions["a"].life, sheet.sessions["a"].waiting), (None, 0))
        self.assertEqual((sheet.stop("a"), sheet.stop("b")), ((), ()))
        self.assert_exact(sheet)

    def test_lost_by_ends(self) -> None:
        sheet = self.sheet()
        reasons = {"die": "Ended", "half": "Ended", "tag": "BadTag"}
        for text, reason in reasons.items():
            cell, after = sheet.new("a", text), sheet.new("a", "x")
            waits = [cell.eval(), after.eval()]
            for evaluation in waits:
                self.assert_lost(reason, evaluation)
            self.assertEqual((cell.state, cell.reason, after.state), ("lost", reason, "empty"))
            self.assert_exact(sheet)
        self.assertEqual(after.evaluate().text, "x")

    def test_an_answer_and_an_end_in_one_piece(self) -> None:
        """The line after such an answer keeps no reason, which can't be known without a look."""
        sheet = self.sheet()
        cells = [sheet.new("a", text) for text in ("sleep 0.3", "both", "x", "y")]
        waits = [cell.eval() for cell in cells]
        self.assertEqual([one.result(SECONDS).text for one in waits[:2]], ["slept", "whole"])
        for evaluation in waits[2:]:
            self.assert_lost("BadTag", evaluation)
        self.assert_exact(sheet)
        self.assertEqual(cells[3].state, "empty")

    def test_an_interpreter_that_does_not_start(self) -> None:
        sheet = self.open()
        sheet.session("a", ["/nonexistent/interpreter"])
        cell = sheet.new("a", "x")
        self.assert_lost("StartRefused", cell.eval())
        self.assertEqual((cell.state, cell.reason), ("lost", "StartRefused"))
        error = cell.eval().exception(SECONDS)
        assert isinstance(error, Lost)
        self.assertEqual(error.words, sheet.sessions[cell.session].words)
        self.assert_exact(sheet)

    def test_timeouts(self) -> None:
        sheet = self.sheet()
        sheet.new("a", "x").evaluate()
        cell = sheet.new("a", "sleep 60")
        begun = time.monotonic()
        with self.assertRaises(TimeoutError) as reported:
            cell.evaluate(timeout=0.3)
        self.assertIsInstance(reported.exception, TimedOut)
        self.assertRegex(str(reported.exception), r"\A(cell 2 has no answer after 0\.3 seconds|eval: 0\.3 seconds are over)\Z")  # the time that was given
        self.assertTrue(0.3 <= time.monotonic() - begun < SECONDS / 2)
        sheet.refresh()  # after its reply the line is asked, however slow that was
        waits = cell.evaluation
        assert waits
        self.assertEqual((cell.state, waits.done()), ("waiting", False))
        self.assertFalse(waits.cancel())
        self.assertRaises(TimedOut, waits.result, 0)
        self.assertRaises(TimedOut, waits.exception, 0.01)
        self.interrupt(waits)
        self.assertEqual(waits.result().text, "interrupted")
        self.assert_exact(sheet)

    def test_interrupts(self) -> None:
        sheet = self.sheet()
        self.assertEqual(sheet.interrupt("a"), "idle")
        counted = sheet.new("a", "count")
        self.assertEqual(counted.evaluate().text, "1")
        self.assertEqual(sheet.interrupt("a"), "idle")
        cell = sheet.new("a", "sleep 60")
        evaluation = cell.eval()
        self.interrupt(evaluation)
        self.assertEqual((evaluation.result().text, counted.evaluate().text), ("interrupted", "3"))
        self.assert_exact(sheet)

    def test_waits(self) -> None:
        sheet = self.sheet("a", "b")
        self.assertTrue(sheet.wait() and sheet.wait(1))
        slow, quick = sheet.new("a", "sleep 0.2"), sheet.new("b", "x")
        slow.eval(), quick.eval()
        self.assertTrue(sheet.wait(60))
        self.assertEqual((slow.text, quick.text), ("slept", "x"))
        slow.set("sleep 60")
        evaluation, other = slow.eval(), quick.eval()
        self.assertFalse(sheet.wait(1))
        self.assert_lost("Stalled", evaluation)
        self.assertEqual((slow.reason, other.result(SECONDS).text), ("Stalled", "x"))
        self.assert_exact(sheet)


@needs_program
class Completing(Case):
    def test_completions(self) -> None:
        sheet = self.sheet("a_tab")
        cell = sheet.new("a_tab", "pr\u00e9")
        reported = cell.complete(timeout=SECONDS)
        assert reported
        self.assertEqual(reported, Completions("pr\u00e9", ("a", "\u00e9", b"\xe9")))
        self.assertEqual(reported.words, ["pr\u00e9a", "pr\u00e9\u00e9", b"pr\xc3\xa9\xe9"])
        self.assertEqual(cell.complete(2), Completions("pr", ("a", "\u00e9", b"\xe9")))
        self.assertEqual(sheet.complete(1, 0), Completions("", ("a", "\u00e9", b"\xe9")))
        self.assertEqual(cell.state, "empty")
        self.assert_exact(sheet)

    def test_completions_of_a_text(self) -> None:
        """It isn't the cell's, which keeps what it shows."""
        sheet = self.sheet("a_tab")
        cell = sheet.new("a_tab", "x")
        cell.evaluate()
        self.assertEqual(cell.complete(text="pr\u00e9"), Completions("pr\u00e9", ("a", "\u00e9", b"\xe9")))
        self.assertEqual(cell.complete(2, text="pr\u00e9"), Completions("pr", ("a", "\u00e9", b"\xe9")))
        self.assertEqual(cell.complete(text="a\nb"), Completions("a\u2028b", ("a", "\u00e9", b"\xe9")))
        self.assertEqual(cell.complete(text=""), Completions("", ("a", "\u00e9", b"\xe9")))
        with self.assertRaises(Refused) as raised:
            cell.complete(3, text="pr\u00e9")
        self.assertEqual(raised.exception.name, "BadCursor")
        with self.assertRaises(Refused) as raised:
            cell.complete(text="x" * 4096)
        self.assertEqual(raised.exception.name, "BadInput")
        self.assertEqual((cell.state, cell.input, cell.text), ("answered", "x", "x"))
        self.assert_exact(sheet)

    def test_quotes(self) -> None:
        cell = self.sheet("a_tab").new("a_tab", 'f("x"')
        self.assertRaises(Refused, cell.complete, 7)
        self.assertIsNone(cell.complete())  # the interpreter doesn't escape the quotes in its root

    def test_an_answer_that_tells_none(self) -> None:
        self.assertIsNone(self.sheet("a_tab").new("a_tab", "odd").complete())

    def test_requests_among_lines(self) -> None:
        sheet = self.sheet("a_tab")
        sheet.new("a_tab", "x").evaluate()
        line, asked = sheet.new("a_tab", "sleep 60"), sheet.new("a_tab", "re")
        waits = line.eval()
        self.assertRaisesRegex(TimedOut, r"\Acomplete: 0\.05 seconds are over\Z", asked.complete, timeout=0.05)
        asked.remove()
        after = sheet.new("a_tab", "count").eval()
        self.interrupt(waits)
        self.assertEqual((waits.result(SECONDS).text, after.result(SECONDS).text), ("interrupted", "4"))
        self.assert_exact(sheet)

    def test_a_request_that_is_lost(self) -> None:
        sheet = self.sheet("a_tab")
        cell, after = sheet.new("a_tab", "die"), sheet.new("a_tab", "x")
        with self.assertRaises(Lost):
            cell.complete(timeout=SECONDS)
        self.assertEqual((cell.state, sheet.sessions["a_tab"].life), ("empty", None))
        sheet.new("a_tab", "sleep 60").eval()
        self.assertRaises(TimedOut, after.complete, timeout=0)
        evaluation = after.eval()
        self.assertEqual(after.evaluation, evaluation)
        lost = sheet.stop("a_tab")
        self.assertEqual(lost, (LostItem(3, "sleep 60"), LostItem(2, "x", 1), LostItem(2, "x")))
        self.assert_exact(sheet)


if __name__ == "__main__":
    unittest.main()
