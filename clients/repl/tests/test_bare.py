"""Words that start an interpreter by its bare name: it has no blocks, so its first line would be waited for without end. That is said, and nothing waits."""
import os
import time
import unittest
from typing import Tuple

from .support import INTERPRETER, PROGRAM, Case, Worksheet

WHY = "py: python3 by itself has no blocks for its answers: the words tmhost-python start it with an adapter"
SOON = 60.0  # seconds, on a machine with other work too


class Bare(Case):
    def make_bare(self) -> None:
        """A worksheet with such a session and an own one, as an earlier repl made it, a field of each, and a text."""
        with Worksheet(self.sheet, create=True, program=PROGRAM) as worksheet:
            for name, words in (("py", ["python3"]), ("t", INTERPRETER), ("prose", ["true"])):
                worksheet.session(name, words)
                worksheet.new(name, f"of {name}")

    def test_in_a_pipe(self) -> None:
        """It ends at once with status 2, and makes neither the worksheet nor the session."""
        began = time.monotonic()
        self.assertEqual(self.pipe("print(1)\n", "--create", self.sheet, "py", "python3"), (2, "", f"tmhost-repl: {WHY}\n"))
        self.assertLess(time.monotonic() - began, SOON)
        self.assertEqual(os.listdir(self.folder), [])
        self.make()
        self.assertEqual(self.pipe("print(1)\n", self.sheet, "py", "python3", "-u"), (2, "", f"tmhost-repl: {WHY}\n"))
        with Worksheet(self.sheet, program=PROGRAM) as worksheet:
            self.assertEqual(list(worksheet.sessions), ["t"])
        self.assertEqual(self.pipe("print(1)\n", "--create", self.sheet, "py", "tmhost-python"), (0, "1\n", ""))

    def test_a_session_that_is_there(self) -> None:
        self.make_bare()
        given: Tuple[Tuple[str, ...], ...] = ((), ("python3",))
        for words in given:
            self.assertEqual(self.pipe("print(1)\n", self.sheet, "py", *words), (2, "", f"tmhost-repl: {WHY}\n"))
        self.assertEqual(self.pairs(), [("of py", None), ("of t", None), ("of prose", None)])

    def test_a_session_that_is_gone_to(self) -> None:
        """It is refused, and lines stay with the session before."""
        self.make_bare()
        text = "a\n%session py\n%session sh sh -i\nb\n%sessions\n"
        status, out, errors = self.pipe(text, self.sheet, "t")
        self.assertEqual((status, out.splitlines()[:2], "  sh: " in out), (1, ["a", "b"], False))
        self.assertEqual(errors.splitlines(), [f"tmhost-repl: {WHY}", "tmhost-repl: sh: sh by itself has no blocks for its answers: the words tmhost-sh start it with an adapter"])

    def test_all_fields(self) -> None:
        """Those of such a session are passed over, which is said; those of others are evaluated."""
        self.make_bare()
        self.assertEqual(self.pipe("%eval-all\n", self.sheet, "t"), (1, "of t\n", f"tmhost-repl: not evaluated: 1 of {WHY}\n"))
        self.assertEqual(self.pipe("%from 2\n", self.sheet, "t"), (0, "of t\n", ""))
        self.assertEqual(self.pairs(), [("of py", None), ("of t", "of t"), ("of prose", None)])

    def test_at_a_terminal(self) -> None:
        """It ends there too, before it asks whether to make the worksheet."""
        terminal = self.terminal(self.sheet, "py", "python3", columns=160)
        self.assertEqual((terminal.ends(SOON), terminal.screen.text()), (2, f"({WHY})"))
        self.assertEqual(os.listdir(self.folder), [])

    def test_at_a_terminal_that_runs(self) -> None:
        self.make_bare()
        terminal = self.terminal(self.sheet, "t", columns=160)
        terminal.sees("t>")
        terminal.send("%session py\r")
        terminal.sees(rf"^t> %session py\n\({WHY}\)\nt>\Z")
        terminal.send("\x04")
        self.assertEqual(terminal.ends(), 0)


if __name__ == "__main__":
    unittest.main()
