"""Scripts that `run --json` does."""

import os
import unittest
from typing import List, Sequence

from support import PROGRAM, WORDS, Case, is_there, needs_program

from tmhost import Answered, Ended, InUse, Made, NoWorksheet, OneField, Refusal, Reply, Sheet, Waited, Warned, run


def kinds(reported: Sequence[object]) -> List[str]:
    """The types of what was reported; of a line with its number."""
    return [f"{one.line} {one.type}" if isinstance(one, Reply) else type(one).__name__ for one in reported]


@needs_program
class Runs(Case):
    def script(self, *lines: str) -> str:
        return "".join(line + "\n" for line in (" ".join(["session", "a", "plain", *WORDS]), *lines))

    def made(self) -> None:
        self.open().close()

    def test_each_line(self) -> None:
        self.made()
        reported = list(run(self.path, self.script("new 0 a hello", "eval 1", "# a remark", "wait", "print 1", "what", "eval 2", "print"), program=PROGRAM))
        self.assertEqual(
            kinds(reported),
            ["1 done", "2 made", "3 asked", "4 nothing", "Banner", "Answered", "5 waited", "6 field", "7 bad", "8 refused", "9 field", "9 sheet"],
        )
        made, answered, waited, field, refused = reported[1], reported[5], reported[6], reported[7], reported[9]
        assert isinstance(made, Made) and isinstance(answered, Answered) and isinstance(waited, Waited) and isinstance(field, OneField)
        assert isinstance(refused, Refusal) and isinstance(reported[11], Sheet)
        self.assertEqual((made.id, answered.id, waited.over, refused.name), (1, 1, "idle", "NoField"))
        self.assertEqual(field.field.answer, answered.answer)

    def test_what_was_reported_is_there(self) -> None:
        self.made()
        list(run(self.path, self.script("new 0 a hello", "eval 1", "wait"), program=PROGRAM))
        with self.open() as sheet:
            self.assertEqual([cell.state for cell in sheet.cells], ["answered"])

    def test_one_that_is_stuck(self) -> None:
        self.made()
        words, _ = self.busy()
        lines = [" ".join(["session", "b", "plain", *words]), "new 0 b x", "eval 1", "wait", "print 1"]
        reported = list(run(self.path, "".join(line + "\n" for line in lines), timeout=1, program=PROGRAM))
        self.assertEqual(kinds(reported), ["1 done", "2 made", "3 asked", "Warned", "Ended", "4 waited", "5 field"])
        warned = reported[3]
        assert isinstance(warned, Warned)
        self.assertEqual((warned.session, warned.life, warned.outcome), ("b", 1, "sent"))

    def test_faults(self) -> None:
        with self.assertRaises(FileNotFoundError) as raised:
            list(run(os.path.join(self.folder, "none"), "print\n", program=PROGRAM))
        assert isinstance(raised.exception, NoWorksheet)
        self.assertEqual((raised.exception.number, raised.exception.fault), (32, "Disk"))
        with self.sheet(), self.assertRaises(InUse):
            list(run(self.path, "print\n", program=PROGRAM))

    def test_closed_early(self) -> None:
        self.made()
        words, number = self.busy()
        lines = [" ".join(["session", "b", "plain", *words]), "new 0 b x", "eval 1", "wait"]
        reported = run(self.path, "".join(line + "\n" for line in lines), program=PROGRAM)
        self.assertEqual(kinds([next(reported), next(reported), next(reported)]), ["1 done", "2 made", "3 asked"])
        there = number()
        reported.close()
        self.until(lambda: not is_there(there))
        with self.open() as sheet:
            self.assertEqual([cell.state for cell in sheet.cells], ["empty"])


if __name__ == "__main__":
    unittest.main()
