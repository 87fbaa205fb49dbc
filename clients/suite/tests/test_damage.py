"""A worksheet of an earlier run that can't be read, or opened: a run that begins sets the first aside, and what needs it says so, with what to do."""
import os
from typing import List, Tuple

from .support import PROGRAM, Case, case
from tested import fields_of
from tmhost import Worksheet


class Damaged(Case):
    def setUp(self) -> None:
        super().setUp()
        self.write(case("say 1", "2"), case("say 3", "3"))
        self.assertEqual(self.run_suite(self.path).status, 1)  # so its worksheet stays
        self.sheet = self.path + ".run"
        os.unlink(self.place("a.log"))

    def refused(self, said: str, *given: str) -> None:
        ran = self.run_suite(self.path, *given)
        self.assertEqual((ran.status, ran.errors, self.log("a")), (1, f"tmhost-suite: {self.path}: {self.sheet}: {said}\n", []))

    def test_what_needs_it_is_refused(self) -> None:
        for size, fault in ((64, "fault 30 Damaged at 10"), (7, "fault 31 NotASheet"), (0, "fault 31 NotASheet")):
            self.damage(size)
            before = self.files()
            for option in ("--resume", "--rerun failed"):
                self.refused(f"{fault}: it can't be read, so {option} can't go by it; run the suite without {option}: that file is set aside then", *option.split())
            self.assertEqual(self.files(), before)

    def damage(self, size: int) -> None:
        os.truncate(self.sheet, size)
        if size > 11:
            with open(self.sheet, "r+b") as file:
                file.seek(11)  # the length of its first record
                file.write(b"\xff")

    def files(self) -> List[str]:
        return sorted(name for name in os.listdir(self.folder) if ".run" in name)

    def test_a_run_sets_it_aside(self) -> None:
        """It is kept, byte for byte, and what was set aside before, too. The run is as any other, and a later one finds what it keeps."""
        aside = ["suite.md.run.damaged", "suite.md.run.damaged1", "suite.md.run.damaged2"]
        for count, (name, size) in enumerate(zip(aside, (64, 7, 0))):
            self.damage(size)
            before = self.read_bytes(self.sheet)
            self.assertEqual(self.verdicts(self.path), ["differs", "ok"])
            fault = "fault 30 Damaged at 10" if size == 64 else "fault 31 NotASheet"
            self.assertIn(f"{self.path}: what an earlier run kept can't be read ({fault}): it is {self.place(name)} now, and the suite begins again\n", self.outcome.output)
            self.assertEqual(self.read_bytes(self.place(name)), before)
            self.assertEqual(self.files(), ["suite.md.run", "suite.md.run.alt", *sorted(end for one in aside[: count + 1] for end in (one, one + ".alt"))])
        self.assertEqual(self.verdicts(self.path, "--rerun", "failed"), ["differs"])
        self.assertNotIn("can't be read", self.outcome.output)

    def read_bytes(self, path: str) -> bytes:
        with open(path, "rb") as file:
            return file.read()

    def test_another_suite_runs_beside_it(self) -> None:
        self.damage(64)
        other = self.place("other.md")
        self.write(case("say 4", "4", "b"), path=other)
        self.assertEqual(self.run_suite(self.path, other, "--rerun", "failed").status, 1)
        self.assertEqual(self.verdicts(self.path, other), ["differs", "ok", "ok"])

    def test_a_worksheet_of_somebody_else(self) -> None:
        """It isn't taken for one of a run, and stays."""
        for name in (self.sheet, self.sheet + ".alt"):
            os.unlink(name)
        with Worksheet(self.sheet, create=True, program=PROGRAM) as sheet:
            sheet.session("mine", ["cat"])
            sheet.new("mine", "kept")
        given: Tuple[List[str], ...] = ([], ["--resume"])
        for words in given:
            ran = self.run_suite(self.path, *words)
            said = f"tmhost-suite: {self.path}: {self.sheet} is a worksheet, but not one of tmhost-suite: it stays as it is; move it away, or give --runs FOLDER\n"
            self.assertEqual((ran.status, ran.errors, self.log("a")), (1, said, []))
        self.assertEqual([field.input for field in fields_of(self.sheet)], ["kept"])
        self.assertEqual(self.verdicts(self.path, "--runs", self.place("runs")), ["differs", "ok"])

    def test_one_that_cannot_be_opened(self) -> None:
        os.link(self.sheet, self.place("kept"))
        for words in ("", "--resume", "--rerun failed"):
            self.refused("fault 32 Disk: it has another name, which is a hard link; `cp` makes a copy of its own", *words.split())
