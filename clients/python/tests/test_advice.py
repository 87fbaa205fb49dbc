"""What a person is shown of each fault: its path, what it means and what to do."""

import asyncio
import os
import re
import subprocess
import unittest
from typing import Callable, Tuple

from support import PROGRAM, ROOT, WORDS, Case, needs_program

from tmhost import AsyncWorksheet, Died, Lost, NoWorksheet, Refused, Worksheet, check, run
from tmhost.advice import ADVICE, OF_A_CACHE, OF_LOSSES, OF_REFUSALS, UNSEEN, advised, reason_of_end
from tmhost.program import NOT_UTF8

FAULTS, SCRIPT = (os.path.join(ROOT, "docs", "use", name) for name in ("FAULTS.md", "SCRIPT.md"))
ROW = re.compile(r"^\| (\d+) (\w+)", re.MULTILINE)
MOST_WORDS = 25


class Table(unittest.TestCase):
    def test_each_fault_of_the_page_has_its_advice(self) -> None:
        """But 20, which no program reports."""
        with open(FAULTS, encoding="utf-8") as file:
            faults = {int(number): name for number, name in ROW.findall(file.read())}
        self.assertEqual(faults.pop(20), "Closed")
        self.assertEqual(sorted(ADVICE), [number for number in sorted(faults) if number > 9])
        for number, name in faults.items():
            for again in (None, "do it again"):
                said = advised(Died(name, number, "", 1, 52 if number == 30 else None), "/no/such/sheet", again)
                self.assertRegex(said, rf"\A/no/such/sheet: fault {number} {name}( at 52)?: [^{{}}]+[a-z)`/A-Z]\Z")

    def test_no_sentence_is_long(self) -> None:
        for text in (*ADVICE.values(), *OF_A_CACHE.values(), *OF_REFUSALS.values(), *OF_LOSSES.values(), UNSEEN):
            for part in re.split(r"[;:] ", text):
                self.assertLessEqual(len(part.split()), MOST_WORDS, part)

    def test_each_refusal_and_each_reason_of_the_page_has_its_advice(self) -> None:
        with open(SCRIPT, encoding="utf-8") as file:
            page = file.read()
        refusals = re.findall(r"^\| (\d+) \| (\w+) \|", page[page.index("## Refusals") : page.index("Where several apply")], re.MULTILINE)
        self.assertEqual([name for _, name in refusals], list(OF_REFUSALS))
        for number, name in refusals:
            self.assertEqual(advised(Refused(name, int(number)), "sheet"), f"sheet: refused: {name} ({number}): {OF_REFUSALS[name]}")
        self.assertIn("at most 4,095 bytes", advised(Refused("BadInput", 7), "sheet"))
        reasons = re.search(r"The reasons are those of \[PROTOCOL\]\(.*?\): ([\w, ]+)\.", page)
        assert reasons
        self.assertEqual(sorted(reasons[1].split(", ")), sorted(OF_LOSSES))
        for name in OF_LOSSES:
            self.assertEqual(advised(Lost(name), "sheet"), f"sheet: lost: {name}: {OF_LOSSES[name]}")

    def test_an_interpreter_that_cannot_be_started_is_named(self) -> None:
        for words, why in (
            (("tmhost-no-such", "-q"), "there is no program tmhost-no-such"),
            (("tmhost-pyhton",), "there is no program tmhost-pyhton: is tmhost-python meant?"),
            (("true", "-q"), f"true -q: {OF_LOSSES['StartRefused']}"),
        ):
            self.assertEqual(advised(Lost("StartRefused", words), "sheet"), f"sheet: lost: StartRefused: {why}")
        self.assertEqual(advised(Lost("Ended", ("true",)), "sheet"), f"sheet: lost: Ended: {OF_LOSSES['Ended']}")

    def test_what_is_no_fault(self) -> None:
        for error, said in (
            (NoWorksheet("a/b"), "No such file or directory: a/b"), (Died(None, None, "", -9), "tmhost ended by signal 9"),
            (Died("Later", 99, "", 1), "tmhost ended: fault 99 Later"), (Lost("Later"), "lost: Later"), (Refused("Later", 99), "refused: Later (99)"), (PermissionError(13, "Permission denied", "x"), "Permission denied: x"),
        ):
            self.assertEqual(advised(error, "sheet", "do it again"), said)

    def test_of_what_stands_on_standard_error(self) -> None:
        self.assertEqual(reason_of_end("fault 34 NotEmpty\n", 1, "x"), f"fault 34 NotEmpty: {ADVICE[34]}")
        self.assertEqual(reason_of_end("no such task\n", 2, "x"), "tmhost ended with status 2: no such task")
        self.assertEqual(reason_of_end("", 2, "x"), "tmhost ended with status 2")
        self.assertEqual(reason_of_end("", -9, "x\udcff"), "tmhost ended by signal 9")
        self.assertEqual(reason_of_end("fault 34 NotEmpty\n", 1, "x\udcff"), f"fault 34 NotEmpty: {ADVICE[34]}")


@needs_program
class Real(Case):
    def setUp(self) -> None:
        super().setUp()
        with self.open() as sheet:
            sheet.session("a", WORDS)
            sheet.checkpoint()
        self.second = self.path + ".alt"

    def write(self, path: str, at: int, data: bytes) -> None:
        with open(path, "r+b") as file:
            file.seek(at)
            file.write(data)

    def said(self, again: str = "") -> str:
        with self.assertRaises(Died) as caught:
            Worksheet(self.path, program=PROGRAM)
        return advised(caught.exception, self.path, again or None)

    def test_a_damage(self) -> None:
        with open(self.path, "rb") as file:
            active = self.second if file.read(10)[9:] == b"B" else self.path
        with open(active, "rb") as file:
            gate = file.read(11).index(b"R")
        self.write(active, gate + 1, b"\xff")  # the length of the first record
        start = f"{self.path}: fault 30 Damaged at {gate}: it can't be read from byte {gate} on; "
        self.assertEqual(self.said(), f"{start}keep both files: `tmhost rescue {self.path} NEW` writes what stands before that to a new worksheet")
        self.assertEqual(self.said("weave again"), f"{start}remove {self.path} and {self.second} and weave again: the answers in them are lost")
        rescued = subprocess.run([PROGRAM, "rescue", self.path, self.path + "2"], capture_output=True)
        self.assertEqual(rescued.returncode, 0, rescued.stderr)

    def test_what_is_no_worksheet(self) -> None:
        for data in (b"", b"TMWS", b"some text, and more"):
            with open(self.path, "wb") as file:
                file.write(data)
            start = f"{self.path}: fault 31 NotASheet: it is no worksheet, or it was cut or is empty; "
            self.assertEqual(self.said(), start + "look at the path")
            self.assertEqual(self.said("weave again"), f"{start}where nobody needs them, remove {self.path} and {self.second} and weave again")

    def test_a_file_that_another_client_takes(self) -> None:
        for name, taken_by in (("a.md", "for a Markdown text use tmhost-weave or tmhost-import"), ("a.Rmd", "for a Markdown text use tmhost-weave or tmhost-import"), ("a.ipynb", "tmhost-import makes one of it")):
            self.path = os.path.join(self.folder, name)
            with open(self.path, "w", encoding="ascii") as file:
                file.write("# No worksheet at all\n")
            self.assertEqual(self.said(), f"{self.path}: fault 31 NotASheet: it is no worksheet; {taken_by}")

    def test_what_cannot_be_opened(self) -> None:
        """What is said is what keeps it from being opened, as it opens when that is undone."""
        kept = self.path + ".kept"
        start = f"{self.path}: fault 32 Disk: "
        os.link(self.path, kept)
        self.assertEqual(self.said("weave again"), start + "it has another name, which is a hard link; `cp` makes a copy of its own")
        os.unlink(kept)
        os.rename(self.path, kept)
        os.mkdir(self.path)
        self.assertEqual(self.said("weave again"), start + "it is a folder; take another path")
        os.rmdir(self.path)
        os.rename(kept, self.path)
        os.rename(self.second, kept)
        self.assertEqual(self.said(), f"{start}the worksheet lies in {self.second}, which isn't there; put that file back")
        os.symlink(kept, self.second)
        self.assertEqual(self.said(), f"{start}{self.second} is a link; put the file itself there")
        os.unlink(self.second)
        os.rename(kept, self.second)
        self.open().close()

    def test_one_in_use(self) -> None:
        with self.open():
            self.assertEqual(self.said("weave again"), f"{self.path}: fault 35 InUse: it is in use by another program; `fuser {self.path}` says which: wait for its end, or end it")

    def test_the_second_file(self) -> None:
        with self.assertRaises(Died) as caught:
            Worksheet(self.second, program=PROGRAM)
        self.assertEqual(advised(caught.exception, self.second), f"{self.second}: fault 38 SecondFile: this is the second file of a worksheet; give the path without .alt")

    def test_a_folder_that_is_not_there(self) -> None:
        path = os.path.join(self.folder, "none", "sheet")
        made = subprocess.run([PROGRAM, "create", path], capture_output=True)
        said = reason_of_end(made.stderr.decode(), made.returncode, path)
        self.assertEqual(said, f"fault 32 Disk: there is no folder {os.path.dirname(path)}; make it, or take another path")

    def test_a_path_that_is_not_utf8(self) -> None:
        """The program refuses it without a text. Each call that starts it says why, and a client that starts it by itself does."""
        for bad in (os.path.join(self.folder, "bad\udcff.sheet"), os.path.join(self.folder, "bad\udcff", "sheet")):
            os.makedirs(os.path.dirname(bad), exist_ok=True)

            async def opened(create: bool) -> None:
                async with AsyncWorksheet(bad, create=create, program=PROGRAM):
                    pass

            calls: Tuple[Callable[[], object], ...] = (
                lambda: Worksheet(bad, create=True, program=PROGRAM), lambda: Worksheet(bad, program=PROGRAM), lambda: Worksheet(bad, program=PROGRAM, partial=True),
                lambda: asyncio.run(opened(True)), lambda: asyncio.run(opened(False)), lambda: list(check(bad, program=PROGRAM)), lambda: list(run(bad, "print\n", program=PROGRAM)),
            )  # fmt: skip
            for call in calls:
                with self.assertRaises(Died) as caught:
                    call()
                self.assertEqual((caught.exception.number, caught.exception.status), (None, 2))
                self.assertEqual(advised(caught.exception, bad), f"tmhost ended with status 2: {NOT_UTF8}")
            made = subprocess.run([PROGRAM, "create", bad], capture_output=True)
            self.assertEqual((made.returncode, made.stderr), (2, b""))
            self.assertEqual(reason_of_end(made.stderr.decode(), made.returncode, bad), f"tmhost ended with status 2: {NOT_UTF8}")
            self.assertFalse(os.path.lexists(bad))


if __name__ == "__main__":
    unittest.main()
