"""What an interpreter has written of a block that isn't closed, reported by a program that knows that."""

import asyncio
import os
import sys
import unittest
from typing import List

from support import PROGRAM, SECONDS, Case, needs_program

from tmhost import AsyncWorksheet, Event, Partial, Worksheet
from tmhost.program import words_of_live

SLOW = """
import os, sys, time
sys.stdout.buffer.write(b"\\x02verbatim:\\x05")
sys.stdout.buffer.flush()
for path in sys.stdin:
    sys.stdout.buffer.write(b"\\x02verbatim:begun \\xc3")
    sys.stdout.buffer.flush()
    while not os.path.exists(path.strip()):
        time.sleep(0.02)
    sys.stdout.buffer.write(b"\\xa9\\x05")
    sys.stdout.buffer.flush()
"""


def knows() -> bool:
    return os.path.isfile(PROGRAM) and "--partial" in words_of_live([PROGRAM], "sheet", True)


@needs_program
@unittest.skipUnless(knows(), "the program has no live --partial")
class Partials(Case):
    def setUp(self) -> None:
        super().setUp()
        self.reported: List[Event] = []
        self.end = os.path.join(self.folder, "end")
        slow = os.path.join(self.folder, "slow.py")
        with open(slow, "w") as file:
            file.write(SLOW)
        self.words = [sys.executable, slow]

    def begun(self) -> bool:
        """Whether all of it was reported, however it was cut."""
        return b"".join(event.data for event in self.reported if isinstance(event, Partial)) == b"\x02verbatim:begun \xc3"

    def test_blocking(self) -> None:
        with Worksheet(self.path, program=PROGRAM, create=True, partial=True) as sheet:
            sheet.listen(self.reported.append)
            sheet.session("a", self.words)
            evaluation = sheet.new("a", self.end).eval()
            self.until(self.begun)
            self.assertFalse(evaluation.done())
            open(self.end, "w").close()
            self.assertEqual(evaluation.result(SECONDS).text, "begun \u00e9")

    def test_not_asked_for(self) -> None:
        with Worksheet(self.path, program=PROGRAM, create=True) as sheet:
            sheet.listen(self.reported.append)
            sheet.session("a", self.words)
            open(self.end, "w").close()
            sheet.new("a", self.end).evaluate(SECONDS)
        self.assertEqual([event for event in self.reported if isinstance(event, Partial)], [])

    def test_asyncio(self) -> None:
        async def run() -> None:
            async with AsyncWorksheet(self.path, program=PROGRAM, create=True, partial=True) as sheet:
                sheet.listen(self.reported.append)
                await sheet.session("a", self.words)
                evaluation = await (await sheet.new("a", self.end)).eval()
                while not self.begun():
                    await asyncio.sleep(0.02)
                open(self.end, "w").close()
                self.assertEqual((await evaluation.result(SECONDS)).text, "begun \u00e9")

        asyncio.run(asyncio.wait_for(run(), SECONDS))


if __name__ == "__main__":
    unittest.main()
