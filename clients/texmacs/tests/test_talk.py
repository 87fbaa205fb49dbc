"""A talk that was recorded between GNU TeXmacs 2.1.4 and tmhost-texmacs, byte for byte: `talk.txt`.

`=` are the session, worksheet and document, `>` the bytes that TeXmacs wrote, `<` those that it read, `!` its signal. PROCESS stands for the number of the
program's process. Python's tracebacks show the place of an error since 3.13 only, so the lines of marks in an error aren't compared. Where a traceback names the input, the record has the
name that the adapter gives today, `<input>`.
"""
import ast
import os
import re
import time
from typing import List, Tuple

from .support import HERE, SECONDS, Case

PLACES = re.compile(rb' " +[~^]+"')


def talk() -> List[Tuple[str, bytes]]:
    """What was said, in its order; what came in pieces is one."""
    found: List[Tuple[str, bytes]] = []
    with open(os.path.join(HERE, "talk.txt"), encoding="ascii") as file:
        for line in file:
            data: bytes = ast.literal_eval("b'" + line[2:].rstrip("\n") + "'")
            if found and found[-1][0] == line[0] and line[0] == "<":
                data = found.pop()[1] + data
            found.append((line[0], data))
    return found


class Talk(Case):
    def test_each_byte(self) -> None:
        document = os.path.join(self.folder, "sheet.tm")
        texmacs = self.texmacs("python:doc", document)
        places = ((b"SHEET", self.sheet.encode()), (b"DOCUMENT", document.encode()), (b"PROCESS", b"%d" % texmacs.process.pid))
        said = talk()
        for at, (who, data) in enumerate(said[1:], 1):
            for name, place in places:
                data = data.replace(name, place)
            if who == ">":
                assert texmacs.process.stdin
                texmacs.data = b""
                texmacs.process.stdin.write(data)
                texmacs.process.stdin.flush()
            elif who == "!":
                time.sleep(1)
                texmacs.interrupt()
            else:
                is_last = said[at + 1][0] == ">" if at + 1 < len(said) else True
                self.hears(texmacs.is_whole if is_last else lambda: len(texmacs.data) >= len(data), texmacs.hear)
                self.assertEqual(PLACES.sub(b"", texmacs.data)[-len(PLACES.sub(b"", data)):], PLACES.sub(b"", data))

    def hears(self, is_enough: "object", hear: "object") -> None:
        until = time.monotonic() + SECONDS
        assert callable(is_enough) and callable(hear)
        while not is_enough():
            self.assertLess(time.monotonic(), until)
            self.assertTrue(hear())
