"""An interpreter for the tests of clients. It greets, numbers its prompts, and answers each line by one block.

    say TEXT      TEXT, where \\xNN and the like stand for characters
    bytes HEX     these bytes
    sleep SECONDS
    loop          never answers, until SIGINT ends the line
    stuck         never answers, and SIGINT does nothing
    die TEXT      ends, and says TEXT beside its blocks before that, if there is one
    count         how many lines this process has answered
    formula       a block in the answer
    error TEXT    an error
    prompt TEXT   the prompt from now on, in place of a numbered one, where \\xNN and the like stand for characters
    work FILE     says `half of it` beside its blocks, and answers when that file is there

Another line is answered by itself. Completed are the words above. A line that an interrupt ends is answered by `interrupted`.
"""
import os
import re
import signal
import sys
import time
import types
from typing import Optional

WORDS = ["say", "bytes", "sleep", "loop", "stuck", "die", "count", "formula"]
LINE_END = "\u2028"


class Interrupted(Exception):
    """SIGINT came while a line was evaluated."""


class Interpreter:
    def __init__(self) -> None:
        self.answered = 0
        self.given_prompt: Optional[str] = None
        self.is_at_a_line = False
        self.is_stuck = False
        signal.signal(signal.SIGINT, self._signalled)

    def _signalled(self, number: int, frame: Optional[types.FrameType]) -> None:
        if self.is_at_a_line and not self.is_stuck:
            raise Interrupted

    def answer(self, line: str) -> bytes:
        word, _, rest = line.partition(" ")
        if word == "say":
            return escaped(unescaped(rest).encode())
        if word == "bytes":
            return escaped(bytes.fromhex(rest))
        if word == "prompt":
            self.given_prompt = unescaped(rest)
            return b"ok"
        if word == "count":
            return str(self.answered).encode()
        if word == "formula":
            return b"\x02latex:$x$\x05"
        if word == "error":
            return b"\x02output#\x02output#" + escaped(rest.encode()) + b"\x05\x05"
        if word == "work":
            sys.stdout.write("begun\nhalf of it\n")
            sys.stdout.flush()
            while not os.path.exists(rest):
                time.sleep(0.01)
            return b"all of it"
        if word == "die":
            sys.stdout.write(unescaped(rest) + "\n" if rest else "")
            sys.exit(3)
        self.is_stuck = word == "stuck"
        if word in ("loop", "stuck", "sleep"):
            time.sleep(float(rest) if rest else 60)
            return b"slept"
        return escaped(line.replace(LINE_END, "\n").encode())

    def evaluated(self, line: str) -> bytes:
        self.is_at_a_line = True
        try:
            reported = self.answer(line)
        except Interrupted:
            reported = b"interrupted"
        finally:
            self.is_at_a_line = False
        self.answered += 1
        return reported


def unescaped(text: str) -> str:
    return text.encode("latin-1", "backslashreplace").decode("unicode_escape")


def escaped(text: bytes) -> bytes:
    return re.sub(rb"[\x02\x05\x1b]", lambda found: b"\x1b" + found[0], text)


def write(text: bytes, prompt: str) -> None:
    sys.stdout.buffer.write(b"\x02verbatim:" + text + b"\x02prompt#" + escaped(prompt.encode()) + b"\x05\x05")
    sys.stdout.buffer.flush()


def completed(request: str) -> str:
    """The answer to (complete "INPUT" CURSOR); the cursor counts bytes."""
    found = re.fullmatch(r'\x10\(complete "(.*)" (\d+)\)', request, re.DOTALL)
    front = re.sub(r'\\(["\\])', r"\1", found[1]).encode()[: int(found[2])].decode() if found else ""
    root = re.findall(r"\w*$", front)[0]
    words = [word for word in WORDS if root and word.startswith(root) and word != root]
    return "(tuple " + " ".join(f'"{part}"' for part in [root, *(word[len(root) :] for word in words)]) + ")" if words else '""'


def main() -> None:
    interpreter = Interpreter()
    write(b"Tester 1.0", "1] ")
    for line in sys.stdin:
        line = line.rstrip("\n")
        if line.startswith("\x10"):
            sys.stdout.write("\x02scheme:" + completed(line) + "\x05")
            sys.stdout.flush()
        else:
            reported = interpreter.evaluated(line)
            write(reported, f"{interpreter.answered + 1}] " if interpreter.given_prompt is None else interpreter.given_prompt)


main()
