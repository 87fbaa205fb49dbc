"""An interpreter for tests: a line is answered by itself and its number, but for the words below. It completes `he`."""
import signal
import sys
import time
from types import FrameType
from typing import Optional

SVG = '<svg xmlns="http://www.w3.org/2000/svg" width="9" height="9"><rect width="9" height="9"/></svg>'
ANSWERS = {
    "formula": "\2latex:$x^2$\5",
    "text and formula": "\2verbatim:one\n\2latex:$x^2$\5\5",
    "picture": "\2image/svg+xml:" + SVG + "\5",
    "two pictures": "\2verbatim:a\n\2image/png;base64:iVBO\nRw0K\5\nb\n\2image/svg+xml:" + SVG + "\5c\5",
    "error": "\2verbatim:before\n\2error#Traceback\nValueError: no: never\5after\5",
    "other": "\2verbatim:\2html:<b>a</b>\5\5",
}


def interrupted(number: int, frame: Optional[FrameType]) -> None:
    raise KeyboardInterrupt


def answer(line: str, number: int) -> str:
    if line.startswith("\x10"):
        return '\2scheme:(tuple "he" "llo" "ap")\5'
    if line.startswith("sleep "):
        try:
            time.sleep(float(line.partition(" ")[2]))
            return "\2verbatim:slept\5"
        except KeyboardInterrupt:
            return "\2verbatim:was interrupted\5"
    if line == "end":
        sys.exit()
    return ANSWERS.get(line) or f"\2verbatim:{line} {number}\5"


signal.signal(signal.SIGINT, interrupted)
sys.stdout.write("\2verbatim:hi\5")
sys.stdout.flush()
for number, line in enumerate(sys.stdin, 1):
    sys.stdout.write(answer(line.rstrip("\n"), number))
    sys.stdout.flush()
