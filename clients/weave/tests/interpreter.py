"""An interpreter for the tests: `interpreter.py LOG`. It writes each line that it gets into LOG, and answers it by a value that depends on all
lines that it has got, so that an answer tells what was evaluated before it.

    say TEXT      TEXT, where \\xNN and the like stand for characters
    bytes HEX     these bytes
    latex TEXT    a block `latex`
    both TEXT|LATEX|TEXT ..    texts, and blocks `latex` between them
    picture TEXT|FORMAT|DATA    a text, and a picture after it
    error TEXT|TEXT   a text, and an error after it
    file PATH     what stands in a file
    quiet         nothing
    sleep SECONDS
    until PATH    answers when this file is there
    stuck         never answers
    die TEXT      writes TEXT as the beginning of an answer, and ends
    bye           answers as it does any line, and ends

With a value for the environment variable TMHOST_SLEEP, each line takes so many seconds.
"""
import hashlib
import os
import re
import sys
import time
from typing import List


def escaped(text: bytes) -> bytes:
    return re.sub(rb"[\x02\x05\x1b]", lambda found: b"\x1b" + found[0], text)


def value(lines: List[str]) -> str:
    """What a line is answered that comes after the others."""
    return f"{len(lines)} {hashlib.sha256(repr(lines).encode()).hexdigest()[:12]}"


def written(text: str) -> bytes:
    return escaped(text.encode("latin-1", "backslashreplace").decode("unicode_escape").encode())


def answer(lines: List[str]) -> bytes:
    word, _, rest = lines[-1].partition(" ")
    if word == "say":
        return written(rest)
    if word == "bytes":
        return escaped(bytes.fromhex(rest))
    if word == "latex":
        return b"\x02latex:" + written(rest) + b"\x05"
    if word == "both":
        parts = [written(part) for part in rest.split("|")]
        return b"\x02verbatim:" + b"".join(b"\x02latex:" + part + b"\x05" if at % 2 else part for at, part in enumerate(parts)) + b"\x05"
    if word == "picture":
        reported, tag, data = rest.split("|")
        return b"\x02verbatim:" + written(reported) + b"\x02" + tag.encode() + b":" + written(data) + b"\x05\x05"
    if word == "error":
        text, _, reported = rest.partition("|")
        return b"\x02verbatim:" + written(text) + b"\x02output#\x02output#" + written(reported) + b"\x05\x05\x05"
    if word == "file":
        with open(rest, "rb") as file:
            return escaped(file.read())
    if word == "quiet":
        return b""
    if word == "die":
        sys.stdout.buffer.write(b"\x02verbatim:" + written(rest) if rest else b"")
        sys.stdout.buffer.flush()
        sys.exit(3)
    while word == "until" and not os.path.exists(rest):
        time.sleep(0.02)
    if word in ("sleep", "stuck"):
        time.sleep(float(rest) if rest else 600)
    return value(lines).encode()


def write(text: bytes) -> None:
    whole = text if text.startswith(b"\x02") else b"\x02verbatim:" + text + b"\x05"
    sys.stdout.buffer.write(whole)
    sys.stdout.buffer.flush()


def main() -> None:
    lines: List[str] = []
    write(b"Tester")
    for line in sys.stdin:
        lines.append(line.rstrip("\n"))
        with open(sys.argv[1], "a", encoding="utf-8") as log:
            log.write(line)
        time.sleep(float(os.environ.get("TMHOST_SLEEP", "0")))
        write(answer(lines))
        if lines[-1] == "bye":
            return


if __name__ == "__main__":
    main()
