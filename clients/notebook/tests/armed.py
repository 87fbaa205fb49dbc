"""`armed.py MARK PROGRAM WORD ..`: the program. Where the file MARK is there it is killed at the end of the next transaction: in front of the line `end`,
or after it where the file has the word "after"."""

import os
import signal
import subprocess
import sys
import time

READ_WITHIN = 0.1  # seconds that the program has for what was given


def mark_at(path: str) -> str:
    try:
        with open(path, encoding="utf-8") as file:
            return file.read()
    except FileNotFoundError:
        return ""


def hold(mark: str, words: "list[str]") -> None:
    """Gives the program its lines up to a kill."""
    with subprocess.Popen(words, stdin=subprocess.PIPE, bufsize=0) as program:
        assert program.stdin
        for line in sys.stdin.buffer:
            is_last = line == b"end\n" and mark_at(mark) != ""
            if not is_last or mark_at(mark) == "after":
                program.stdin.write(line)
            if is_last:
                time.sleep(READ_WITHIN)
                program.kill()
                program.wait()
                os.unlink(mark)
                os.kill(os.getpid(), signal.SIGKILL)


def main() -> None:
    mark, *words = sys.argv[1:]
    if words[1:2] == ["live"]:
        hold(mark, words)
    else:
        os.execv(words[0], words)


if __name__ == "__main__":
    main()
