"""`cutter.py LINES PROGRAM WORD ..`: the program, which is killed when so many lines from the first `begin` on were given to it."""

import os
import signal
import subprocess
import sys
import time

READ_WITHIN = 0.1  # seconds that the program has for what was given


def main() -> None:
    left, is_begun = int(sys.argv[1]), False
    with subprocess.Popen(sys.argv[2:], stdin=subprocess.PIPE, bufsize=0) as program:
        assert program.stdin
        for line in sys.stdin.buffer:
            is_begun = is_begun or line == b"begin\n"
            if is_begun and left == 0:
                time.sleep(READ_WITHIN)
                program.kill()
                program.wait()
                os.kill(os.getpid(), signal.SIGKILL)
            left -= is_begun
            program.stdin.write(line)


if __name__ == "__main__":
    main()
