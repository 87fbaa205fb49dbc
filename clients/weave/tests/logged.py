"""Starts an interpreter, and writes each line that it is sent to a file: `logged.py LOG WORDS..`."""
import subprocess
import sys


def main(log: str, words: "list[str]") -> None:
    with subprocess.Popen(words, stdin=subprocess.PIPE) as interpreter:
        assert interpreter.stdin
        for line in sys.stdin.buffer:
            with open(log, "ab") as file:
                file.write(line)
            interpreter.stdin.write(line)
            interpreter.stdin.flush()


if __name__ == "__main__":
    main(sys.argv[1], sys.argv[2:])
