"""Standard output that can't be written, as that of a full disk: the command has failed then, also where it was asked for its help alone."""
import argparse
import contextlib
import io
import os
import sys
from typing import IO, Callable, List, Optional, TextIO

from tmhost.errors import plain

FAILED = 1


class Parser(argparse.ArgumentParser):
    """One whose help fails where it can't be written. In newer versions of Python that of argparse hides this."""

    def print_help(self, file: Optional[IO[str]] = None) -> None:
        (file or sys.stdout).write(self.format_help())


def whole_output(output: Optional[TextIO]) -> TextIO:
    """Standard output that takes all of a text, or fails. Where Python keeps nothing back (PYTHONUNBUFFERED), it doesn't notice by itself that a text was
    taken in part, as by a disk that became full. Where a shell has closed it by `>&-`, Python has none."""
    if output is None:
        return open(os.open(os.devnull, os.O_RDONLY), "w", encoding="utf-8", errors="replace")
    unbuffered = getattr(output, "buffer", None)
    if isinstance(unbuffered, io.RawIOBase):
        return io.TextIOWrapper(io.BufferedWriter(unbuffered), output.encoding, output.errors, line_buffering=True)
    return output


def give_up(stream: TextIO) -> None:
    """Has what a stream doesn't take go nowhere. Else Python tries that again at its end, says so in its own words, and ends with the status 120."""
    try:
        stream.flush()
    except OSError:
        os.dup2(os.open(os.devnull, os.O_WRONLY), stream.fileno())


def run_and_flush(name: str, command: Callable[[List[str]], int], words: List[str]) -> int:
    """The status of a command with these words. It is 1 where standard output doesn't take all that was written, or the system refuses something else, and
    a line says why. Of a pipe whose reader has gone nothing is said: that has seen enough, as `head` has."""
    sys.stdout = whole_output(sys.stdout)
    try:
        try:
            return command(words)
        finally:
            sys.stdout.flush()
    except BrokenPipeError:
        why = ""
    except OSError as error:
        why = f"{name}: {plain(error)}\n"
    with contextlib.suppress(OSError):  # standard error may be of the same full disk
        print(why, end="", file=sys.stderr)
    for stream in (sys.stdout, sys.stderr):
        give_up(stream)
    return FAILED
