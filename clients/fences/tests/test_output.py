"""Standard output that can't be written: what a command that writes there ends with, and what it says."""
import contextlib
import io
import os
import subprocess
import sys
import tempfile
import unittest
from typing import IO, Dict, List, NamedTuple, Tuple, Union
from unittest import mock

from tmhost_fences import output

FENCES = os.path.dirname(os.path.dirname(os.path.realpath(__file__)))
COMMAND = """
import os, sys
sys.path[:0] = {!r}
from tmhost_fences.output import Parser, run_and_flush

def main(words):
    parser = Parser("a-command", description="What it is for.")
    parser.add_argument("--lines", type=int, default=0)
    parser.add_argument("--status", type=int, default=0)
    parser.add_argument("--long", type=int, default=0)
    parser.add_argument("--read")
    parser.add_argument("--remark")
    given = parser.parse_args(words)
    if given.remark:
        print(given.remark, file=sys.stderr)
    for at in range(given.lines):
        print("line", at)
    sys.stdout.write("x" * given.long)
    if given.read:
        open(given.read)
    return given.status

sys.exit(run_and_flush("a-command", main, sys.argv[1:]))
"""
HELPS = (["--help"], ["-h"])
LINES = (["--lines", "1"], ["--lines", "100000"], ["--lines", "1", "--status", "3"])  # the second is more than Python keeps back
MUCH = (["--lines", "100000"], ["--long", "1000000"])  # in many pieces, and in one
REMARKS = (["--remark", "text"], ["--remark", "text", "--lines", "1"])
NO_SPACE, CLOSED = "a-command: No space left on device\n", "a-command: Bad file descriptor\n"
HAS_FULL, NO_FULL = os.path.exists("/dev/full"), "there is no /dev/full"
LIMIT = 120  # seconds


class Outcome(NamedTuple):
    status: int
    output: str
    errors: str


def words(*more: str) -> List[str]:
    return [sys.executable, "-B", "-c", COMMAND.format([FENCES, os.path.join(os.path.dirname(FENCES), "python")]), *more]


def environment(unbuffered: str) -> Dict[str, str]:
    return {**os.environ, "PYTHONUNBUFFERED": unbuffered}


def run(*more: str, into: Union[int, IO[str]] = subprocess.PIPE, unbuffered: str = "") -> Outcome:
    done = subprocess.run(words(*more), stdout=into, stderr=subprocess.PIPE, text=True, env=environment(unbuffered), timeout=LIMIT)
    return Outcome(done.returncode, done.stdout or "", done.stderr)


def status_into(both: IO[str], *more: str, unbuffered: str) -> int:
    """Where output and errors go to one place."""
    return subprocess.run(words(*more), stdout=both, stderr=both, env=environment(unbuffered), timeout=LIMIT).returncode


def each(*asked: List[str]) -> List[Tuple[List[str], str]]:
    """Each of these words, where Python keeps back what is written, and where it doesn't: then a write fails, and else a flush."""
    return [(more, unbuffered) for more in asked for unbuffered in ("", "1")]


def full_disk() -> IO[str]:
    return open("/dev/full", "w", encoding="utf-8")


def without_reader() -> IO[str]:
    """A pipe whose reader has gone."""
    reader, writer = os.pipe()
    os.close(reader)
    return os.fdopen(writer, "w", encoding="utf-8")


class Written(unittest.TestCase):
    """Where there is nothing wrong with standard output, nothing is done or said of it."""

    def test_what_is_written(self) -> None:
        self.assertEqual(run("--lines", "2", "--status", "3"), (3, "line 0\nline 1\n", ""))
        self.assertEqual(run(), (0, "", ""))

    def test_a_help(self) -> None:
        for more in HELPS:
            told = run(*more)
            self.assertEqual((told.status, told.errors, told.output[:17]), (0, "", "usage: a-command "))
            self.assertIn("\n\nWhat it is for.\n\n", told.output)

    def test_refused_words(self) -> None:
        refused = run("--nothing")
        self.assertEqual((refused.status, refused.output, refused.errors[:17]), (2, "", "usage: a-command "))
        self.assertIn("\na-command: error: unrecognized arguments: --nothing\n", refused.errors)

    def test_what_else_the_system_refuses(self) -> None:
        """What was written before stays there."""
        self.assertEqual(run("--lines", "1", "--read", "/nowhere/at/all"), (1, "line 0\n", "a-command: No such file or directory: /nowhere/at/all\n"))

    def test_what_else_is_raised(self) -> None:
        """It goes on to who calls, after all that was written is there."""
        for raised in (KeyboardInterrupt, SystemExit, ValueError):
            with mock.patch.object(sys, "stdout", mock.Mock(spec=io.TextIOWrapper)) as written, self.assertRaises(raised):
                output.run_and_flush("a-command", mock.Mock(side_effect=raised), [])
            written.flush.assert_called_once_with()

    def test_a_help_for_another_place(self) -> None:
        parser, place = output.Parser("a-command"), io.StringIO()
        with contextlib.redirect_stdout(io.StringIO()) as other:
            parser.print_help(place)
        self.assertEqual((place.getvalue(), other.getvalue()), (parser.format_help(), ""))


class Unwritten(unittest.TestCase):
    @unittest.skipUnless(HAS_FULL, NO_FULL)
    def test_a_full_disk(self) -> None:
        for more, unbuffered in each(*HELPS, *LINES):
            with self.subTest(more, unbuffered=unbuffered), full_disk() as full:
                self.assertEqual(run(*more, into=full, unbuffered=unbuffered), (1, "", NO_SPACE))

    @unittest.skipUnless(HAS_FULL, NO_FULL)
    def test_a_full_disk_that_nothing_is_written_to(self) -> None:
        with full_disk() as full:
            self.assertEqual([run("--status", status, into=full) for status in ("0", "3")], [(0, "", ""), (3, "", "")])
            self.assertEqual(run("--nothing", into=full).status, 2)

    @unittest.skipUnless(HAS_FULL, NO_FULL)
    def test_a_full_disk_that_has_the_errors_too(self) -> None:
        """Nothing can be said then, and the status stays that of a failure."""
        for more, unbuffered in each(*HELPS, *LINES, *REMARKS):
            with self.subTest(more, unbuffered=unbuffered), full_disk() as full:
                self.assertEqual(status_into(full, *more, unbuffered=unbuffered), 1)

    def test_a_reader_that_has_gone(self) -> None:
        for more, unbuffered in each(*HELPS, *LINES):
            with self.subTest(more, unbuffered=unbuffered), without_reader() as pipe:
                self.assertEqual(run(*more, into=pipe, unbuffered=unbuffered), (1, "", ""))

    def test_a_reader_of_both_that_has_gone(self) -> None:
        for more, unbuffered in each(*HELPS, *LINES, *REMARKS):
            with self.subTest(more, unbuffered=unbuffered), without_reader() as pipe:
                self.assertEqual(status_into(pipe, *more, unbuffered=unbuffered), 1)

    def test_a_reader_that_has_seen_enough(self) -> None:
        """It goes while more is written to it than a pipe holds."""
        for more, unbuffered in each(*MUCH):
            with self.subTest(more, unbuffered=unbuffered):
                with subprocess.Popen(words(*more), stdout=subprocess.PIPE, stderr=subprocess.PIPE, env=environment(unbuffered)) as running:
                    assert running.stdout and running.stderr
                    self.assertIn(running.stdout.read(14), (b"line 0\nline 1\n", b"x" * 14))
                    running.stdout.close()
                    self.assertEqual((running.stderr.read(), running.wait(LIMIT)), (b"", 1))

    def test_a_file_that_takes_a_part(self) -> None:
        """As a disk does that becomes full in the midst of a text."""
        for more, unbuffered in each(*MUCH):
            with self.subTest(more, unbuffered=unbuffered), tempfile.TemporaryFile() as file:
                started = ["bash", "-c", 'ulimit -f 4; exec "$@"', "", *words(*more)]  # 4 times 1,024 bytes
                done = subprocess.run(started, stdout=file, stderr=subprocess.PIPE, text=True, env=environment(unbuffered), timeout=LIMIT)
                self.assertEqual((done.returncode, done.stderr, os.fstat(file.fileno()).st_size), (1, "a-command: File too large\n", 4096))

    def test_an_output_that_is_closed(self) -> None:
        """Python has no standard output then."""
        silent = (["--status", "0"], ["--status", "3"])
        for more, unbuffered in each(*HELPS, *LINES, *silent):
            with self.subTest(more, unbuffered=unbuffered):
                started = ["sh", "-c", 'exec "$@" >&-', "", *words(*more)]
                done = subprocess.run(started, capture_output=True, text=True, env=environment(unbuffered), timeout=LIMIT)
                wanted = (int(more[1]), "", "") if more in silent else (1, "", CLOSED)
                self.assertEqual((done.returncode, done.stdout, done.stderr), wanted)
