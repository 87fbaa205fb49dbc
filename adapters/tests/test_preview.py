"""What is shown of a line before its block is there, and that the block is the same without it."""
import os
import subprocess
import sys
import time
import unittest
from typing import Iterator, List, Optional, Tuple
from unittest import mock

import blocks

PYTHON = os.path.join(os.path.dirname(os.path.dirname(os.path.realpath(__file__))), "python")
COUNTS = b"import time\nfor n in range(3): print(n); time.sleep(0.1)\nprint('last', end='')\n1 / 0\n"
LINES = [line for line in COUNTS.split(b"\n") if line]


def said(lines: List[bytes], partial: Optional[str]) -> List[bytes]:
    """What the adapter of Python writes: its banner, and then for each line the bytes up to the end of its block."""
    room = {name: value for name, value in os.environ.items() if name != "TMHOST_PARTIAL"}
    words = [sys.executable, PYTHON, "--no-pictures"]
    with subprocess.Popen(words, stdin=subprocess.PIPE, stdout=subprocess.PIPE, env={**room, **({"TMHOST_PARTIAL": partial} if partial else {})}) as ran:
        assert ran.stdin and ran.stdout
        reported = [block(ran.stdout.fileno())]
        for line in lines:
            ran.stdin.write(line + b"\n")
            ran.stdin.flush()
            reported.append(block(ran.stdout.fileno()))
        ran.stdin.close()
    return reported


def block(descriptor: int) -> bytes:
    """What is read up to the end of an outer block."""
    reported, depth, is_escaped = b"", 0, False
    while True:
        byte = os.read(descriptor, 1)
        assert byte, reported
        reported += byte
        if is_escaped or byte == b"\x1b":
            is_escaped = not is_escaped
        elif byte == b"\x02":
            depth += 1
        elif byte == b"\x05":
            depth -= 1
            if not depth:
                return reported


class AtItsEnd(unittest.TestCase):
    """Why an adapter ends stands on standard error, which hosts drop, and where that is wanted beside its blocks."""

    def said(self, name: str, *words: str, **more: str) -> Tuple[bytes, bytes]:
        """What an adapter writes that gets no line: its output and its errors."""
        room = {name: value for name, value in os.environ.items() if name != "TMHOST_PARTIAL"}
        command = [sys.executable, os.path.join(os.path.dirname(PYTHON), name), *words]
        done = subprocess.run(command, stdin=subprocess.DEVNULL, capture_output=True, env={**room, **more})
        self.assertNotIn(b"Traceback", done.stderr)
        return done.stdout, done.stderr

    def test_words_that_are_refused(self) -> None:
        for name in ("gp", "python"):
            output, errors = self.said(name, "--no-such-\x02word")
            self.assertTrue(errors.endswith(b"unrecognized arguments: --no-such-\x02word\n"), errors)
            self.assertEqual(output, b"")
            self.assertEqual(self.said(name, "--no-such-\x02word", TMHOST_PARTIAL="1"), (errors.replace(b"\x02", b"?"), errors))

    def test_an_interpreter_that_is_not_here(self) -> None:
        for name, words, program in (("gp", (), b"gp"), ("prompted.py", ("octave",), b"octave-cli")):
            why = b"there is no program " + program + b" on PATH\n"
            self.assertEqual(self.said(name, *words, PATH="/nowhere"), (b"", why))
            self.assertEqual(self.said(name, *words, PATH="/nowhere", TMHOST_PARTIAL="1"), (why, why))


class Previews(unittest.TestCase):
    def shown(self, pieces: List[bytes], noise: bytes = b"") -> Iterator[bytes]:
        """What is written for each of these pieces."""
        with mock.patch.object(blocks, "PREVIEWS", True), mock.patch.object(blocks, "write") as write:
            preview = blocks.Preview(noise)
            for piece in pieces:
                preview.add(piece)
                yield b"".join(call.args[0] for call in write.call_args_list)
                write.reset_mock()

    def test_whole_lines_are_shown(self) -> None:
        self.assertEqual(list(self.shown([b"a\nb", b"c\nd\n", b"e"])), [b"a\n", b"bc\nd\n", b""])

    def test_states_of_a_line_that_is_written_over_are_shown(self) -> None:
        self.assertEqual(list(self.shown([b"\r 1%", b"\r 2%", b"\r\n"])), [b"\r", b" 1%\r", b" 2%\r\n"])

    def test_no_byte_of_a_block_is_shown(self) -> None:
        self.assertEqual(list(self.shown([b"a\n\x02latex:$x$\x05\nb\n", b"\x1b[31mred\x1b[0m\x1b\n"])), [b"a\nb\n", b"red\n"])

    def test_no_mark_is_shown(self) -> None:
        name = blocks.new_name()
        self.assertEqual(list(self.shown([b"a\nprint('%b')\nb\n" % name, name[:9], name[9:] + b"\n"])), [b"a\nb\n", b"", b""])

    def test_no_noise_is_shown(self) -> None:
        self.assertEqual(list(self.shown([b"(%i1) a\n"], rb"\(%i\d+\) ")), [b"a\n"])

    def test_it_is_bounded(self) -> None:
        text = next(self.shown([b"x" * 1_000_000 + b"\n"]))
        self.assertEqual(len(text), blocks.LONGEST_PREVIEW)
        self.assertEqual(list(self.shown([b"x" * 1_000_000, b"y\n"]))[1][-2:], b"y\n")

    def test_nothing_is_shown_unasked(self) -> None:
        with mock.patch.object(blocks, "write") as write:
            blocks.Preview().add(b"a\n")
        write.assert_not_called()


class Python(unittest.TestCase):
    def test_an_answer_is_the_same_with_and_without(self) -> None:
        without, with_previews = said(LINES, None), said(LINES, "1")
        self.assertEqual([reported.index(b"\x02") for reported in without], [0] * len(without))
        self.assertEqual([reported[reported.index(b"\x02"):] for reported in with_previews], without)
        self.assertEqual(with_previews[2][:with_previews[2].index(b"\x02")], b"0\n1\n2\n")

    def test_a_preview_comes_before_the_line_is_done(self) -> None:
        room = {**os.environ, "TMHOST_PARTIAL": "1"}
        with subprocess.Popen([sys.executable, PYTHON, "--no-pictures"], stdin=subprocess.PIPE, stdout=subprocess.PIPE, env=room) as ran:
            assert ran.stdin and ran.stdout
            block(ran.stdout.fileno())
            ran.stdin.write(b"print('first'); import time; time.sleep(60)\n")
            ran.stdin.flush()
            begun = time.monotonic()
            self.assertEqual(os.read(ran.stdout.fileno(), 100), b"first\n")
            self.assertLess(time.monotonic() - begun, 30)
            ran.kill()


if __name__ == "__main__":
    unittest.main()
