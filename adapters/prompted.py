#!/usr/bin/env python3
"""Makes an interpreter that reads lines and prints answers into one that speaks the plugin protocol of TeXmacs.

    prompted.py PROFILE [--latex] [--no-pictures]

It starts the interpreter of the profile, sends it each line of its own input, and after each line one that prints a marker. What comes
before the marker is the answer, on as many lines as it has, messages of errors among it, which are blocks of their own where they can be distinguished. Each line has a marker of its own, which is made
from random bytes and stands in no command as a whole, so that neither an answer nor an echo of a command has it, and one that comes late
ends no other line. Where a line has taken its marker for its input, or its own end isn't there, it is answered by an error. With `--latex`
values are formulas, blocks of the format `latex`, where the profile has a way to write them. What a line draws stands after its text, as blocks of
pictures, where the profile knows how, but for `--no-pictures`. `--help` prints the names of the profiles.
"""
import argparse
import contextlib
import os
import pty
import re
import signal
import sys
import tempfile
import termios
from typing import List, NamedTuple, Optional, Set

import blocks
import pictures
import waiting
from languages import PROFILES
from profiles import COMMANDS, Profile

PATIENCE = 0.25  # seconds without a word after which it is looked whether a line waits for input; they double each time
LONGEST_PATIENCE = 2.0
MARKS = 2  # markers that a line is sent that takes them, before it is interrupted, and after that
READERS = 20  # programs that wait for input in one line, and are ended
OLD_MARKS = 100  # markers that were lost, and may come yet
NO_INPUT = b"a line has no input of its own"
STARTED_AGAIN = NO_INPUT + b": the interpreter was started again, without its variables"
Parts = List[blocks.Part]


class Mark(NamedTuple):
    """A marker, whose halves its command has apart."""

    first: str
    second: str

    @property
    def whole(self) -> bytes:
        return (self.first + self.second).encode()


def new_mark() -> Mark:
    return Mark("m" + os.urandom(8).hex(), os.urandom(8).hex())


class Stuck(Exception):
    """The interpreter takes all that it is sent for the input of a line."""

    def __init__(self, parts: Parts) -> None:
        self.parts = parts  # of what it has said in that line


def terminal() -> "tuple[int, int]":
    """The two ends of a terminal that changes no byte: no carriage returns, no echo. Nothing can be read from the second one."""
    ours, theirs = pty.openpty()
    modes = termios.tcgetattr(theirs)
    modes[1] &= ~termios.OPOST
    modes[3] &= ~(termios.ECHO | termios.ICANON)
    termios.tcsetattr(theirs, termios.TCSANOW, modes)
    written = os.open(os.ttyname(theirs), os.O_WRONLY | os.O_NOCTTY)
    os.close(theirs)
    return ours, written


def formula(tex: bytes) -> blocks.Part:
    """TeX of an interpreter as one line of LaTeX, in words that readers of formulas know."""
    words = b" ".join(tex.replace(b"\\mbox{", b"\\text{").split()).strip(b"$ ")
    return blocks.Part(b"$" + re.sub(rb"\{\\(it|rm|bf) ([^{}]*)\}", rb"\\math\1{\2}", words) + b"$", blocks.LATEX)


class Interpreter(blocks.Child):
    """An interpreter with the two ends that it is spoken to by: a pipe to it, and a terminal from it, so that it writes each
    line when it is there, but sees no terminal that it would prompt at. Where its words name COMMANDS, the pipe is that file, and its
    standard input is empty."""

    def __init__(self, profile: Profile, is_latex: bool, folder: str, signals: Optional[blocks.Signals] = None) -> None:
        self.profile, self.folder = profile, folder
        self.begins = [*profile.begins, *(profile.latex if is_latex else ()), *(profile.pictures if folder else ())]
        self.mark = blocks.new_name()  # stands before and after each formula
        self.fault = blocks.new_name()  # stands before an error, where the profile makes it
        self.lost: List[bytes] = []  # the markers that were lost
        theirs, self.commands = os.pipe()
        commands = f"/dev/fd/{theirs}"
        has_file = any(COMMANDS in word for word in profile.words)
        output, written = terminal()
        self.inputs = [os.readlink(f"/proc/self/fd/{theirs}"), os.ttyname(written)]  # what it, or a program that it has started, could read
        with open(os.devnull, "rb") as nothing:
            super().__init__(
                [word.replace(COMMANDS, commands) for word in profile.words], output, signals,
                stdin=nothing if has_file else theirs, stdout=written, stderr=written, pass_fds=[theirs],
                env=dict(os.environ, TERM="dumb", COLUMNS="32767", PAGER="cat", EDITOR="false", VISUAL="false", BROWSER="true", HISTFILE=os.devnull,
                         TMHOST_COMMANDS=commands, TMHOST_FORMULA=self.mark.decode(), TMHOST_ERROR=self.fault.decode()))
        os.close(theirs)
        os.close(written)

    def begin(self) -> bool:
        """Sends what the profile begins with; false where the interpreter ends at that."""
        with contextlib.suppress(Stuck):
            return self.ask(*map(self.filled, self.begins)) is not None
        return False

    def filled(self, line: str) -> bytes:
        """A line of the profile with what is meant by its words."""
        return line.replace("MARK", self.mark.decode()).replace("FAULT", self.fault.decode()).replace("FOLDER", self.folder).encode()

    def around(self, line: bytes) -> List[bytes]:
        """What it is sent for a line."""
        before, after = ([self.filled(one)] if self.folder and one else [] for one in (self.profile.before, self.profile.after))
        return [*before, self.profile.statement(line), *after]

    def send(self, *lines: bytes) -> Mark:
        """Sends lines, and after them one that prints a new marker."""
        mark = new_mark()
        closing = self.filled(self.profile.closing) if self.folder else b""
        marks = closing + self.profile.marks.format(mark.first, mark.second).encode()
        blocks.write(b"".join(line + b"\n" for line in (*lines, marks)), self.commands)
        return mark

    def ask(self, *sent: bytes, preview: Optional[blocks.Preview] = None) -> Optional[Parts]:
        """The parts of what it says to these lines; None where it, or our reader, has ended before the marker."""
        marks, said, patience = [self.send(*sent)], blocks.Said(preview), PATIENCE
        ended: Set[int] = set()
        was_waiting = False
        while (end := said.find(marks[-1].whole + self.profile.ends)) < 0:
            piece = self.said(patience)
            if piece is not None:
                if not piece:
                    return None
                said.add(piece)
                patience, was_waiting = PATIENCE, False
                continue
            found = waiting.readers(self.process.pid, self.inputs)
            if found and was_waiting:
                if not self.give_no_input(found, marks, ended):
                    raise Stuck([*self.parts(self.text_of(said.before(len(said.kept)), marks)), blocks.Part(STARTED_AGAIN, blocks.ERROR)])
            elif not found:
                patience = min(2 * patience, LONGEST_PATIENCE)
            was_waiting = bool(found) and not was_waiting
        errors = [blocks.Part(NO_INPUT, blocks.ERROR)] if ended or len(marks) > 1 else []
        return self.parts(self.text_of(said.before(end), marks)) + errors

    def give_no_input(self, found: Set[int], marks: List[Mark], ended: Set[int]) -> bool:
        """Ends the programs that a line has started and that wait for input. Where it is the interpreter that waits, it has taken the marker
        for the input of the line, and is sent another one, after some of them an interrupt before it. False where nothing has helped."""
        others = found - {self.process.pid}
        ended |= others
        for process in others:
            with contextlib.suppress(ProcessLookupError):
                os.kill(process, signal.SIGKILL)
        if others:
            return len(ended) < READERS
        if len(marks) > MARKS:
            self.interrupt()
        marks.append(self.send())
        return len(marks) <= 2 * MARKS + 1

    def text_of(self, said: bytes, marks: List[Mark]) -> bytes:
        """The text of an answer, without what the profile leaves out and without echoes of the commands that print its markers."""
        said = re.sub(self.profile.noise, b"", said) if self.profile.noise else said
        for mark in marks:
            said = without_lines(said, mark.first.encode())
        for old in self.lost:
            said = said.replace(old, b"")
        self.lost = [*self.lost, *(mark.whole for mark in marks[:-1])][-OLD_MARKS:]
        return said

    def leave(self) -> None:
        super().leave()
        os.close(self.commands)

    def parts(self, said: bytes) -> Parts:
        """The texts of an answer, the formulas between two marks, and its errors. A formula that was cut is text. Of an even number of marks of
        errors the last one takes the others back."""
        *texts, error = said.split(self.fault)
        if len(texts) % 2:
            return [*self.values(b"".join(texts)), blocks.Part(error.strip(b"\n"), blocks.ERROR)]
        return self.values(b"".join([*texts, error]))

    def values(self, said: bytes) -> Parts:
        """The texts and formulas, and the errors that show it by their form."""
        texts = said.split(self.mark)
        if len(texts) % 2 == 0:
            texts[-2:] = [b"".join(texts[-2:])]
        return [part for at, text in enumerate(texts) for part in ([formula(text)] if at % 2 else self.profile.reported(text))]

    def answer(self, line: bytes) -> Optional[Parts]:
        """The parts of the answer to a line; None where it has ended."""
        if self.profile.refuses(line):
            return [blocks.Part(NO_INPUT, blocks.ERROR)]
        with self.at_a_line():
            return self.ask(*self.around(line), preview=blocks.Preview(self.profile.noise)) if self.drop_what_was_said() else None

    def complete(self, front: bytes) -> Optional[bytes]:
        """The block that says what can stand after a text; None where it has ended."""
        text = front.decode("utf-8", "replace")
        found = re.search(self.profile.word, text, re.ASCII)
        if not found or not self.profile.names or not text[: found.start()][-1:].isascii():  # a letter that isn't asked for belongs to the word
            return blocks.NO_COMPLETIONS
        with self.at_a_line():
            said = self.ask(self.profile.names.format(found[0]).encode()) if self.drop_what_was_said() else None
        return None if said is None else blocks.completions(found[0], b"\n".join(part.text for part in said).decode("utf-8", "replace").split())


def without_lines(text: bytes, word: bytes) -> bytes:
    """A text without the lines that have a word."""
    return b"\n".join(line for line in text.split(b"\n") if word not in line) if word in text else text


class Session:
    """The interpreter that answers the lines. Where one is stuck in a line, the line is answered by an error, and another one is started."""

    def __init__(self, profile: Profile, is_latex: bool, folder: str) -> None:
        """The folder is where it draws; it has no name where there are no pictures."""
        self.profile, self.is_latex, self.folder = profile, is_latex, folder
        self.interpreter = Interpreter(profile, is_latex, folder)
        self.signals = self.interpreter.signals

    def answer(self, line: bytes) -> Optional[bytes]:
        """The block that answers a line; None where the interpreter has ended."""
        try:
            parts = self.begin_again([]) if self.profile.begins_again(line) else self.interpreter.answer(line)
        except Stuck as stuck:
            parts = self.begin_again(stuck.parts)
        return None if parts is None else blocks.answer([*parts, *(pictures.drawn(self.folder) if self.folder else ())], self.profile.prompt)

    def complete(self, front: bytes) -> Optional[bytes]:
        """The block that says what can stand after a text; None where the interpreter has ended."""
        try:
            return self.interpreter.complete(front)
        except Stuck:
            return None if self.begin_again([]) is None else blocks.NO_COMPLETIONS

    def begin_again(self, said: Parts) -> Optional[Parts]:
        """Starts another interpreter in the place of this one, and answers with what was said."""
        self.interpreter.leave()
        if self.folder:
            pictures.clear(self.folder)
        self.interpreter = Interpreter(self.profile, self.is_latex, self.folder, self.signals)
        return said if self.interpreter.begin() else None


def main() -> None:
    words = argparse.ArgumentParser(description="Makes an interpreter that prints answers one that has one block for each line.")
    words.add_argument("profile", metavar="PROFILE", choices=PROFILES, help=" ".join(PROFILES))
    words.add_argument("--latex", action="store_true", help="show values as formulas: " + " ".join(name for name in PROFILES if PROFILES[name].latex))
    words.add_argument("--no-pictures", action="store_true", help="leave alone what is drawn, of " + " ".join(name for name in PROFILES if PROFILES[name].pictures))
    words.add_argument("--as-written", action="store_true", help="leave escape sequences and carriage returns as they were written")
    chosen = words.parse_args()
    blocks.AS_WRITTEN = chosen.as_written
    profile = PROFILES[chosen.profile]
    if chosen.latex and not profile.latex:
        words.error(f"{chosen.profile} has no way to write formulas")
    with tempfile.TemporaryDirectory(prefix="tmhost-") as folder:
        session = Session(profile, chosen.latex, folder if profile.pictures and not chosen.no_pictures else "")
        if session.interpreter.begin():
            blocks.serve(blocks.verbatim(b"", profile.prompt), session.answer, session.signals, session.complete)
        session.interpreter.end()


if __name__ == "__main__":
    blocks.run(main)
