"""The program: its words, the worksheet that it opens, and its lines one after another."""

import argparse
import os
import signal
import sys
from types import FrameType
from typing import List, Optional

from tmhost import BadLine, InUse, Refused, TmhostError, Worksheet
from tmhost.advice import SECOND, advised
from tmhost.program import show_building
from tmhost.version import ShowVersion
from tmhost_fences.output import Parser, give_up, run_and_flush

from .commands import PROSE, Commands, Mistake, ensure, explained, refuse_bare, refuse_missing
from .completion import Draft
from .console import Console, Terminal, new_console
from .evaluation import Evaluator, control_c_raises
from .lines import Lines, PipeLines, TerminalLines

LOST, BAD_WORDS, INTERRUPTED = 1, 2, 130


def options(words: List[str]) -> argparse.Namespace:
    parser = Parser(
        prog="tmhost-repl",
        description="A worksheet at a terminal: each line is a field at its end, and its answer is shown when it is on the disk.",
        epilog="The program is the one that TMHOST names, tmhost on PATH, or the one that was built or installed with this. In a pipe the status is 1 where an answer was lost. %help, as "
        "a line, tells what else can be done.",
    )
    parser.add_argument("--version", action=ShowVersion)
    parser.add_argument("--create", action="store_true", help="make the worksheet where it isn't there, without a question")
    parser.add_argument("--tab", action="store_true", help="the session that WORDS make answers completions at TAB")
    parser.add_argument("sheet", metavar="SHEET", help="the file of the worksheet")
    parser.add_argument("session", metavar="SESSION", nargs="?", help="the session that the lines go to, where the worksheet hasn't just one")
    more = parser.add_argument("words", metavar="WORDS", nargs=argparse.REMAINDER, help="what starts its interpreter, where the session is new")
    more.required = False  # as the message says where nothing is given
    return parser.parse_args(words)


def opened(given: argparse.Namespace, console: Console) -> Worksheet:
    """The worksheet, made where it isn't there and is wanted. Words that start no interpreter for it are refused before."""
    refuse_bare(given.session or "", given.words)
    is_there = os.path.lexists(given.sheet)
    if not is_there:
        refuse_missing(given.session or "", given.words)
    if not given.create and not is_there:
        if not console.is_terminal:
            raise Mistake(f"there is no worksheet {given.sheet}: --create makes it")
        if console.choose(f"There is no worksheet {given.sheet}. Make it? [y]es, [n]o:", "yn") != "y":
            raise Mistake("no worksheet was made")
    show_building()
    return Worksheet(given.sheet, create=True, partial=console.is_terminal)


def begin(given: argparse.Namespace, worksheet: Worksheet) -> None:
    """Makes the session, where it isn't there; without a name it is the only one, beside that of prose."""
    if given.session is None:
        names = [session.name for session in worksheet.sessions.values() if session.words != PROSE]
        if len(names) != 1:
            raise Mistake(f"name a session{' and the words of its interpreter' * (not names)} (there are: {', '.join(names) or 'none'})")
        given.session = names[0]
    elif given.words:
        ensure(worksheet, given.session, given.words, given.tab)
    elif given.session not in worksheet.sessions:
        there = ", ".join(worksheet.sessions) or "none"
        raise Mistake(f"there is no session {given.session}: name the words of its interpreter, too (there are: {there})")


class Repl:
    def __init__(self, worksheet: Worksheet, console: Console) -> None:
        self.worksheet, self.console = worksheet, console
        self.evaluator = Evaluator(worksheet, console)
        self.draft = Draft(worksheet)
        self.lines: Lines = PipeLines(console)
        if isinstance(console, Terminal):
            self.lines = TerminalLines(console, worksheet, self.evaluator, self.draft)
        self.commands = Commands(worksheet, console, self.evaluator, self.lines)
        self.lines.know(self.commands.words)

    def run(self, session: str) -> None:
        self.commands.enter(session)
        answered = sum(field.session == session and field.answer is not None for field in self.worksheet.fields)
        if self.console.is_terminal and answered:
            self.console.note(f"{answered} answers are there, but not their variables: %eval-all evaluates all again")
        if self.console.is_terminal:
            self.console.note("%help says what else can be typed")
        while not self.commands.is_over:
            self.evaluator.tell_all()
            text = self.lines.next()
            if text is None:
                self.commands.is_over = True
            else:
                self.take(text)
            self.commands.is_over = self.commands.is_over and self.may_end()
        self.evaluator.tell_all()
        self.draft.give_up()

    def take(self, text: str) -> None:
        try:
            if self.commands.has(text):
                self.draft.give_up()
                self.commands.do(text)
            elif meant := self.commands.meant(text):
                self.draft.give_up()
                raise Mistake(f"{text.split()[0]}: is {meant} meant? A space in front sends it")
            else:
                self.evaluator.evaluate(self.draft.take(self.commands.session, text))
        except (Refused, BadLine) as refused:
            self.draft.give_up()
            self.console.fail(explained(refused))
        except Mistake as mistake:
            self.console.fail(str(mistake))

    def may_end(self) -> bool:
        """Lines that were left running lose their answers at the end."""
        waiting = sum(field.state == "waiting" for field in self.worksheet.fields)
        if not waiting or not self.console.is_terminal:
            return True
        try:
            with control_c_raises():
                return self.console.choose(f"{waiting} still waiting, to be lost at the end. End? [y]es, [n]o:", "yn") == "y"
        except (EOFError, KeyboardInterrupt):
            return True


def work(given: argparse.Namespace, console: Console) -> int:
    worksheet = opened(given, console)
    try:
        begin(given, worksheet)
        repl = Repl(worksheet, console)
        with repl.evaluator.control_c():
            repl.run(given.session)
    finally:
        worksheet.close()
    return LOST if console.failed and not console.is_terminal else 0


def end_in_order(number: int, frame: Optional[FrameType]) -> None:
    """A signal that ends the program leaves the terminal as it was, and lets the interpreters be stopped."""
    sys.exit(128 + number)


def ran(words: List[str]) -> int:
    given = options(words)
    console = new_console()
    for number in (signal.SIGTERM, signal.SIGHUP):
        if signal.getsignal(number) is not signal.SIG_IGN:
            signal.signal(number, end_in_order)
    try:
        return reported(given, console)
    finally:
        console.close()


def reported(given: argparse.Namespace, console: Console) -> int:
    """Does the work, and says why where it can't be done; gives the status."""
    try:
        return work(given, console)
    except Mistake as mistake:
        console.note(str(mistake))
        return BAD_WORDS
    except (Refused, BadLine) as refused:
        console.note(explained(refused))
        return BAD_WORDS
    except (KeyboardInterrupt, EOFError):
        console.note("ended")
        return INTERRUPTED
    except BrokenPipeError:
        raise  # nobody reads our output any more
    except (TmhostError, OSError) as error:
        console.note(advised(error, given.sheet))
        if not isinstance(error, InUse) and is_left_empty(given.sheet):
            console.note(f"{given.sheet} and {given.sheet}{SECOND} are empty: remove both, then make the worksheet again")
        give_up(sys.stdout)  # of a full disk all is said
        return LOST


def is_left_empty(path: str) -> bool:
    """Whether both files are those of a worksheet for which there was no room when it was made: they are in the way of another one."""
    return all(os.path.isfile(name) and not os.path.getsize(name) for name in (path, path + SECOND))


def main(words: List[str]) -> int:
    return run_and_flush("tmhost-repl", ran, words)
