"""The lines that are to be evaluated, from a terminal or from a pipe. A line that ends in a backslash goes on with the next one, and so does one of
Python that is only a part of a statement."""

import os
import re
import readline
import sys
from typing import List, Optional, Sequence

from tmhost import Session, Worksheet

from .completion import Completer, Draft
from .console import Console, Terminal
from .evaluation import Evaluator, control_c_raises
from .statements import is_of_python, is_open
from .texts import LINE_END, columns

TEXT_OF_GP = re.compile(r'"(?:\\.|[^"\\])*"|\\\\.*')  # a string, or a remark: no backslash in them is one of the line


def is_of_gp(session: Session) -> bool:
    return any(os.path.basename(word) in ("gp", "tmhost-gp") for word in session.words)


class Lines:
    """One text after another, of one or more lines; None is the end."""

    def __init__(self, console: Console) -> None:
        self.console = console
        self.is_for_gp = self.is_for_python = False
        self.is_statement = False  # the lines that are read belong to one of Python, not to each other by backslashes that go

    def know(self, words: Sequence[str]) -> None:
        """These words are for the program itself."""

    def enter(self, session: Session) -> None:
        """From now on the lines are for this session."""
        self.is_for_gp, self.is_for_python = is_of_gp(session), is_of_python(session)

    def going_on(self, before: List[str], line: str) -> Optional[str]:
        """A line after which another one is asked for, as the input has it; None of the last one. gp gets the backslashes, since it joins the lines by
        them as one; others would do the same, or something else, so they get none, and two statements can be typed. Within a statement Python gets
        them. What was pasted is whole."""
        has_backslash = (TEXT_OF_GP.sub("", line) if self.is_for_gp else line).endswith("\\")
        if not before:
            self.is_statement = self.is_for_python and not has_backslash
        if self.is_statement:
            return line if "\n" not in line and is_open([*before, line]) else None
        return None if not has_backslash else line if self.is_for_gp else line[:-1]

    def next(self) -> Optional[str]:
        """The next text that isn't empty."""
        while True:
            parts: List[str] = []
            line = self.read("")
            while line is not None and (part := self.going_on(parts, line)) is not None:
                parts.append(part)
                line = self.read("\n".join(parts) + "\n")
            if line or (line is not None and not parts):
                parts.append(line)
            text = "\n".join(parts)
            if text or line is None:
                return text or None

    def read(self, prefix: str) -> Optional[str]:
        """A line, without what ends it; `prefix` are those before it that belong to it."""
        raise NotImplementedError


class PipeLines(Lines):
    def read(self, prefix: str) -> Optional[str]:
        while True:
            with control_c_raises():
                line = sys.stdin.buffer.readline()
            if not line:
                return None
            line = line[:-1] if line.endswith(b"\n") else line
            line = line[:-1] if line.endswith(b"\r") else line
            try:
                return line.decode("utf-8")
            except UnicodeDecodeError:
                self.console.fail("refused: a line that isn't UTF-8")


class TerminalLines(Lines):
    """Lines by readline, with the inputs of the session as their history. What is pasted is one text, also with several lines."""

    def __init__(self, console: Terminal, worksheet: Worksheet, evaluator: Evaluator, draft: Draft) -> None:
        super().__init__(console)
        self.terminal, self.worksheet, self.evaluator, self.draft = console, worksheet, evaluator, draft
        self.session = ""
        self.first = ""  # the prompt of the first line of those that belong together
        readline.set_auto_history(False)
        readline.parse_and_bind("set enable-bracketed-paste on")
        self.completer = Completer(worksheet, evaluator, draft, console)

    def know(self, words: Sequence[str]) -> None:
        self.completer.commands = words

    def enter(self, session: Session) -> None:
        super().enter(session)
        self.session = self.completer.session = session.name
        readline.clear_history()
        for field in self.worksheet.fields:
            if field.session == session.name:
                self.remember(field.input.replace(LINE_END, "\n"))

    def remember(self, text: str) -> None:
        """Puts a text at the end of the history, where it isn't there already."""
        last = readline.get_current_history_length()
        if text and (not last or readline.get_history_item(last) != text):
            try:
                readline.add_history(text)
            except UnicodeError:  # the locale has no such character
                pass

    def next(self) -> Optional[str]:
        while True:
            try:
                text = super().next()
            except KeyboardInterrupt:
                self.draft.give_up()
                print()
                continue
            if text is not None:
                self.remember(text)
            return text

    def prompt(self) -> str:
        """That of the interpreter, where its next one is known. Beside other sessions it is the name, so that nobody types into the wrong one."""
        is_alone = len(self.worksheet.sessions) == 1
        return self.terminal.prompt(self.session, self.evaluator.next_prompt(self.session) if is_alone else None)

    def read(self, prefix: str) -> Optional[str]:
        if not prefix:
            self.terminal.begin()
            self.first = self.prompt()
        prompt = "..> ".rjust(columns(self.first) or 0) if prefix else self.first
        self.completer.prefix, self.completer.prompt = prefix, prompt
        while True:
            self.completer.is_on = True
            try:
                with control_c_raises():
                    return self.terminal.read(prompt).rstrip("\n")
            except EOFError:
                print()
                return None
            except UnicodeDecodeError:
                self.console.note("refused: a line that isn't UTF-8")
            finally:
                self.completer.is_on = False
