"""Completions at TAB, which the interpreter of the session tells.

It is asked about a text in the place of the input of one of the session's cells. Where there is none yet, the line that is typed gets its
cell at the first TAB. Enter evaluates this cell, and a line that is given up takes it away.
"""

import contextlib
import readline
from typing import List, Optional, Sequence

from tmhost import Cell, Completions, Refused, TmhostError, Worksheet, readable

from .console import Terminal
from .evaluation import Evaluator
from .texts import LINE_END, harmless

SECONDS = 2.0  # that an interpreter has to tell completions
STARTING = 10.0  # where it has to start first


class Draft:
    """The cell of the line that is typed, where it has one."""

    def __init__(self, worksheet: Worksheet) -> None:
        self.worksheet = worksheet
        self._cell: Optional[Cell] = None

    def any_of(self, session: str, text: str) -> Cell:
        """A cell of this session, be it a new one with this text."""
        found = next((cell for cell in self.worksheet.cells if cell.session == session), None)
        return found or self.with_text(session, text)

    def with_text(self, session: str, text: str) -> Cell:
        """A cell at the end with this text."""
        cell = self._cell
        if cell is None:
            self._cell = cell = self.worksheet.new(session, text)
        elif cell.input != text.replace("\n", LINE_END):
            cell.set(text)
        return cell

    def take(self, session: str, text: str) -> Cell:
        """The same; it isn't a draft any more."""
        cell = self.with_text(session, text)
        self._cell = None
        return cell

    def give_up(self) -> None:
        cell, self._cell = self._cell, None
        if cell:
            with contextlib.suppress(Refused):  # there is no room for the change: then it stays
                cell.remove()


def matches(completions: Optional[Completions], front: str) -> List[str]:
    """What can stand in place of the text in front of the cursor. A completion that isn't a plain text isn't offered."""
    root = readable(completions.root) if completions else ""
    if not completions or not front.endswith(root):
        return []
    base = front[: len(front) - len(root)]
    words = [root + readable(rest) for rest in completions.rest]
    return [base + word for word in words if word == harmless(word)]


class Completer:
    """What readline asks at TAB. `prefix` are the lines before this one that belong to it."""

    def __init__(self, worksheet: Worksheet, evaluator: Evaluator, draft: Draft, terminal: Terminal) -> None:
        self.worksheet, self.evaluator, self.draft, self.terminal = worksheet, evaluator, draft, terminal
        self.session = ""
        self.prefix = ""
        self.prompt = ""
        self.commands: Sequence[str] = ()  # words that are for the program itself
        self.is_on = False  # while a line is read, and not an answer to a question
        self._found: List[str] = []
        readline.set_completer_delims("")
        readline.set_completer(self._complete)
        readline.set_completion_display_matches_hook(self._display)
        libedit = "libedit" in (readline.__doc__ or "")
        readline.parse_and_bind("bind ^I rl_complete" if libedit else "tab: complete")

    def _complete(self, front: str, state: int) -> Optional[str]:
        if state == 0:
            try:
                with self.evaluator.control_c():  # readline would drop a KeyboardInterrupt, with what was under way
                    self._found = self._ask(front)
            except TmhostError:  # the next line that is evaluated tells why, where it is a lasting one
                self._found = []
        return self._found[state] if state < len(self._found) else None

    def _ask(self, front: str) -> List[str]:
        own = [word for word in self.commands if front.startswith("%") and word.startswith(front)]
        if own and not self.prefix:
            return own
        session = self.worksheet.sessions[self.session]
        if not self.is_on or not session.tab or session.waiting or not front.strip():
            return []
        text = self.prefix + front + readline.get_line_buffer()[len(front) :]
        cell = self.draft.any_of(self.session, text)
        cursor = len((self.prefix + front).replace("\n", LINE_END).encode("utf-8", "surrogatepass"))
        return matches(cell.complete(cursor, STARTING if session.life is None else SECONDS, text), front)

    def _display(self, substitution: str, found: Sequence[str], longest: int) -> None:
        """The words alone, and the line again below them."""
        shared = max(substitution.rfind(c) for c in " \t\n([{,;=") + 1
        print("\n" + "  ".join(one[shared:] for one in found))
        print(self.terminal.styled_prompt(self.prompt) + readline.get_line_buffer(), end="", flush=True)
