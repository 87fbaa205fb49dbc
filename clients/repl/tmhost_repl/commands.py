"""The lines that are for the program itself. Any other line is for the interpreter, also where it begins with `%`."""

import difflib
from typing import Callable, Dict, List, Optional, Sequence, Tuple, Union

from tmhost import BadLine, Cell, Refused, Worksheet
from tmhost.advice import OF_REFUSALS
from tmhost.starting import doubt, missing_program, never_answers

from .console import Console
from .evaluation import Evaluator, Outcome
from .lines import Lines
from .texts import harmless


# The words of a session of prose (clients/notebook/README.md): its program ends at once, and its fields are never evaluated.
PROSE = ("true",)
# How near, by difflib's measure, a word is to a command where that is meant: `%lsit` and `%form` are, `%ls`, `%store` and `%exit` aren't.
NEAR = 0.8


class Mistake(Exception):
    """A command can't be done as it was given."""


Handler = Callable[[List[str]], None]


class Commands:
    """`session` is the one that lines go to. `is_over` says that the user wants to quit."""

    def __init__(self, worksheet: Worksheet, console: Console, evaluator: Evaluator, lines: Lines) -> None:
        self.worksheet, self.console, self.evaluator, self.lines = worksheet, console, evaluator, lines
        self.session = ""
        self.is_over = False
        self._table: Dict[str, Tuple[Handler, str, int, int, str]] = {
            "%list": (self._list, "", 0, 0, "shows the worksheet"),
            "%eval-all": (self._eval_all, "", 0, 0, "evaluates all fields, one after another"),
            "%from": (self._from, "ID", 1, 1, "evaluates the fields from this one on"),
            "%stop": (self._stop, "", 0, 0, "stops the interpreter; its variables go"),
            "%interrupt": (self._interrupt, "", 0, 0, "interrupts a line that was left running"),
            "%sessions": (self._sessions, "", 0, 0, "shows the sessions"),
            "%session": (self._session, "NAME [WORDS ..]", 1, 17, "goes to another session; WORDS make it where it isn't there"),
            "%remove": (self._remove, "ID", 1, 1, "removes a field"),
            "%help": (self._help, "", 0, 0, "shows this"),
            "%quit": (self._quit, "", 0, 0, "ends, and so does control-D"),
        }

    @property
    def words(self) -> List[str]:
        return list(self._table)

    def has(self, text: str) -> bool:
        return text.startswith("%") and "\n" not in text and text.split()[0] in self._table

    def meant(self, text: str) -> Optional[str]:
        """The command of which the first word of a text is a misspelling by a letter or two, where it is none."""
        if not text.startswith("%") or "\n" in text or self.has(text):
            return None
        return next(iter(difflib.get_close_matches(text.split()[0], self._table, 1, NEAR)), None)

    def do(self, text: str) -> None:
        name, *words = text.split()
        handler, usage, least, most, _ = self._table[name]
        if not least <= len(words) <= most:
            raise Mistake(f"it is {name} {usage}".rstrip())
        handler(words)

    def enter(self, session: str) -> None:
        words = self.worksheet.sessions[session].words
        refuse_bare(session, words)
        self.session = session
        why = doubt(words)
        if why:
            self.console.note(harmless(f"{session}: {why}"))
        self.lines.enter(self.worksheet.sessions[session])

    def _list(self, words: List[str]) -> None:
        for field in self.worksheet.fields:
            self.console.field(field)

    def _sessions(self, words: List[str]) -> None:
        for session in self.worksheet.sessions.values():
            life = "not running" if session.life is None else "running"
            about = [life] + ["completes at TAB"] * session.tab + [f"{session.waiting} waiting"] * (session.waiting > 0)
            here = "*" if session.name == self.session else " "
            self.console.show(harmless(f"{here} {session.name}: {' '.join(session.words)} ({', '.join(about)})"))

    def _session(self, words: List[str]) -> None:
        name, more = words[0], words[1:]
        if name not in self.worksheet.sessions and not more:
            raise Mistake(f"there is no session {name}: %session {name} WORDS .. makes it")
        if more:
            refuse_bare(name, more)
            ensure(self.worksheet, name, more, False)
        self.enter(name)

    def _id(self, word: str) -> int:
        if not word.isdecimal() or int(word) not in [cell.id for cell in self.worksheet.cells]:
            raise Mistake(f"there is no field {word}")
        return int(word)

    def _remove(self, words: List[str]) -> None:
        self.worksheet.remove(self._id(words[0]))

    def _stop(self, words: List[str]) -> None:
        if self.worksheet.sessions[self.session].life is None:
            self.console.note("no interpreter runs")
        else:
            self.evaluator.stop(self.session)

    def _interrupt(self, words: List[str]) -> None:
        self.console.note(f"interrupt: {self.worksheet.interrupt(self.session)}")

    def _eval_all(self, words: List[str]) -> None:
        self._evaluate(self._code(self.worksheet.cells))

    def _from(self, words: List[str]) -> None:
        cells = self.worksheet.cells
        place = [cell.id for cell in cells].index(self._id(words[0]))
        self._evaluate(self._code(cells[place:]))

    def _code(self, cells: List[Cell]) -> List[int]:
        """Those of these fields that an interpreter evaluates: none of prose, and none of a session that never answers, which is said."""
        words = {session.name: session.words for session in self.worksheet.sessions.values()}
        names = [cell.field.session for cell in cells]
        bare = {name: why for name in dict.fromkeys(names) if (why := never_answers(words[name]))}
        for name, why in bare.items():
            self.console.fail(f"not evaluated: {names.count(name)} of {name}: {why}")
        return [cell.id for cell, name in zip(cells, names) if words[name] != PROSE and name not in bare]

    def _evaluate(self, ids: List[int]) -> None:
        """One after another: an interpreter that ends takes the answer of one field alone, and those after it keep theirs, since they
        would be evaluated without the variables of the ones before."""
        for place, id in enumerate(ids):
            cell = self.worksheet.cell(id)
            self.console.evaluating(cell.field, self.evaluator.next_prompt(cell.session))
            outcome = self.evaluator.evaluate(cell)
            if outcome is not Outcome.ANSWERED or self.evaluator.was_interrupted:
                left = len(ids) - place - 1
                if left:
                    self.console.fail(f"not evaluated: {left} more, from #{ids[place + 1]} on")
                return

    def _help(self, words: List[str]) -> None:
        rows = [(f"{name} {usage}".rstrip(), reported) for name, (_, usage, _, _, reported) in self._table.items()]
        width = max(len(row[0]) for row in rows)
        self.console.show("\n".join(f"{left.ljust(width)}  {reported}" for left, reported in rows))
        self.console.show(
            "A line that ends in a backslash goes on with the next one, and what is pasted is one input. In a session of Python a\n"
            "line that opens a block, brackets or a text asks for more, and an empty line ends it. Control-C interrupts what runs,\n"
            "and a second one asks to stop it. A space in front of such a word sends the line to the interpreter."
        )

    def _quit(self, words: List[str]) -> None:
        self.is_over = True


def refuse_bare(name: str, words: Sequence[str]) -> None:
    """A session that certainly never answers isn't made, and isn't gone to: its first line would be waited for without end."""
    why = never_answers(words)
    if why:
        raise Mistake(f"{name}: {why}")


def refuse_missing(name: str, words: Sequence[str]) -> None:
    """A session whose first word is no program isn't made: it may be misspelt, and a session keeps its words. Of an adapter whose interpreter isn't here the
    words are right."""
    missing = missing_program(words) if words else None
    if missing and missing[0] == words[0]:
        raise Mistake(f"{name}: {missing[1]}")


def ensure(worksheet: Worksheet, name: str, words: List[str], tab: bool) -> Optional[str]:
    """Makes a session where it isn't there; one that is there has to have these words."""
    found = worksheet.sessions.get(name)
    if found is None:
        refuse_missing(name, words)
        worksheet.session(name, words, tab)
        return name
    if list(found.words) != words:
        raise Mistake(f"session {name} is there already, with other words: {' '.join(found.words)}")
    if tab and not found.tab:
        raise Mistake(f"session {name} is there already, and completes nothing")
    return None


def explained(refused: Union[Refused, BadLine]) -> str:
    if isinstance(refused, BadLine):
        return "refused: the line is too long"
    why = OF_REFUSALS.get(refused.name)
    return f"refused: {refused.name}" + (f" ({why})" if why else "")
