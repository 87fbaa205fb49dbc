"""What is said with one session of TeXmacs: its lines in, blocks out.

A line is an input, or begins with the byte 16 and is a list of Scheme:

    (evaluate INPUT ID BEFORE AFTER DOCUMENT SHOWN ..)   ID is the field that the document has for the input, BEFORE and AFTER those beside it;
                                                          a SHOWN is (ID MARK INPUT), and is there where the document is to be compared
    (kept ID ..)                                          the answers that the worksheet has, of fields that are put into the document
    (complete INPUT CURSOR)                               TeXmacs' own

Or it is `%tmhost ..` (`commands.py`). An answer begins when its line is taken on, by an order to TeXmacs that gives the document the number of the field.
"""

import dataclasses
import queue
from typing import Callable, List, Optional, Union

from tmhost import Answer, BadLine, Cell, Evaluation, Field, Lost, Refused, TmhostError, Worksheet, readable

from . import scheme
from .marks import LINE_END, Shown, compared, marks
from .scheme import Name, NoForm
from .speech import BEGIN, END, OPENED, Speech, Text, closed, command, escaped, next_prompt, tree, whole
from .trees import tree_text

COMMAND = "%tmhost"
NO_COMPLETIONS = BEGIN + b"scheme:(tuple)" + END
COMPLETED_IN = 10.0  # seconds
REFUSALS = {
    "InFlight": "its interpreter still works on it: wait for that, or interrupt it (%tmhost interrupt)",
    "BadInput": "an input has at most 4,095 bytes and no control character",
}


class Interrupt:
    """TeXmacs wants the line to end."""


class Gone:
    """TeXmacs has closed the session."""


class Answered:
    """An evaluation is at its end."""


Happening = Union[str, Interrupt, Gone, Answered]


@dataclasses.dataclass(frozen=True)
class Asked:
    """What a line of TeXmacs asks to evaluate."""

    input: str
    id: str = ""
    before: str = ""
    after: str = ""
    document: str = ""
    shown: Optional[List[Shown]] = None


@dataclasses.dataclass(frozen=True)
class Place:
    """Where TeXmacs has a session: the name that it has there, the document in which it is, and the process that TeXmacs has started for it."""

    session: str
    document: str
    process: str


class Left(Exception):
    """Nobody waits for the answer any more."""


class Talk:
    """`write` sends to TeXmacs, and `place` is where it has the session."""

    def __init__(self, sheet: Worksheet, place: Place, speech: Speech, write: Callable[[bytes], None]) -> None:
        self.sheet, self.speech, self.write = sheet, speech, write
        self.full_name, self.document, self.process = place.session, place.document, place.process
        self.name = self.full_name.partition(":")[0]
        self.happenings: "queue.SimpleQueue[Happening]" = queue.SimpleQueue()
        self.prompt: Text = next((next_prompt(field.answer.prompt) for field in reversed(self.fields) if field.answer), f"{self.name}> ")

    @property
    def fields(self) -> List[Field]:
        return [field for field in self.sheet.fields if field.session == self.name]

    def banner(self) -> bytes:
        fields = self.fields
        text = f"{self.name}, kept in {self.sheet.path}"
        if fields:
            kept = sum(field.state == "answered" for field in fields)
            text += f"\n{len(fields)} fields are there, {kept} with answers: `%tmhost restore` puts them in, `%tmhost again` evaluates them, since variables are gone"
        return OPENED + command(scheme.written([Name("tmhost-runs"), self.full_name, self.process])) + escaped(text) + closed(self.prompt)

    # ---- lines

    def say(self, line: str) -> None:
        """Answers a line by one block."""
        try:
            self._say(line)
        except Refused as refused:
            self.write(whole(f"not taken: {REFUSALS.get(refused.name, refused.name)}", self.prompt))
        except BadLine:
            self.write(whole(f"not taken: {REFUSALS['BadInput']}", self.prompt))

    def _say(self, line: str) -> None:
        try:
            form = scheme.read(line[1:]) if line.startswith("\x10") else [Name("evaluate"), line]
        except NoForm:
            form = []
        word = form[0] if form else ""
        if word == "evaluate":
            self._evaluate(asked_by(form))
        elif word == "kept":
            self._show_kept(scheme.strings(form[1:]))
        elif word == "complete" and len(form) == 3:
            self.write(self._completed(str(form[1]), str(form[2])))
        else:
            self.write(whole("tmhost doesn't know what TeXmacs asks", self.prompt))

    def _evaluate(self, asked: Asked) -> None:
        if asked.input.strip().startswith(COMMAND):
            from .commands import Commands

            Commands(self).do(asked)
            return
        if asked.document and asked.document != self.document:
            self.write(whole(f"not taken: {at_work(self.sheet.path, self.document)}", self.prompt))
            return
        cell = self._cell(asked)
        evaluation = cell.eval()
        self.write(OPENED + self.accepted(cell) + self._remarks(asked, cell))
        self.write(self.waited(evaluation) + closed(self.prompt))

    def _cell(self, asked: Asked) -> Cell:
        """The field of an input, with that input; a new one where the document has none."""
        text = asked.input.rstrip("\n").replace("\n", LINE_END)
        cell = self.found(asked.id)
        if cell is None:
            return self.sheet.new(self.name, text, self._place(asked))
        if cell.input != text:
            cell.set(text)
        return cell

    def found(self, id: str) -> Optional[Cell]:
        """The field of this session with a number."""
        return next((Cell(self.sheet, field.id) for field in self.fields if str(field.id) == id), None)

    def _place(self, asked: Asked) -> Optional[int]:
        """The field after which a new one is to stand, 0 for the first place, None for the last."""
        order = [field.id for field in self.sheet.fields]
        names = {str(id): at for at, id in enumerate(order)}
        if asked.before in names:
            return order[names[asked.before]]
        if asked.after in names:
            at = names[asked.after]
            return order[at - 1] if at else 0
        return None

    def accepted(self, cell: Cell) -> bytes:
        """Tells the document which field an input is, and the mark of its answer."""
        return command(scheme.written([Name("tmhost-accepted"), self.full_name, str(cell.id), marks(self.fields)[cell.id]]))

    def _remarks(self, asked: Asked, cell: Cell) -> bytes:
        """What a document that was opened again shows otherwise than the worksheet has it, but for the field that is evaluated now."""
        shown = [one for one in asked.shown or () if one.id != str(cell.id)]
        lines = compared(self.fields, shown, cell.id) if shown else []
        return escaped("".join(f"[{line}]\n" for line in lines))

    # ---- answers

    def waited(self, evaluation: Evaluation) -> bytes:
        """The answer to an evaluation, or why there is none."""
        self.wait_for(evaluation)
        try:
            answer = evaluation.result(0)
        except Lost as lost:
            return escaped(f"? {lost.reason}")
        self.prompt = next_prompt(answer.prompt)
        return self.shown(answer)

    def wait_for(self, evaluation: Evaluation) -> None:
        """Waits until an evaluation is at its end. An interrupt is passed on: what the interpreter says to it is the answer."""
        evaluation.add_done_callback(lambda _: self.happenings.put(Answered()))
        put_off: List[Happening] = []
        while not evaluation.done():
            happening = self.happenings.get()
            if isinstance(happening, Interrupt):
                self.sheet.interrupt(self.name)
            if isinstance(happening, Gone):
                self._put_back([happening])
                raise Left
            if isinstance(happening, str):
                put_off.append(happening)
        self._put_back(put_off)

    def _put_back(self, lines: List[Happening]) -> None:
        for line in lines:
            self.happenings.put(line)

    def shown(self, answer: Answer) -> bytes:
        return self.speech.part(answer.output)

    def _show_kept(self, ids: List[str]) -> None:
        """Of each of these fields a tree with its number, its mark and its prompt, and the answer that the worksheet has."""
        fields = self.fields
        by_id, now = {str(field.id): field for field in fields}, marks(fields)
        found = [by_id[id] for id in ids if id in by_id]
        self.write(OPENED + b"".join(self._kept(field, now[field.id]) for field in found) + closed(self.prompt))

    def _kept(self, field: Field, mark: str) -> bytes:
        reported = self.shown(field.answer) if field.answer else escaped(f"? {field.reason or 'it was not evaluated'}")
        prompt = field.answer.prompt if field.answer else self.prompt
        return tree([Name("tmhost-kept"), str(field.id), mark, tree_text(readable(prompt))]) + b"\n" + reported + b"\n"

    # ---- completions

    def _completed(self, text: str, cursor: str) -> bytes:
        fields, session = self.fields, self.sheet.sessions[self.name]
        if not fields or not session.tab or session.waiting or not cursor.isdigit():
            return NO_COMPLETIONS
        text = text.replace("\n", LINE_END)
        try:
            reported = Cell(self.sheet, fields[-1].id).complete(int(cursor), COMPLETED_IN, text)
        except TmhostError:
            return NO_COMPLETIONS
        if reported is None or not reported.rest:
            return NO_COMPLETIONS
        words = scheme.written([Name("tuple"), *(readable(one) for one in (reported.root, *reported.rest))])
        return BEGIN + b"scheme:" + escaped(words) + END


def at_work(sheet: str, document: str, whose: str = "") -> str:
    """Two documents at a worksheet would each show a part of it as the whole, and change the other's fields."""
    return (f"the worksheet {sheet} is at work for the document {document or 'without a name'}{whose}; "
            "close that, or insert a session into a new document by the menu: it gets a worksheet of its own")


def asked_by(form: List[scheme.Form]) -> Asked:
    texts = [item if isinstance(item, str) else "" for item in form[1:6]]
    shown = [Shown(*strings[:3]) for strings in map(scheme.strings, form[6:]) if len(strings) == 3]
    input, id, before, after, document = (*texts, "", "", "", "", "")[:5]
    return Asked(input, id, before, after, document, shown if len(form) > 6 else None)
