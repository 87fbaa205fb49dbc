"""Lines that begin with `%tmhost`: they are no inputs, and no fields."""

from typing import Callable, Dict, List

from tmhost import Cell, Field

from . import scheme
from .marks import LINE_END, compared
from .scheme import Name
from .speech import OPENED, closed, command, escaped, whole
from .talk import Asked, Talk

HELP = """%tmhost show               the fields of this session, with their answers
%tmhost again              evaluates all of them, in an interpreter that starts empty, and says which answers are others
%tmhost check              says which answers of this document are older than their inputs, or not in the worksheet
%tmhost restore            puts the fields that this document lacks into it
%tmhost interrupt [NAME]   interrupts the line of a session, as of another one in this worksheet
%tmhost stop [NAME]        ends the interpreter of a session: its variables go
%tmhost sessions           the sessions of this worksheet
%tmhost file               where the worksheet is"""


class Commands:
    def __init__(self, talk: Talk) -> None:
        self.talk, self.sheet = talk, talk.sheet

    def do(self, asked: Asked) -> None:
        words = asked.input.split()[1:]
        known: Dict[str, Callable[[Asked, List[str]], None]] = {
            "show": self._show, "again": self._again, "check": self._check, "restore": self._restore, "interrupt": self._interrupt, "stop": self._stop,
            "sessions": self._sessions, "file": self._file,
        }
        known.get(words[0] if words else "", self._help)(asked, words[1:])

    def _tell(self, text: str) -> None:
        self.talk.write(whole(text, self.talk.prompt))

    def _help(self, asked: Asked, words: List[str]) -> None:
        self._tell(HELP)

    def _file(self, asked: Asked, words: List[str]) -> None:
        self._tell(self.sheet.path)

    def _sessions(self, asked: Asked, words: List[str]) -> None:
        self._tell("\n".join(f"{one.name}: {' '.join(one.words)}" for one in self.sheet.sessions.values()))

    def _show(self, asked: Asked, words: List[str]) -> None:
        self.talk.write(OPENED + b"".join(map(self._shown, self.talk.fields)) + closed(self.talk.prompt))

    def _shown(self, field: Field) -> bytes:
        prompt = field.answer.prompt if field.answer else f"{field.session}> "
        front = escaped(f"#{field.id} ") + escaped(prompt) + escaped(field.input.replace(LINE_END, "\n")) + b"\n"
        if field.answer is None:
            return front + escaped(f"? {field.reason or ''}".rstrip()) + b"\n"
        return front + self.talk.shown(field.answer).rstrip(b"\n") + b"\n"

    def _again(self, asked: Asked, words: List[str]) -> None:
        """Evaluates the fields in their order. Each answer is in the worksheet when the next one is asked."""
        self.sheet.stop(self.talk.name)
        reported = []
        fields = self.talk.fields
        for field in fields:
            cell = Cell(self.sheet, field.id)
            self.talk.waited(cell.eval())
            if not field.answer or cell.text != field.answer.text:
                reported.append(f"#{field.id} {field.input[:60]}: {'another answer' if cell.state == 'answered' else cell.reason}")
        self._tell("\n".join(reported) or f"{len(fields)} fields have the same answers")

    def _check(self, asked: Asked, words: List[str]) -> None:
        self._tell("\n".join(compared(self.talk.fields, asked.shown or [])) or "this document shows what the worksheet has")

    def _restore(self, asked: Asked, words: List[str]) -> None:
        """Orders TeXmacs to put each field that the document lacks after the one before it; it asks for their answers then."""
        there = {one.id for one in asked.shown or ()}
        lacking: List[str] = []  # of each field the number, the input, and the number of the one before it
        before = ""
        for field in self.talk.fields:
            if str(field.id) not in there:
                lacking += [str(field.id), field.input.replace(LINE_END, "\n"), before]
            before = str(field.id)
        order = command(scheme.written([Name("tmhost-restore"), self.talk.full_name, *lacking])) if lacking else b""
        said = f"{len(lacking) // 3} fields were put in" if lacking else "this document has all fields of the session"
        self.talk.write(OPENED + order + escaped(said) + closed(self.talk.prompt))

    def _interrupt(self, asked: Asked, words: List[str]) -> None:
        name = words[0] if words else self.talk.name
        self._tell(f"interrupt of {name}: {self.sheet.interrupt(name)}")

    def _stop(self, asked: Asked, words: List[str]) -> None:
        name = words[0] if words else self.talk.name
        self.sheet.stop(name)
        self._tell(f"the interpreter of {name} has ended, and the next line starts it again, without its variables")
