"""The worksheet as it is after what was reported: changed by replies and events alone, in the order in which they come."""

import collections
import dataclasses
import typing
from typing import Any, Deque, Dict, List, NoReturn, Optional, Tuple, TypeVar

from .errors import Gone, ProtocolError
from .events import Answered, Completed
from .reading import Sheet
from .values import Field, LostItem, Session, Turn

Result = TypeVar("Result", contravariant=True)


class Settles(typing.Protocol[Result]):
    """Who waits for a result or an error: a future of `concurrent.futures` or of `asyncio`."""

    def done(self) -> bool: ...

    def set_result(self, __result: Result) -> object: ...

    def set_exception(self, __exception: BaseException) -> object: ...


@dataclasses.dataclass(frozen=True)
class Item:
    """A line, or with a cursor a request of completions, that an interpreter has to answer, and who waits for that."""

    id: int
    cursor: Optional[int]
    waiter: "Settles[Any]"


def out_of_step(what: str) -> NoReturn:
    raise ProtocolError(f"tmhost reported {what}")


class Mirror:
    def __init__(self) -> None:
        self.order: List[int] = []
        self.sessions: Dict[str, Session] = {}
        self.next_id = 1
        self._fields: Dict[int, Field] = {}
        # A session answers its items in the order in which they were asked, so what it answers is the first of its row.
        self._rows: Dict[str, Deque[Item]] = collections.defaultdict(collections.deque)
        # The life of each session whose banner has come: it is sent the first of its row, and the next one when that is answered.
        self._greeted: Dict[str, int] = {}

    def field(self, id: int) -> Field:
        if id not in self._fields:
            raise Gone(id)
        return self._fields[id]

    def fields(self) -> List[Field]:
        return [self._fields[id] for id in self.order]

    def waiter(self, id: int) -> "Optional[Settles[Any]]":
        """Who waits for the answer to a cell's line."""
        rows = [self._rows[self._fields[id].session]] if id in self._fields else []
        return next((item.waiter for row in rows for item in row if item.id == id and item.cursor is None), None)

    def turn(self, id: int) -> Optional[Turn]:
        """Whether the interpreter of a cell works on its line, or others come first."""
        session = self.sessions[self.field(id).session]
        lines = [item.id if item.cursor is None else None for item in self._rows[session.name]]
        if id not in lines:
            return None
        return "running" if lines[0] == id and self._greeted.get(session.name) == session.life else "queued"

    # ---- what commands do

    def add_session(self, session: Session) -> None:
        self.sessions[session.name] = session

    def insert(self, field: Field, after: int) -> None:
        self._fields[field.id] = field
        self._place(field.id, after)
        self.next_id = field.id + 1

    def _place(self, id: int, after: int) -> None:
        if self.order and self.order[-1] == after:
            self.order.append(id)
        else:
            self.order.insert(self.order.index(after) + 1 if after else 0, id)

    def renew(self, id: int, input: Optional[str] = None, state: str = "empty", reason: Optional[str] = None) -> None:
        """Takes a cell's answer away, and gives it what is said."""
        old = self._old(id)
        self._fields[id] = Field(id, old.session, old.input if input is None else input, state, None, reason)

    def remove(self, id: int) -> None:
        self._old(id)
        self.order.remove(id)
        del self._fields[id]

    def move(self, id: int, after: int) -> None:
        self.order.remove(id)
        self._place(id, after)

    def _old(self, id: int) -> Field:
        """A cell of which something is reported."""
        return self._fields[id] if id in self._fields else out_of_step(f"of a cell {id}, which there is not")

    def _row(self, session: str) -> Deque[Item]:
        """What a session has to answer of which something is reported. It is looked at before anything is taken from it, since at an error
        those who wait must still be known."""
        return self._rows[session] if session in self.sessions else out_of_step(f"of a session {session!r}, which there is not")

    def ask(self, item: Item, session: str, life: int) -> None:
        """An interpreter has a further line or request."""
        self._row(session).append(item)
        self._run(session, life)
        if item.cursor is None:
            self.renew(item.id, state="waiting")

    def _run(self, name: str, life: Optional[int]) -> None:
        self.sessions[name] = dataclasses.replace(self.sessions[name], life=life, waiting=len(self._rows[name]))

    # ---- what is printed

    def show(self, field: Field) -> None:
        """A cell as it was printed. Its place is in the sheet after it, where it is new."""
        self._fields[field.id] = field

    def show_all(self, sheet: Sheet) -> None:
        """The order and the sessions as they were printed, after the cells."""
        if not set(sheet.fields) <= set(self._fields):
            out_of_step("of a cell that it didn't print")
        self.order = list(sheet.fields)
        self._fields = {id: self._fields[id] for id in self.order}
        self.sessions = {session.name: session for session in sheet.sessions}
        self.next_id = sheet.next

    # ---- what comes of interpreters

    def greeted(self, session: str, life: int) -> None:
        """An interpreter is ready, and has the first of its row."""
        self._greeted[session] = life

    def answered(self, reported: Answered) -> Item:
        old = self._old(reported.id)
        item = self._take(reported.session, reported.life, reported.id, False)
        self._fields[reported.id] = Field(reported.id, old.session, old.input, "answered", reported.answer)
        return item

    def completed(self, reported: Completed) -> Item:
        return self._take(reported.session, reported.life, reported.id, True)

    def _take(self, session: str, life: int, id: int, is_request: bool) -> Item:
        row = self._row(session)
        if not row or row[0].id != id or (row[0].cursor is not None) != is_request:
            out_of_step(f"an answer to cell {id}, which isn't the next one of session {session!r}")
        item = row.popleft()
        self._run(session, life)
        return item

    def ended(self, session: str, reason: str, lost: Tuple[LostItem, ...]) -> List[Item]:
        """An interpreter is gone, with what it had to answer. The first of that, where it is a line, keeps the reason."""
        row = list(self._row(session))
        if [(item.id, item.cursor) for item in row] != [(item.id, item.cursor) for item in lost]:
            out_of_step(f"that session {session!r} lost what it was not asked, or less than that")
        self._rows[session].clear()
        self._run(session, None)
        for place, item in enumerate(row):
            if item.cursor is None:
                self.renew(item.id, state="lost" if place == 0 else "empty", reason=reason if place == 0 else None)
        return row

    def close(self) -> List[Item]:
        """The program has ended at the end of its input: no interpreter runs, and what waited stays without an answer."""
        items = self.drop_rows()
        for name in self.sessions:
            self._run(name, None)
        for id, field in self._fields.items():
            if field.state == "waiting":
                self._fields[id] = dataclasses.replace(field, state="empty")
        return items

    def drop_rows(self) -> List[Item]:
        """Nothing more will be answered; all else stays as it was reported."""
        items = [item for row in self._rows.values() for item in row]
        self._rows.clear()
        return items
