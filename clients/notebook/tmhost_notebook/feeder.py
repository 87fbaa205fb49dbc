"""Asks the cells that wait (`feed.py`), on a thread of its own, and says of those that aren't asked why."""

import threading
from typing import TYPE_CHECKING, Iterable

from tmhost import BadLine, Closed, Died, Field, Gone, ProtocolError, Refused, TimedOut
from tmhost.advice import advised

from . import telling
from .sayings import SAYINGS

if TYPE_CHECKING:
    from .book import Book


class Feeder:
    """What it has is the book's: `feed`, with `lock`."""

    def __init__(self, book: "Book") -> None:
        self.book = book
        self._may_go_on = threading.Event()

    def start(self) -> None:
        threading.Thread(target=self._run, name="feeder", daemon=True).start()

    def go_on(self) -> None:
        """Has the thread look again for what can be asked, and whether the book was closed."""
        self._may_go_on.set()

    def evaluate(self, id: int) -> None:
        """Has a cell evaluated, with `order`: now, or after those of its session that wait. Not one of prose, nor one that waits already."""
        field = self.book.sheet.cell(id).field
        with self.book.lock:
            is_asked = field.session in self.book.prose or self.book.waits(field)
            is_free = not is_asked and self.book.feed.is_free(field.session) and not self.book.feed.count(field.session)
            if not is_asked and not is_free:
                self.book.feed.add(id, field.session)
                self.book.changes += 1
        if is_free:
            self._ask(field)
        else:
            self.book.touch(id)

    def evaluate_each(self, fields: Iterable[Field], stops: bool = False) -> int:
        """Has these cells evaluated, one of each session at a time; `stops` says that the rest isn't asked where one is an error."""
        with self.book.lock:
            fed = {field.id: field.session for field in fields if not self.book.waits(field)}
            for id, session in fed.items():
                self.book.feed.add(id, session, stops)
            telling.touch(self.book.watchers, set(fed))
        self.go_on()
        return len(fed)

    def drop(self, session: str, says: str = "") -> int:
        """What waits to be asked of a session isn't asked any more, and keeps its answers."""
        with self.book.lock:
            dropped = self.book.feed.drop(session)
            telling.touch(self.book.watchers, set(dropped))
            for watcher in self.book.watchers if says and dropped else ():
                watcher.says.append(f"{says}: {cells(len(dropped))} of session {session} {'was' if len(dropped) == 1 else 'were'} not asked")
        self.book.wake()
        return len(dropped)

    def _stop_at_errors(self) -> None:
        """What is to stop at the error of a cell isn't asked any more, with the book's lock."""
        failed = self.book.feed.failed()
        dropped = self.book.feed.drop_stopping() if failed else []
        telling.touch(self.book.watchers, set(dropped))
        for watcher in self.book.watchers if dropped else ():
            watcher.says.append(f"stopped at an error, of cell {failed[0]}: {cells(len(dropped))} {'was' if len(dropped) == 1 else 'were'} not asked")

    def _ask(self, field: Field, stops: bool = False) -> None:
        with self.book.lock:
            self.book.notes.keep(field)
            self.book.notes.ask(field.id, self.book.places.chain(field.id))
        with self.book.changing(field.id):
            evaluation = self.book.sheet.eval(field.id)
        with self.book.lock:
            self.book.feed.asked(field.id, field.session, evaluation, stops)
        evaluation.add_done_callback(lambda _: self.go_on())

    def _run(self) -> None:
        """Asks the next cell of each session when the one before has its answer."""
        while not self.book.is_closed:
            self._may_go_on.wait()
            self._may_go_on.clear()
            with self.book.lock:
                lost = self.book.feed.lost()
            for session in lost:
                self.drop(session, "its interpreter ended")
            while self._ask_one():
                pass
            self.book.wake()

    def _ask_one(self) -> bool:
        """Asks one cell, if one can be asked."""
        with self.book.order:
            with self.book.lock:
                self._stop_at_errors()
                id = self.book.feed.next() if self.book.ended is None else None
                field = None if id is None else self.book.field(id)
                stops = id is not None and self.book.feed.stops(id)
                if id is not None:
                    self.book.feed.take(id)
                    self.book.feed.being_asked = None if field is None else id
            if field is None:
                return id is not None
            try:
                why = self.book.why_not(field.session)
                if why is None:
                    self._ask(field, stops)
            except Refused as refused:
                why = SAYINGS.get(refused.name, str(refused))
            except (BadLine, Gone, TimedOut, Died, Closed, ProtocolError, OSError) as error:
                why = advised(error, self.book.path)
        if why is not None:
            with self.book.lock:
                self.book.feed.being_asked = None
            self.book.touch(field.id)
            self.drop(field.session, why)
        return True


def cells(count: int) -> str:
    return "one cell that waited" if count == 1 else f"{count:,} cells that waited"
