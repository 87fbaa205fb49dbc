"""Messages to pages: all at first, and then what has changed since the last one. They cost no time for cells that nothing has happened to."""

import dataclasses
import os
import threading
import time
from typing import TYPE_CHECKING, Any, Dict, Iterable, List, Optional, Set

from tmhost import Field, Session, readable

from . import prose, shown, startable
from .notes import Note

if TYPE_CHECKING:
    from .book import Book

Message = Dict[str, Any]

SILENCE = 15.0  # seconds after which a page hears that the server is there
PARTIAL_EVERY = 0.2  # seconds between two messages of what isn't an answer yet
MOST_PLACED = 50  # cells whose new places are reported one by one; of more the whole order is reported
NO_MARK = [False, False]


def text_of(field: Field) -> str:
    """The text of a cell, on its lines."""
    return "\n".join(field.lines)


class Watcher:
    """A page that is open, and what it has to get."""

    def __init__(self) -> None:
        self.wake = threading.Event()
        self.says: List[str] = []
        self.is_over = False
        self.partial_at = 0.0  # when it can get again what isn't an answer yet
        self.begin()

    def begin(self) -> None:
        """It gets all."""
        self.is_new = True
        self.cells: Set[int] = set()
        self.marked: Set[int] = set()
        self.placed: Set[int] = set()
        self.gone: Set[int] = set()
        self.marks: Dict[int, List[bool]] = {}
        self.others: Message = {}
        self.partial: Set[int] = set()  # the cells for which an interpreter wrote something that is no answer yet, or that have no such text any more
        self.wake.set()

    def wait(self) -> None:
        """Waits until something has to be reported, or for a while."""
        self.wake.wait(SILENCE if not self.partial else max(0.0, self.partial_at - time.monotonic()))
        self.wake.clear()

    def put(self, id: int) -> None:
        self.placed.add(id)
        self.cells.add(id)

    def drop(self, id: int) -> None:
        for ids in (self.placed, self.cells, self.marked, self.partial):
            ids.discard(id)
        self.marks.pop(id, None)
        self.gone.add(id)


def message_for(book: "Book", watcher: Watcher) -> Message:
    """To be used with the book's lock. `at` says how many changes it has seen: a page drops what was reported of a cell before it changed that itself.
    A cell may have a later change in it than is said, but only if that one isn't counted yet: it is reported again then."""
    at = book.changes
    message = news(watcher, others(book))
    if watcher.is_new:
        fields = [field for field in book.sheet.fields if field.id in book.places]
        message.update(isWhole=True, order=book.places.ids)
        watcher.marked = set(book.places.ids)
    else:
        fields = [field for field in (book.field(id) for id in sorted(watcher.cells)) if field is not None and field.id in book.places]
        message.update(places(book, watcher))
    cells = [cell_facts(book, field) for field in fields]
    reported = {"cells": cells, "marks": marks(book, watcher), "says": watcher.says, "partial": partial(book, watcher)}
    message.update({name: value for name, value in reported.items() if value})
    watcher.is_new, watcher.says = False, []
    for ids in (watcher.cells, watcher.marked, watcher.placed, watcher.gone):
        ids.clear()
    return {**message, "at": at} if message else message


def news(watcher: Watcher, reported: Message) -> Message:
    message = {name: value for name, value in reported.items() if watcher.others.get(name, ...) != value}
    watcher.others = reported
    return message


def others(book: "Book") -> Message:
    removed = [{"number": one["number"], "session": one["field"].session, "input": text_of(one["field"])[:80]} for one in book.removed]
    sessions = book.sheet.sessions.values()
    return {
        "server": book.server,
        "path": os.path.basename(book.path),
        "isOfFolder": book.is_of_folder,
        "sessions": [session_facts(ended(session) if book.ended else session, book.feed.count(session.name)) for session in sessions],
        "removed": removed,
        "ended": book.ended,
        "isLooking": book.is_looking,
    }


def places(book: "Book", watcher: Watcher) -> Message:
    """The cells that are gone, and after which ones others were put, from the first one on. Of many the whole order."""
    if len(watcher.placed) + len(watcher.gone) > MOST_PLACED:
        return {"order": book.places.ids}
    placed = [[id, book.places.before(id)] for id in book.places.in_order(watcher.placed)]
    return {name: value for name, value in (("placed", placed), ("gone", sorted(watcher.gone))) if value}


def marks(book: "Book", watcher: Watcher) -> Dict[int, List[bool]]:
    """Of each cell whether its answer is stale, and whether the process that answered has ended."""
    changed: Dict[int, List[bool]] = {}
    for id in watcher.marked | watcher.cells:
        mark = mark_of(book, id) if id in book.places else NO_MARK
        if mark != watcher.marks.get(id, NO_MARK):
            watcher.marks[id] = changed[id] = mark
    return changed


def partial(book: "Book", watcher: Watcher) -> Dict[int, Optional[Message]]:
    """Of cells that are evaluated what was written of their answers, null where there is nothing. Each page gets that now and then."""
    if watcher.is_new:
        watcher.partial = {id for id in map(book.notes.running, book.sheet.sessions) if id is not None}
    if not watcher.partial or (not watcher.is_new and time.monotonic() < watcher.partial_at):
        return {}
    found = {id: partial_of(book, id) for id in watcher.partial}
    watcher.partial = set()
    watcher.partial_at = time.monotonic() + PARTIAL_EVERY
    return {id: text for id, text in found.items() if text or not watcher.is_new}


def partial_of(book: "Book", id: int) -> Optional[Message]:
    field = book.field(id)
    text = book.partials.of(field.session) if field and book.notes.running(field.session) == id else None
    return {"text": text.text, "isCut": text.is_cut} if text else None


def touch_partial(watchers: Iterable[Watcher], *ids: Optional[int]) -> None:
    found = {id for id in ids if id is not None}
    for watcher in watchers if found else ():
        if not watcher.partial:
            watcher.wake.set()  # who waits for news waits less long now
        watcher.partial |= found


def mark_of(book: "Book", id: int) -> List[bool]:
    session = book.places.answered_by(id)
    return NO_MARK if session is None or book.is_looking else [book.places.is_stale(id), book.ended is not None or book.notes.has_ended(id, session)]


def cell_facts(book: "Book", field: Field) -> Message:
    note, draft = book.notes.of.get(field.id) or Note(), book.drafts.of.get(field.id)
    answer = field.answer or (note.old if field.state in ("empty", "waiting") else None)
    return {
        "id": field.id,
        "session": field.session,
        "input": text_of(field),
        "draft": {"base": draft.base, "text": draft.text} if draft and draft.text != text_of(field) else None,
        "state": state_of(book, field, note),
        "reason": field.reason,
        "wrote": note.wrote if field.state == "lost" else None,
        "since": None if note.since is None else int(note.since * 1000),
        "took": None if note.took is None or field.state != "answered" else int(note.took * 1000),
        "count": note.count if field.state == "answered" else None,
        "prompt": readable(field.answer.prompt) if field.answer else None,
        "output": shown.facts_of(answer) if answer else None,
        "isOld": field.answer is None,
    }


def state_of(book: "Book", field: Field, note: Note) -> str:
    """A cell that isn't asked yet waits for its turn, and has its old answer in the file."""
    if book.ended:
        return "doubtful" if field.id in book.in_doubt else "empty" if field.state == "waiting" else field.state
    if field.state == "waiting":
        return "queued" if note.since is None else "running"
    return "queued" if field.id in book.feed else field.state


def ended(session: Session) -> Session:
    """A session whose interpreter has ended, with the program or before."""
    return dataclasses.replace(session, life=None, waiting=0)


def session_facts(session: Session, fed: int) -> Message:
    return {
        "name": session.name,
        "words": " ".join(session.words),
        "tab": session.tab,
        "runs": session.life is not None,
        "missing": startable.missing(session) if session.life is None else None,
        "waiting": session.waiting + fed,
        "isProse": prose.is_prose(session),
    }


def touch(watchers: Iterable[Watcher], cells: Set[int], marked: Optional[Set[int]] = None) -> None:
    for watcher in watchers:
        watcher.cells |= cells
        watcher.marked |= marked or set()
