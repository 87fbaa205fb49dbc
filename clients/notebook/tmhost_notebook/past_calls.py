"""What a page may ask of the worksheet's past. Each call but `past_restore` looks, and writes nothing; that one makes another worksheet."""

import contextlib
import os
from typing import Iterator, Optional

from tmhost import Answer, Field, Session, readable

from . import folder, prose, shown
from .asked import Facts, NotDone, number, text
from .book import Book
from .past import NoPast, Past, Sheet, versions_of
from .telling import text_of

MOST_CHANGES = 200  # that are reported at once, the newest first
MOST_CELLS = 50
MOST_VERSIONS = 1_000


@contextlib.contextmanager
def refused() -> Iterator[None]:
    try:
        yield
    except NoPast as none:
        raise NotDone("NoPast", str(none)) from None
    except folder.NotDone as error:
        raise NotDone("NotMade", str(error)) from None


def past_of(book: Book, asked: Facts) -> Past:
    """The past of which a page has the list. Where the worksheet was opened again since, its changes may have other numbers."""
    if text(asked, "opening") != book.past.opening:
        raise NotDone("Elsewhere", "the worksheet was opened again since: look for its changes again")
    return book.past


def call_past(book: Book, asked: Facts) -> Facts:
    """The changes of the worksheet: the newest ones, or those up to a number of a list that the page has."""
    is_new = asked.get("upTo") is None
    with refused():
        past = book.past if is_new else past_of(book, asked)
        changes = past.changes(is_new)
    end = len(changes) if is_new else min(number(asked, "upTo"), len(changes))
    start = max(0, end - MOST_CHANGES)
    return {"opening": past.opening, "count": len(changes), "changes": changes[start:end]}


def call_past_sheet(book: Book, asked: Facts) -> Facts:
    """Some cells of the worksheet after so many changes: those around a cell, or else from a place on."""
    with refused():
        sheet = past_of(book, asked).sheet(number(asked, "at"))
        about, place = number(asked, "about"), number(asked, "place")
        if about in sheet.lines:
            place = sheet.order.index(about)
        start = min(place, max(0, len(sheet.order) - 1)) // MOST_CELLS * MOST_CELLS
        cells = [then_facts(book, sheet, sheet.field(id)) for id in sheet.order[start : start + MOST_CELLS]]
    return {"start": start, "count": len(sheet.order), "then": cells}


def call_past_cell(book: Book, asked: Facts) -> Facts:
    """What a cell had before: after which changes it had that."""
    id = number(asked, "id")
    with refused():
        found = versions_of(book.past.changes(is_new=True), id)
    return {"opening": book.past.opening, "count": len(found), "versions": [list(one) for one in found[:MOST_VERSIONS]]}


def call_past_field(book: Book, asked: Facts) -> Facts:
    """One cell as it was."""
    at, id = number(asked, "at"), number(asked, "id")
    with refused():
        past = past_of(book, asked)
        field = past.field(at, id)
        return {"then": [then_facts(book, past.sheet(at), field)]}


def call_past_output(book: Book, asked: Facts) -> Facts:
    """A further piece of a long answer."""
    with refused():
        answer = past_of(book, asked).field(number(asked, "at"), number(asked, "id")).answer
    if answer is None:
        raise NotDone("NotThere", "the cell had no answer")
    return shown.piece_of(answer, number(asked, "start"))


def call_past_removed(book: Book, asked: Facts) -> Facts:
    """Has what was removed before in the list of removed cells, which pages get."""
    with refused():
        return {} if book.find_removed() else {"warning": "Not all that was removed before is here yet: open the list again."}


def call_past_restore(book: Book, asked: Facts) -> Facts:
    """Makes a new worksheet, beside this one, of what this one was."""
    with refused():
        path = past_of(book, asked).restore(number(asked, "at"), text(asked, "name"))
    return {"name": os.path.basename(path)}


def then_facts(book: Book, sheet: Sheet, field: Field) -> Facts:
    """A cell of then as the page shows it. `isThere` says whether it is in the worksheet yet, and `after` after which cell of today it stood."""
    session = sheet.sessions.get(field.session) or Session(field.session, (), False)
    before = sheet.order[: sheet.order.index(field.id)]
    return {
        "id": field.id,
        "session": field.session,
        "isProse": prose.is_prose(session),
        "input": text_of(field),
        "state": field.state,
        "reason": field.reason,
        "prompt": readable(field.answer.prompt) if field.answer else None,
        "output": shown.facts_of(field.answer) if field.answer else None,
        "isThere": field.id in book.places,
        "after": next((id for id in reversed(before) if id in book.places), 0),
    }


def answer_of_then(book: Book, asked: Facts) -> Optional[Answer]:
    """The answer of then, where a text is taken back: it is shown in grey."""
    of = asked.get("then")
    return book.past.kept(number(of, "at"), number(of, "id")) if isinstance(of, dict) else None
