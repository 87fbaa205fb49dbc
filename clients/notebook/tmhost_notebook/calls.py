"""What a page may ask for: each call returns when what it did is on the disk."""

import contextlib
import os
from typing import Any, Callable, Dict, List, Optional, Sequence

from tmhost import BadLine, Closed, Completions, Died, Field, Gone, Lost, ProtocolError, Refused, TimedOut, Undone, readable
from tmhost.advice import advised

from . import in_prose, past_calls, prose, shown, startable
from .asked import Facts, NotDone, member, members, number, text, text_or_none
from .book import Book
from .drafts import Draft, NotKept
from .helping import NoHelp
from .past_calls import answer_of_then
from .sayings import SAYINGS
from .steps import Given, Made, NotFit, Step, name_of
from .telling import text_of

COMPLETED_WITHIN = 10.0  # seconds that an interpreter has for completions
MOST_COMPLETIONS = 500


def field_of(book: Book, id: int) -> Field:
    return book.sheet.cell(id).field


def idle_field(book: Book, id: int) -> Field:
    """A cell that neither waits for its answer nor to be asked."""
    field = field_of(book, id)
    if book.waits(field):
        raise NotDone("InFlight", SAYINGS["InFlight"])
    return field


# ---- cells


def keep_text(book: Book, asked: Facts, id: int) -> bool:
    """Saves the text of a cell, or, while that waits for its answer, keeps it as a draft: True. `base` is the text that the page took for the
    cell's, and `draft` for its draft's: where one is another by now, nothing is done."""
    given, field, draft = text(asked, "text"), field_of(book, id), book.drafts.of.get(id)
    saved = text_of(field)
    if saved not in (given, text(asked, "base")) or (draft and draft.text not in (given, text_or_none(asked, "draft"))):
        raise NotDone("Elsewhere", "the cell was changed in another page; it was not saved")
    if saved == given:
        book.keep_draft(id, None)
        return False
    waits, new = book.waits(field), Draft(field.session, saved, given)
    if waits or draft not in (None, new):  # what is to be saved now is a draft until it is
        book.keep_draft(id, new)
    if waits:
        return True
    with book.changing(id):
        book.sheet.set(id, given)
        with book.lock:
            book.notes.keep(field)
    if draft:
        with contextlib.suppress(NotKept):  # it says the same as the cell then
            book.keep_draft(id, None)
    return False


def call_set(book: Book, asked: Facts) -> Facts:
    """Saves the text of a cell, and tells which change it was, and whether it is kept as a draft till then."""
    with book.order:
        is_draft = keep_text(book, asked, number(asked, "id"))
        return {"at": book.changes, "isDraft": is_draft}


def call_new(book: Book, asked: Facts) -> Facts:
    with book.order:
        return {"id": book.new(text_or_none(asked, "session"), text(asked, "text"), number(asked, "after"))}


def call_remove(book: Book, asked: Facts) -> Facts:
    with book.order:
        book.steps.do(Step("removal", removed=[idle_field(book, number(asked, "id")).id]))
    return {}


def made(book: Book, asked: Facts) -> Made:
    """A cell that is to be made; where it is said of which one it is a copy, it shows the answer of that in grey."""
    session = text_or_none(asked, "session")
    of = book.steps.id_now(number(asked, "of")) if "of" in asked else 0
    note = book.notes.of.get(of)
    old = next((one["old"] for one in book.removed if one["field"].id == of), note.old if note else None)
    field = book.field(of)
    return Made(number(asked, "after"), session, text(asked, "text"), old=answer_of_then(book, asked) or (field.answer or old if field else old))


def call_step(book: Book, asked: Facts) -> Facts:
    """Changes several cells in one step. Gives the cells that were made or changed, and those that are gone."""
    with book.order:
        given = [Given(number(one, "id"), text(one, "base"), text(one, "text"), answer_of_then(book, one)) for one in members(asked, "set")]
        moved = [(number(one, "id"), number(one, "after")) for one in members(asked, "move")]
        removed = [number(one, "id") for one in members(asked, "remove")]
        came = book.steps.do(Step(text(asked, "what")[:40], [made(book, one) for one in members(asked, "new")], given, moved, removed))
        return {"ids": came.ids, "gone": came.gone, "at": book.changes}


def call_undo(book: Book, asked: Facts) -> Facts:
    """Takes the last step back, or does again what was taken back last."""
    is_back = member(asked, "isBack", bool, bool)
    with book.order:
        what, came = book.steps.go(is_back)
        return {"ids": came.ids, "gone": came.gone, "says": f"{'taken back' if is_back else 'done again'}: {what}"}


def call_restore(book: Book, asked: Facts) -> Facts:
    """Brings a removed cell back: a new one with its text, where it stood. Its answer is shown as an old one."""
    wanted = None if asked.get("number") is None else number(asked, "number")
    with book.order:
        found = book.unbin(wanted)
        if found is None:
            raise NotDone("NotThere", "there is no removed cell")
        field = found["field"]
        book.steps.returned.add(found["number"])
        try:
            id = book.new(field.session, text_of(field), book.places.at(min(found["place"], len(book.places)) - 1))
        except Exception:
            book.steps.returned.discard(found["number"])
            with book.lock:
                book.removed.append(found)
            raise
        with book.lock:
            book.notes.of[id].old = found["old"]
        book.touch(id)
        if found["is_draft"]:
            with contextlib.suppress(NotKept):  # it is offered again then, when the worksheet is opened
                book.drafts.keep(field.id, None)
    return {"id": id}


def call_change(book: Book, asked: Facts) -> Facts:
    """Gives a cell another session, or none, which makes it prose. It is a new cell then, and the old one is removed in the same transaction."""
    with book.order:
        id = number(asked, "id")
        session = text_or_none(asked, "session")
        if field_of(book, id).session == (prose.name_in(book.sheet.sessions) if session is None else session):
            return {"id": id}
        field = idle_field(book, id)
        return {"id": book.steps.do(Step("another session", [Made(id, session, text_of(field))], removed=[id])).ids[0]}


def call_move(book: Book, asked: Facts) -> Facts:
    """Moves a cell by so many places. A key that is held down asks faster than pages hear of it, so places are counted here."""
    by = member(asked, "by", int, int)
    with book.order:
        id = number(asked, "id")
        old = book.places.place(field_of(book, id).id)
        new = max(0, min(len(book.places) - 1, old + by))
        if new != old:
            book.steps.do(Step("move", moved=[(id, book.places.at(new if new > old else new - 1))]))
    return {}


def call_clear(book: Book, asked: Facts) -> Facts:
    with book.order:
        field = idle_field(book, number(asked, "id"))
        with book.changing(field.id):
            if field.state != "empty":
                book.sheet.clear(field.id)
            with book.lock:
                book.notes.keep(field, forget=True)
        return {"at": book.changes}


# ---- evaluations


def call_eval(book: Book, asked: Facts) -> Facts:
    """Evaluates a cell, and tells which change it was. One that waits already goes on."""
    id = number(asked, "id")
    with book.order:
        why = book.why_not(field_of(book, id).session)
        if why is not None:
            raise NotDone("NoProgram", f"{why}. Nothing was asked, and no answer is lost")
        book.feeder.evaluate(id)
        return {"at": book.changes}


def evaluate_each(book: Book, fields: Sequence[Field], missing: Dict[str, str], stops: bool) -> Facts:
    """Has these cells evaluated, but those of prose and of sessions that can't be started: `missing` says why, and so does a warning.
    `stops` says that the rest isn't asked where one is an error. With the book's `order`: a cell that is just being asked waits no more and
    doesn't show it yet, so it would be asked twice."""
    named = {field.session for field in fields} - book.prose
    missing = {**{name: why for name, why in ((name, book.why_not(name)) for name in named) if why}, **missing}
    count = book.feeder.evaluate_each((field for field in fields if field.session in named and field.session not in missing), stops)
    reported = "; ".join(missing[name] for name in sorted(missing))
    return {"count": count, **({"warning": f"{reported}. Nothing was asked there, and no answer is lost"} if missing else {})}


def call_eval_from(book: Book, asked: Facts) -> Facts:
    """Evaluates all cells, or those from one on."""
    start = None if asked.get("id") is None else number(asked, "id")
    with book.order:
        fields = book.sheet.fields
        first = next((place for place, field in enumerate(fields) if field.id == start), 0)
        return evaluate_each(book, fields[first:], {}, asked.get("stops") is True)


def call_eval_stale(book: Book, asked: Facts) -> Facts:
    """Evaluates the cells whose answers are stale, or that have none, and those above them whose interpreter has ended, whose variables they may need."""
    with book.order:
        return evaluate_each(book, stale(book), {}, asked.get("stops") is True)


def stale(book: Book) -> List[Field]:
    wanted: Dict[int, Field] = {}
    with book.lock:
        ended: Dict[str, List[Field]] = {}  # of each session the cells above that have to be evaluated again, if one below is
        for field in book.sheet.fields:
            if field.id not in book.places or not field.input.strip():
                continue
            if field.state != "answered" or book.places.is_stale(field.id):
                wanted.update((one.id, one) for one in (*ended.pop(field.session, ()), field))
            elif book.notes.has_ended(field.id, field.session):
                ended.setdefault(field.session, []).append(field)
    return list(wanted.values())


def call_restart(book: Book, asked: Facts) -> Facts:
    """Stops the interpreter of a session, or all of them, and evaluates their cells. One that can't be started again isn't stopped."""
    wanted = None if asked.get("session") is None else text(asked, "session")
    missing: Dict[str, str] = {}
    with book.order:
        for name, session in list(book.sheet.sessions.items()):
            if name == wanted or (wanted is None and session.life is not None):
                why = startable.why_not(session)
                if why is None:
                    book.stop(name)
                else:
                    missing[name] = why
        return evaluate_each(book, [field for field in book.sheet.fields if wanted in (None, field.session)], missing, asked.get("stops") is True)


def call_stop(book: Book, asked: Facts) -> Facts:
    with book.order:
        return {"lost": book.stop(text(asked, "session"))}


def call_interrupt(book: Book, asked: Facts) -> Facts:
    """Interrupts the line of a session. What waits after it isn't asked any more."""
    session = text(asked, "session")
    with book.order:
        return {"dropped": book.feeder.drop(session), "outcome": book.sheet.interrupt(session)}


def call_session(book: Book, asked: Facts) -> Facts:
    words = text(asked, "words").split()
    book.sheet.session(text(asked, "name"), words, tab=member(asked, "tab", bool, bool))
    return {}


def call_words(book: Book, asked: Facts) -> Facts:
    """Gives a session other words, as where its program isn't on this machine. Nothing may wait for an answer, since all interpreters end."""
    name, words = text(asked, "session"), text(asked, "words").split()
    with book.order:
        if any(session.waiting or book.feed.count(one) for one, session in book.sheet.sessions.items()):
            raise NotDone("InFlight", "cells wait for their answers: let them end, or stop them")
        if name not in book.sheet.sessions or not words:
            raise NotDone("NoSession", "there is no such session, or no word")
        book.reword(name, words)
    return {}


def call_complete(book: Book, asked: Facts) -> Facts:
    """What can stand at a cursor in a text, which the cell needn't have yet. The cursor counts the characters before it, as JavaScript does. An
    interpreter that has other things to answer isn't asked: that would come when nobody waits for it any more."""
    id, given, cursor = number(asked, "id"), text(asked, "text"), number(asked, "cursor")
    before = given.encode("utf-16-le", "surrogatepass")[: 2 * cursor].decode("utf-16-le", "replace")
    place = len(before.replace("\n", "\u2028").encode("utf-8"))
    name = field_of(book, id).session
    with book.lock:
        if book.sheet.sessions[name].waiting or book.feed.count(name):
            raise NotDone("Busy", SAYINGS["Busy"])
    return completion_facts(book.sheet.complete(id, place, timeout=COMPLETED_WITHIN, text=given))


def completion_facts(found: Optional[Completions]) -> Facts:
    if found is None:
        raise NotDone("NoCompletions", "the interpreter's completions can't be read")
    return {"root": readable(found.root), "rest": [readable(one) for one in found.rest[:MOST_COMPLETIONS]]}


def call_help(book: Book, asked: Facts) -> Facts:
    """What an interpreter of the cell's session says of a word."""
    field = field_of(book, number(asked, "id"))
    session = book.sheet.sessions[field.session]
    why = startable.why_not(session)
    if why is not None:
        raise NotDone("NoProgram", why)
    above = (one for one in book.sheet.fields if one.session == field.session)
    return {"output": shown.facts_of(book.helper.ask(session, text(asked, "language"), text(asked, "word"), above))}


def call_output(book: Book, asked: Facts) -> Facts:
    """A further piece of a long answer."""
    id = number(asked, "id")
    field = field_of(book, id)
    with book.lock:
        note = book.notes.of.get(id)
    answer = field.answer or (note.old if note else None)
    if answer is None:
        raise NotDone("NotThere", "the cell has no answer any more")
    return shown.piece_of(answer, number(asked, "start"))


def call_picture(book: Book, asked: Facts) -> Facts:
    """A picture that prose names by its address."""
    try:
        return {"part": in_prose.part_at(os.path.dirname(os.path.abspath(book.path)), text(asked, "address"))}
    except in_prose.NoPicture as error:
        raise NotDone("NoPicture", str(error)) from None


def call_reopen(book: Book, asked: Facts) -> Facts:
    book.reopen()
    return {}


CALLS: Dict[str, Callable[[Book, Facts], Facts]] = {
    name[len("call_") :]: call for name, call in [*globals().items(), *vars(past_calls).items()] if name.startswith("call_")
}

WITHOUT_PROGRAM = (call_output, call_picture, call_reopen)


def do(book: Book, asked: Any) -> Facts:
    """Does a call. Raises NotDone."""
    name = asked.get("call") if isinstance(asked, dict) else None
    call = CALLS.get(name) if isinstance(name, str) else None
    if call is None:
        raise NotDone("NotUnderstood", "there is no such call")
    if book.ended is not None and call not in WITHOUT_PROGRAM:
        raise NotDone("Over", f"{book.ended}; nothing was done")
    try:
        return call(book, asked)
    except Refused as refused:
        raise NotDone(refused.name, SAYINGS.get(refused.name, str(refused))) from None
    except Undone as undone:
        raise NotDone(name_of(undone), SAYINGS.get(name_of(undone), str(undone))) from None
    except NoHelp as none:
        raise NotDone("NoHelp", str(none)) from None
    except NotFit as unfit:
        raise NotDone(unfit.name, unfit.says or SAYINGS.get(unfit.name, unfit.name)) from None
    except Gone:
        raise NotDone("NoField", SAYINGS["NoField"]) from None
    except BadLine:
        raise NotDone("BadInput", SAYINGS["BadInput"]) from None
    except NotKept as error:
        raise NotDone("NotKept", f"{error}; no draft is kept") from None
    except Lost as lost:
        raise NotDone("Lost", f"the interpreter ended: {lost.reason}") from None
    except TimedOut as late:
        raise NotDone("TimedOut", f"{late}; it may be done yet") from None
    except (Died, Closed, ProtocolError, OSError) as error:
        raise NotDone("Ended", f"{advised(error, book.path)}; what was shown as saved is in the file") from None
    finally:
        book.wake()
