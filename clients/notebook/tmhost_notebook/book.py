"""The worksheet as pages see it: the client's mirror with the notes, the cells that wait to be asked, and which pages have to hear of what."""

import contextlib
import secrets
import threading
from typing import Any, Callable, Dict, Iterator, List, Optional, Set

from tmhost import Answer, Answered, BadLine, Done, Ended, Event, Field, Finished, Gone, Partial, Refused, Stopped, Worksheet

from tmhost.advice import advised
from tmhost.commands import New, input_of

from . import prose, rewording, startable, telling
from .drafts import Draft, Drafts, NotKept
from .feed import Feed
from .feeder import Feeder
from .helping import Helper
from .notes import Notes
from .opening import opened
from .partial import Partials
from .past import Past, removals_in
from .places import Places
from .steps import Steps
from .telling import Message, Watcher, text_of

HEARD_WITHIN = 10.0  # seconds until what was done is heard of
MOST_REMOVED = 200  # removed cells that can be brought back


class Book:
    """`lock` guards notes, places, feed, watchers and removed cells, and is held for moments alone. `order` is held by the calls that depend on
    what a cell has, and by the feeder, one after another."""

    def __init__(self, path: str, program: Optional[str]) -> None:
        self.path, self.program = path, program
        self.is_of_folder = False  # whether its server has a list of worksheets, too
        self.is_looking = False  # another program has it: see `looking.py`
        self.server = secrets.token_urlsafe(8)  # a page whose server was started again sees that by it
        self.lock, self.order = threading.Lock(), threading.Lock()
        self.heard = threading.Condition(self.lock)
        self.watchers: Set[Watcher] = set()
        self.removed: List[Dict[str, Any]] = []
        self.drafts = Drafts(path)
        self.ended: Optional[str] = None
        self.changes = 0  # that cells had by calls, counted by `order`; a message says how many of them it has seen
        self._removed_ever = 0
        self._were_removed: Set[int] = set()  # cells that have been in that list, or were left out of it
        self._has_older = False  # whether the list has those that were removed before the worksheet was opened
        self.steps, self.helper = Steps(self), Helper(program)
        self.feeder = Feeder(self)
        self.is_closed = False
        self._open(create=True)
        self.feeder.start()

    def _open(self, create: bool) -> None:
        sheet = opened(self.path, self.program, create)
        with self.lock:
            self._begin(sheet)
        self._read_drafts()
        sheet.listen(lambda event: self._heard(sheet, event))

    def _begin(self, sheet: Worksheet) -> None:
        self.sheet = sheet
        self.notes, self.places, self.feed, self.past = Notes(), Places(sheet.fields), Feed(), Past(self.path, self.program)
        self.partials = Partials()
        self.in_doubt: Set[int] = set()  # the cells that a call changes, until it is known that it did or didn't
        self.is_looking, self.ended, self._has_older = False, None, False

    def _read_drafts(self) -> None:
        """Takes the drafts that were kept. Where the cell has the text by now there is none any more."""
        self.drafts.read()
        fields = {field.id: field for field in self.sheet.fields}
        for id, draft in self.drafts.of.items():
            if id not in fields:
                self.bin_draft(id, len(fields))
            elif text_of(fields[id]) == draft.text:
                with contextlib.suppress(NotKept):
                    self.drafts.keep(id, None)

    def reopen(self) -> None:
        """Opens the worksheet again after a death of the program."""
        with self.order:
            if self.ended is None:
                return
            self._open(create=False)
            self._tell_all()

    def reword(self, session: str, words: List[str]) -> None:
        """Gives a session other words, with `order`. The program is ended for that, with its interpreters, and started again. Raises NotDone."""
        self.sheet.close()
        try:
            rewording.reword(self.path, session, words, self.program)
        finally:
            self._open(create=False)
            self._tell_all()

    def _tell_all(self) -> None:
        """Has each page get all cells again."""
        with self.lock:
            for watcher in self.watchers:
                watcher.begin()

    def close(self) -> None:
        self.is_closed = True
        self.feeder.go_on()
        self.helper.close()
        self.sheet.close()
        with self.lock:
            for watcher in self.watchers:
                watcher.is_over = True
        self.wake()

    # ---- cells

    def field(self, id: int) -> Optional[Field]:
        try:
            return self.sheet.cell(id).field
        except Gone:
            return None

    def waits(self, field: Field) -> bool:
        """Whether a cell waits for an answer, or to be asked."""
        return field.state == "waiting" or field.id in self.feed

    @property
    def prose(self) -> Set[str]:
        return {name for name, session in self.sheet.sessions.items() if prose.is_prose(session)}

    @contextlib.contextmanager
    def changing(self, id: int) -> Iterator[None]:
        """Does one command that changes a cell, with `order`. Where the program ends in the middle, the file may have the cell as it was or
        as it was to be, so it stays in doubt until the worksheet is opened again."""
        self.in_doubt = {id}
        try:
            yield
        except (Refused, BadLine, Gone):
            self.in_doubt = set()
            raise
        self.in_doubt = set()
        self.changes += 1
        self.touch(id)

    def settle(self, is_so: Callable[[], bool]) -> None:
        """Waits until what a call did to the order of the cells is heard of."""
        with self.heard:
            self.heard.wait_for(lambda: self.ended is not None or is_so(), HEARD_WITHIN)

    def touch(self, *ids: int) -> None:
        """Has pages get these cells again."""
        with self.lock:
            for id in ids:
                self._look(id)
            telling.touch(self.watchers, set(ids))

    def keep_draft(self, id: int, draft: Optional[Draft]) -> None:
        """Keeps the draft of a cell, or none any more, with `order`. Raises NotKept."""
        self.drafts.keep(id, draft)
        self.changes += 1
        self.touch(id)

    def new(self, session: Optional[str], text: str, after: int) -> int:
        """A new cell after another one; without a session it is prose."""
        sessions = self.sheet.sessions
        new = New(after, prose.name_in(sessions) if session is None else session, input_of(text))
        id = self.sheet.together(*(prose.missing_in(sessions) if session is None else []), new)[-1] or 0
        self.settle(lambda: id in self.places)
        return id

    def bin(self, field: Field, place: int) -> None:
        """Keeps a cell that was removed, to be brought back."""
        with self.lock:
            note = self.notes.of.get(field.id)
            self._bin(field, field.answer or (note.old if note else None), place)
            self._were_removed.add(field.id)
            self.notes.drop(field.id)
        self.bin_draft(field.id, place)

    def bin_draft(self, id: int, place: int) -> None:
        """Offers the draft of a cell that isn't there any more among the removed cells. It stays on the disk until it is brought back."""
        draft = self.drafts.of.get(id)
        with self.lock:
            if draft and not any(one["is_draft"] and one["field"].id == id for one in self.removed):
                self._bin(Field(id, draft.session, draft.text), None, place, is_draft=True)

    def _bin(self, field: Field, old: Optional[Answer], place: int, is_draft: bool = False, is_older: bool = False) -> None:
        self._removed_ever += 1
        one = {"number": self._removed_ever, "field": field, "old": old, "place": place, "is_draft": is_draft}
        self.removed.insert(0 if is_older else len(self.removed), one)
        del self.removed[:-MOST_REMOVED]

    def find_removed(self) -> bool:
        """Takes into the list what was removed before the worksheet was opened, or in the moment in which the program ended, as its journal has it. One
        whose text another cell has, or a later one in the list, is left out: it was pasted, or it came back. False where it takes too long
        to find all. Raises NoPast."""
        if self._has_older:
            return True
        past, changes = self.past, self.past.changes(is_new=True)
        with self.order:  # what is in these changes is in the list then
            known = set(self._were_removed)
        wanted = [one for one in removals_in(changes) if one.id not in known][-MOST_REMOVED:]
        found = past.removed(wanted)
        with self.lock:
            if self._has_older or past is not self.past:
                return True
            self._has_older = len(found) == len(wanted)
            fields = [*self.sheet.fields, *(one["field"] for one in self.removed)]
            texts = {(field.session, field.input) for field in fields}
            for one, field, place in sorted(found, key=lambda one: -one[0].at):
                text = field.session, field.input
                if one.id not in self._were_removed and field.input.strip() and text not in texts:
                    texts.add(text)
                    self._bin(field, field.answer, place, is_older=True)
                self._were_removed.add(one.id)
            return self._has_older

    def unbin(self, number: Optional[int]) -> Optional[Dict[str, Any]]:
        """Takes a removed cell out, the last one for None."""
        with self.lock:
            found = next((one for one in reversed(self.removed) if number in (None, one["number"])), None)
            if found:
                self.removed.remove(found)
            return found

    # ---- evaluations

    def stop(self, session: str) -> int:
        """Stops an interpreter, with `order`. Gives how many lines it had."""
        self.feeder.drop(session)
        lost = len(self.sheet.stop(session))
        with self.lock:
            self.feed.forget(session)
        return lost

    def why_not(self, session: str) -> Optional[str]:
        """Why nothing can be asked of a session: it doesn't run, and can't be started."""
        found = self.sheet.sessions.get(session)
        return startable.why_not(found) if found and found.life is None else None

    # ---- what happens

    def _heard(self, sheet: Worksheet, event: Event) -> None:
        if sheet is not self.sheet:
            return
        with self.heard:
            if isinstance(event, Finished):
                self.ended = "the worksheet was closed" if event.error is None else advised(event.error, self.path)
                self.partials = Partials()
                self.feed.drop_all()
                for watcher in self.watchers:
                    watcher.begin()
            else:
                self._take(event)
            self.heard.notify_all()
        if not isinstance(event, Partial):  # that goes to pages now and then
            self.wake()

    def _take(self, event: Event) -> None:
        """Changes notes and places by an event."""
        name = self._session_of(event)
        cells, marked = set(), set()
        if name is not None:
            session = self.sheet.sessions.get(name)
            marked |= self.notes.lives(name, session.life if session else None)
        ran = self.notes.running(name)
        if isinstance(event, Ended) and ran is not None:
            written = self.partials.of(event.session)
            self.notes.of[ran].wrote = written.end if written else None
        cells |= self.notes.take(event, name)
        if self.partials.take(event):
            telling.touch_partial(self.watchers, ran, self.notes.running(name))
        if isinstance(event, Done) and event.id is not None:
            cells.add(event.id)
            marked |= self._place(event, event.id)
        elif isinstance(event, Answered):
            cells.add(event.id)
        elif isinstance(event, (Ended, Stopped)):
            cells |= {item.id for item in event.lost}
        if self.feed.being_asked in cells:
            self.feed.being_asked = None
        for id in cells:
            marked |= self._look(id)
        telling.touch(self.watchers, cells, marked)

    def _session_of(self, event: Event) -> Optional[str]:
        if isinstance(event, Done) and event.id is not None and event.session is None:
            field = self.field(event.id)
            return field.session if field else None
        found: Optional[str] = getattr(event, "session", None)
        return found

    def _place(self, done: Done, id: int) -> Set[int]:
        """The order of the cells after a command."""
        if done.command == "new" and done.session is not None:
            for watcher in self.watchers:
                watcher.put(id)
            return self.places.put(self.field(id) or Field(id, done.session, ""), done.after or 0)
        if done.command == "move":
            for watcher in self.watchers:
                watcher.put(id)
            return self.places.move(id, done.after or 0)
        if done.command == "remove":
            for watcher in self.watchers:
                watcher.drop(id)
            return self.places.drop(id)
        return set()

    def _look(self, id: int) -> Set[int]:
        """What a cell has now. Gives the cells that are stale by it, or are so no more, and has pages get their marks."""
        field = self.field(id)
        if field is None or id not in self.places:
            return set()
        note = self.notes.of.get(id)
        marked = self.places.know(field, note.asked if note else None)
        telling.touch(self.watchers, set(), marked)
        return marked

    def wake(self) -> None:
        with self.lock:
            for watcher in self.watchers:
                watcher.wake.set()

    # ---- pages

    def watch(self) -> Watcher:
        watcher = Watcher()
        with self.lock:
            self.watchers.add(watcher)
        return watcher

    def unwatch(self, watcher: Watcher) -> None:
        with self.lock:
            self.watchers.discard(watcher)

    def next_message(self, watcher: Watcher) -> Optional[Message]:
        """What has changed since the last one. Empty where nothing has for a while; None at the end."""
        if watcher.is_over:
            return None
        while True:
            watcher.wait()
            with self.lock:
                message = telling.message_for(self, watcher)
            if message or not watcher.partial:
                return message
