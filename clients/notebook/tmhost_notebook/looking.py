"""A worksheet that another program has open, as it is on the disk: it is shown, and nothing of it is changed or evaluated.

It is looked at in copies that are those of one moment, as exports are, again and again while a page shows it.
"""

import contextlib
import os
import tempfile
import threading
import time
from typing import Dict, List, Optional, Tuple, cast

from tmhost import Field, Gone, InUse, Session, Worksheet
from tmhost.program import path_word, words_of_program

from . import folder, telling
from .asked import NotDone
from .book import Book
from .exported import FILES, NotExported, copy_of, written_by
from .past import LARGEST, NoPast, sheet_in
from .places import Places

EVERY = 1.0  # seconds between two looks
RATHER = 4.0  # times as long as a look took
WITHIN = 30.0  # seconds that a look may take
IN_USE = "another program has this worksheet open: it is shown as it is on the disk, and can't be changed here"
FREE = "no other program has this worksheet open any more: it can be opened here"


class SeenCell:
    def __init__(self, field: Field) -> None:
        self.field = field


class Seen:
    """What a `Book` wants of a worksheet, as it was at one moment."""

    def __init__(self, fields: List[Field], sessions: Dict[str, Session]) -> None:
        self.fields, self.sessions = fields, sessions
        self.of = {field.id: field for field in fields}

    def cell(self, id: int) -> SeenCell:
        if id not in self.of:
            raise Gone(id)
        return SeenCell(self.of[id])

    def close(self) -> None:
        pass

    def differs(self, other: "Seen") -> Optional[List[int]]:
        """The cells that are others there, None where the cells have another order or other sessions."""
        if [*self.of] != [*other.of] or self.sessions != other.sessions:
            return None
        return [field.id for field in other.fields if field != self.of[field.id]]


def state_of(path: str) -> List[Tuple[int, int, int]]:
    """What changes of the files when they are written."""
    reported = [os.stat(path + end) for end in FILES]
    return [(one.st_ino, one.st_size, one.st_mtime_ns) for one in reported]


def seen(path: str, program: Optional[str]) -> Seen:
    """A look at the worksheet. Raises NotExported, NoPast, OSError."""
    if sum(os.path.getsize(path + end) for end in FILES) > LARGEST:
        raise NotExported(f"the worksheet has more than {LARGEST:,} bytes")
    with tempfile.TemporaryDirectory(prefix="tmhost-notebook-") as place:
        lines = written_by([*words_of_program(program), "show", "--json", path_word(copy_of(path, place))], within=WITHIN, of=path).splitlines()
    sheet = sheet_in(0, lines)
    return Seen([sheet.field(id) for id in sheet.order], sheet.sessions)


class MaybeLooking(Book):
    """A book that only looks at its worksheet where another program has that, until it is opened again."""

    def _open(self, create: bool) -> None:
        try:
            super()._open(create)
        except InUse:
            try:
                first = seen(self.path, self.program)
            except (NotExported, NoPast, OSError):
                first = None
            if first is None:
                raise
            self._begin_looking(first)

    def reopen(self) -> None:
        if not self.is_looking:
            super().reopen()
            return
        with self.order:
            try:
                super()._open(create=False)
            except InUse:
                raise NotDone("InUse", "another program has the worksheet open yet") from None
            self._tell_all()

    def _begin_looking(self, first: Seen) -> None:
        with self.lock:
            self._begin(cast(Worksheet, first))
            self.is_looking, self.ended = True, IN_USE
        threading.Thread(target=self._look_on, name="looker", daemon=True).start()

    def _look_on(self) -> None:
        state = None
        while not self.is_closed and self.is_looking:
            begin = time.monotonic()
            with contextlib.suppress(NotExported, NoPast, OSError):
                now = state_of(self.path)
                if self.watchers and now != state:
                    self._show(seen(self.path, self.program))
                    state = now
                self._say(IN_USE if folder.is_locked(self.path) else FREE)
            time.sleep(max(EVERY, RATHER * (time.monotonic() - begin)))

    def _show(self, now: Seen) -> None:
        with self.lock:
            if not self.is_looking:
                return
            changed = cast(Seen, self.sheet).differs(now)
            self.sheet, self.places = cast(Worksheet, now), Places(now.fields)
            telling.touch(self.watchers, set(changed or ()))
            for watcher in self.watchers if changed is None else ():
                watcher.begin()
        self.wake()

    def _say(self, what: str) -> None:
        with self.lock:
            if not self.is_looking or self.ended == what:
                return
            self.ended = what
        self.wake()
