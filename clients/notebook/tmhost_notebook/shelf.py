"""What a server has: one worksheet, or those of a folder, each of which is open from the moment at which its page was asked for until it is closed."""

import contextlib
import os
import threading
from typing import Any, Callable, Dict, List, Optional, Set, Tuple

from tmhost import Died, InUse, ProtocolError, TimedOut
from tmhost.advice import reason
from tmhost.errors import plain

from . import asked, folder
from .book import Book
from .folder import NotDone
from .looking import MaybeLooking

SHEET = "sheet/"  # before the name of a worksheet in its page's address
LOOK = ".look"
MOST_OPEN = 64  # each is a program


class Alone:
    """One worksheet, which is open."""

    def __init__(self, book: Book) -> None:
        self.book, self.name = book, os.path.basename(book.path)
        self.path = book.path + (LOOK if book.is_looking else "")  # by which its address is kept: the other server has its own

    def split(self, asked: str) -> Tuple[Optional[str], str]:
        """The worksheet that an address after the secret path is of, None for the list, and what is asked of it."""
        return self.name, asked

    def opened(self, name: str, is_asked: bool) -> Book:
        return self.book

    def do(self, asked: Any) -> Dict[str, Any]:
        raise NotDone("there is no list of worksheets here")

    def close(self) -> None:
        self.book.close()


class Shelf:
    """The worksheets of a folder. `closed` has those that a user closed: a page that looks for one doesn't open it again, as it does where the
    server was started again. `lock` is held while one is opened, closed, renamed or copied."""

    def __init__(self, path: str, program: Optional[str]) -> None:
        self.path, self.program = os.path.realpath(path), program
        self.lock = threading.Lock()
        self.books: Dict[str, Book] = {}
        self.closed: Set[str] = set()
        folder.finish_rename(self.path)

    def split(self, asked: str) -> Tuple[Optional[str], str]:
        if not asked.startswith(SHEET):
            return None, asked
        name, _, rest = asked[len(SHEET) :].partition("/")
        return name, rest

    # ---- open worksheets

    def opened(self, name: str, is_asked: bool) -> Book:
        """A worksheet, which is opened where it isn't; `is_asked` where a user asks for its page. Raises NotDone."""
        with self.lock:
            if name in self.books:
                return self._again(self.books[name], is_asked)
            if name in self.closed and not is_asked:
                raise NotDone(f"{name} was closed")
            if not self._has(name):
                raise NotDone(f"there is no worksheet {name}")
            return self._open(name)

    def _again(self, book: Book, is_asked: bool) -> Book:
        """An open worksheet; one that was only looked at is opened where no other program has it any more and a user asks for its page."""
        if book.is_looking and is_asked and not folder.is_locked(book.path):
            with contextlib.suppress(asked.NotDone, Died, ProtocolError, TimedOut, OSError):
                book.reopen()
        return book

    def _has(self, name: str) -> bool:
        return folder.is_name(name) and folder.is_sheet(os.path.join(self.path, name))

    def _open(self, name: str) -> Book:
        if len(self.books) >= MOST_OPEN:
            raise NotDone(f"{MOST_OPEN} worksheets are open: close one first")
        try:
            book = MaybeLooking(os.path.join(self.path, name), self.program)
        except InUse:
            raise NotDone(f"{name} is in use: another program, as a second tmhost-notebook, has it open") from None
        except (Died, ProtocolError, TimedOut, OSError) as error:
            raise NotDone(f"{name} can't be opened: {reason(error, os.path.join(self.path, name))}") from None
        book.is_of_folder = True
        self.closed.discard(name)
        self.books[name] = book
        return book

    def close(self) -> None:
        with self.lock:
            for book in self.books.values():
                book.close()
            self.books.clear()

    # ---- what the list's page may ask for

    def do(self, asked: Any) -> Dict[str, Any]:
        """Does a call of the list's page. Raises NotDone."""
        does: Dict[str, Callable[[str, str], Any]] = {
            "list": lambda *_: None, "make": self._make, "close": self._close, "rename": self._rename, "duplicate": self._duplicate}
        words = [asked.get(name, "") for name in ("call", "name", "to")] if isinstance(asked, dict) else []
        if not words or not all(isinstance(word, str) for word in words) or words[0] not in does:
            raise NotDone("there is no such call")
        call, name, to = words
        if call in ("close", "rename", "duplicate") and not self._has(name):
            raise NotDone(f"there is no worksheet {name}")
        try:
            with self.lock:
                does[call](name, to)
        except OSError as error:
            raise NotDone(f"it can't be done: {plain(error)}") from None
        return {"folder": self.path, "sheets": self._facts()}

    def _make(self, name: str, _: str) -> None:
        folder.free_path(self.path, name)
        self._open(name)

    def _close(self, name: str, _: str) -> None:
        book = self.books.pop(name, None)
        self.closed.add(name)
        if book is not None:
            book.close()

    def _rename(self, name: str, to: str) -> None:
        folder.rename(self.path, name, to)
        if name in self.books:  # it was only looked at
            self.books.pop(name).close()

    def _duplicate(self, name: str, to: str) -> None:
        folder.duplicate(self.path, name, to)

    def _facts(self) -> List[Dict[str, Any]]:
        locked, found = folder.locked(), []
        for name in folder.names_in(self.path):
            try:
                facts = folder.facts_of(os.path.join(self.path, name))
            except OSError:
                continue  # it is gone
            is_locked = (facts["major"], facts["minor"], facts["inode"]) in locked
            book = self.books.get(name)
            waiting = 0 if book is None else sum(session.waiting + book.feed.count(session.name) for session in book.sheet.sessions.values())
            is_ours = book is not None and not book.is_looking
            state = ("ended" if book and book.ended else "open") if is_ours else "inUse" if is_locked else "closed"
            found.append({"name": name, "changed": facts["changed"], "size": facts["size"], "state": state, "waiting": waiting})
        return found
