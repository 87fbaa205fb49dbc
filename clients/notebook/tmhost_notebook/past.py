"""What the worksheet was, as the program's commands tell it (docs/use/HISTORY.md), while the notebook has it open.

The program that has it locks it, so they are asked of a copy that is one of a moment. The journal only grows while it is open, so a number
of a change means the same as long as that lasts: `opening` names it. Nothing of the worksheet is written.
"""

import collections
import json
import os
import secrets
import tempfile
import threading
import time
from typing import Any, Callable, Dict, Iterable, Iterator, List, NamedTuple, Optional, Tuple

from tmhost import Answer, Field, Session
from tmhost.program import path_word, words_of_program
from tmhost.reading import field as field_of
from tmhost.reading import session as session_of

from .exported import FILES, NotExported, copy_of, written_by
from .folder import NotDone, free_path

WITHIN = 30.0  # seconds that a command may take, and that one waits for another
LARGEST = 500_000_000  # bytes of a worksheet of which a copy is made for a look
MOST_KEPT = 100  # answers that a page has looked at, of each worksheet
LOOKED_WITHIN = 20.0  # seconds after which no further worksheet of then is looked at for what was removed

NEW_TEXT = ("new", "set")  # what gives a cell a text, and takes its answer away


class NoPast(Exception):
    """There is nothing to be shown, for a reason that is reported to people."""


class Sheet(NamedTuple):
    """The worksheet after so many changes: its cells' numbers in order, the line that tells each, and its sessions by name."""

    at: int
    order: List[int]
    lines: Dict[int, bytes]
    sessions: Dict[str, Session]

    def field(self, id: int) -> Field:
        if id not in self.lines:
            raise NoPast("there was no such cell")
        return field_of(json.loads(self.lines[id])["field"])


class Past:
    """One question is asked at a time. What was looked at last is kept, so that further parts of it cost nothing."""

    def __init__(self, path: str, program: Optional[str]) -> None:
        self.path, self.program = path, program
        self.lock = threading.Lock()
        self.opening = secrets.token_urlsafe(8)
        self._changes: List[str] = []
        self._sheet: Optional[Sheet] = None
        self._answers: "collections.OrderedDict[Tuple[int, int], Optional[Answer]]" = collections.OrderedDict()

    def changes(self, is_new: bool) -> List[str]:
        """The changes, one line for each; `is_new` says that those that were reported last won't do."""
        if is_new or not self._changes:
            self._changes = self._reported("history").decode().splitlines()
        return self._changes

    def sheet(self, at: int) -> Sheet:
        """The worksheet after so many changes."""
        sheet = self._sheet
        if sheet is None or sheet.at != at:
            self._sheet = sheet = sheet_in(at, self._reported("export", "json", "--at", str(at)).splitlines())
        return sheet

    def field(self, at: int, id: int) -> Field:
        """A cell as it was after so many changes. Its answer is kept, for who takes it back."""
        field = self.sheet(at).field(id)
        self._answers[at, id] = field.answer
        while len(self._answers) > MOST_KEPT:
            self._answers.popitem(last=False)
        return field

    def kept(self, at: int, id: int) -> Optional[Answer]:
        """The answer that a cell had, where somebody has looked at it."""
        return self._answers.get((at, id))

    def removed(self, wanted: "List[Removal]") -> "List[Tuple[Removal, Field, int]]":
        """These cells as they were when they were removed, each with its place of then: the last changed first, as many as are found in time."""
        found: "List[Tuple[Removal, Field, int]]" = []
        end = time.monotonic() + LOOKED_WITHIN
        for at in moments(wanted):
            if time.monotonic() > end:
                break
            sheet = self.sheet(at)
            had = {one.id for one, _, _ in found}
            found += [(one, sheet.field(one.id), sheet.order.index(one.id)) for one in wanted if one.since <= at < one.at and one.id not in had]
        return found

    def restore(self, at: int, name: str) -> str:
        """Makes a new worksheet beside this one, of what this one was, and gives its path. Raises NotDone where there is a file with this name."""
        path = free_path(os.path.dirname(os.path.abspath(self.path)), name)
        self._reported("restore", str(at), after=(path_word(path),))
        return path

    def _reported(self, *words: str, after: Tuple[str, ...] = ()) -> bytes:
        """What a command of the program writes of a copy of the worksheet. The path comes after the words of a flag, and in front of `restore`'s."""
        command, *rest = words
        front, back = ([], rest) if command == "restore" else (rest, [])
        if not self.lock.acquire(timeout=WITHIN):
            raise NoPast("the worksheet's past is being read for another page: try again")
        try:
            if sum(os.path.getsize(self.path + end) for end in FILES) > LARGEST:
                raise NoPast(f"the worksheet has more than {LARGEST:,} bytes: ask `tmhost {command}` at a terminal")
            with tempfile.TemporaryDirectory(prefix="tmhost-notebook-") as folder:
                copy = path_word(copy_of(self.path, folder))
                return written_by([*words_of_program(self.program), command, *front, copy, *back, *after], within=WITHIN, of=self.path)
        except NotExported as error:
            raise NoPast(str(error)) from None
        except OSError as error:
            raise NoPast(f"the worksheet can't be copied: {error}") from None
        finally:
            self.lock.release()


def sheet_in(at: int, lines: Iterable[bytes]) -> Sheet:
    """The worksheet that lines of JSON tell, whose cells are read when they are looked at."""
    fields: Dict[int, bytes] = {}
    order: List[int] = []
    sessions: Dict[str, Session] = {}
    for line in lines:
        if line.startswith(b'{"field":'):
            fields[len(fields)] = line
        elif line.startswith(b'{"fields":'):
            reported = json.loads(line)
            order = reported["fields"]
            sessions = {one.name: one for one in map(session_of, reported["sessions"])}
    if len(order) != len(fields):
        raise NoPast("the program reported another worksheet than it listed")
    return Sheet(at, order, {id: fields[place] for place, id in enumerate(order)}, sessions)


# ---- one cell


class Version(NamedTuple):
    """A text that a cell had, or an answer to it, that isn't the cell's any more: after which change it had that, and which one that is."""

    at: int
    what: str


def changes_of(changes: Iterable[str], id: int) -> Iterator[Tuple[int, str]]:
    """The changes of a cell, by their numbers."""
    wanted = str(id)
    for line in changes:
        number, what, *about = line.split(" ")
        if about and about[0] == wanted and what != "ids":
            yield int(number), what


def versions_of(changes: Iterable[str], id: int) -> List[Version]:
    """What a cell had before, the newest first: each answer to a text, or where it had none the text alone. What it has now isn't in it."""
    reported = [(at, what) for at, what in changes_of(changes, id) if what != "move"]
    found: List[Version] = []
    for place, (at, what) in enumerate(reported):
        if what in NEW_TEXT:
            found.append(Version(at, what))
        elif what in ("answered", "lost") and found[-1].what != "answered":
            found[-1] = Version(at, what)  # the text is seen with it
        elif what == "answered":
            found.append(Version(at, what))
    if found and reported[-1][1] != "remove" and (found[-1].what != "answered" or reported[-1][1] == "answered"):
        found.pop()  # the cell has it
    return found[::-1]


# ---- cells that were removed


class Removal(NamedTuple):
    """A cell that was removed by the change `at`: what it had then it had from the change `since` on."""

    id: int
    since: int
    at: int


def removals_in(changes: Iterable[str]) -> List[Removal]:
    """The cells that were removed, the last one at the end."""
    since: Dict[str, int] = {}
    found: List[Removal] = []
    for line in changes:
        number, what, *about = line.split(" ")
        if what == "remove" and about[0] in since:
            found.append(Removal(int(about[0]), since[about[0]], int(number)))
        elif what not in ("session", "ids", "remove"):
            since[about[0]] = int(number)
    return found


def moments(removals: Iterable[Removal]) -> List[int]:
    """After which changes the worksheet is to be looked at, so that each of these cells is seen as it was last; as few as can be, the last one first."""
    found: List[int] = []
    for one in sorted(removals, key=lambda one: -one.since):
        if not found or not one.since <= found[-1] < one.at:
            found.append(one.since)
    return found
