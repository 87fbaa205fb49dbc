"""What is known of cells beside the worksheet, as long as the server runs: since when a cell is evaluated, of which process its answer
is, what its inputs were when it was asked, and the answer that it had before."""

import collections
import dataclasses
import time
from typing import Counter, Deque, Dict, Optional, Sequence, Set, Tuple

from tmhost import Answer, Answered, Completed, Done, Ended, Event, Field, LostItem, Stopped

from .places import Chain


@dataclasses.dataclass
class Note:
    since: Optional[float] = None  # when its interpreter got its line; None while it waits for its turn
    life: Optional[int] = None  # the process that answered
    asked: Optional[Chain] = None  # the inputs when it was asked last
    old: Optional[Answer] = None  # the answer that an edit or an evaluation took away
    took: Optional[float] = None  # seconds that its interpreter worked for its answer
    count: Optional[int] = None  # which answer of that process it is
    wrote: Optional[str] = None  # the end of what the interpreter that lost its line had written beside its blocks


class Notes:
    """To be used with the book's lock. What is done to a cell gives the cells of which pages have to hear."""

    def __init__(self) -> None:
        self.of: Dict[int, Note] = collections.defaultdict(Note)
        # What each interpreter has to answer, in order: cells, and requests of completions.
        self._rows: Dict[str, Deque[Tuple[int, bool]]] = collections.defaultdict(collections.deque)
        self._counts: Counter[str] = collections.Counter()  # answers of the process that a session has now
        self._lives: Dict[str, Optional[int]] = {}
        self._answered: Dict[str, Set[int]] = collections.defaultdict(set)  # by the process that a session has now

    def keep(self, field: Field, forget: bool = False) -> None:
        """An edit or an evaluation has taken the answer of a cell away, as it was before."""
        note = self.of[field.id]
        if forget:
            note.old = None
        elif field.answer:
            note.old = field.answer

    def ask(self, id: int, chain: Optional[Chain]) -> None:
        note = self.of[id]
        note.asked, note.since, note.took, note.count, note.wrote = chain, None, None, None, None

    def drop(self, id: int) -> None:
        self.of.pop(id, None)

    def running(self, session: Optional[str]) -> Optional[int]:
        """The cell that the interpreter of a session works for."""
        row = self._rows.get(session or "")
        return row[0][0] if row and row[0][1] else None

    # ---- events

    def take(self, event: Event, session: Optional[str]) -> Set[int]:
        """What an event tells; `session` is that of the cell that it is about."""
        if isinstance(event, Done) and event.command in ("eval", "complete") and event.id is not None and session is not None:
            self._rows[session].append((event.id, event.command == "eval"))
            return self._begin(session)
        if isinstance(event, Answered):
            note = self.of[event.id]
            note.life, note.old = event.life, None
            note.took = None if note.since is None else time.time() - note.since
            self._counts[event.session] += 1
            note.count = self._counts[event.session]
            if self._lives.get(event.session) == event.life:
                self._answered[event.session].add(event.id)
            return self._is_done(event.session, event.id)
        if isinstance(event, Completed):
            return self._is_done(event.session, None)
        if isinstance(event, (Ended, Stopped)):
            return self._ended(event.session, event.lost)
        return set()

    def _is_done(self, session: str, id: Optional[int]) -> Set[int]:
        row = self._rows[session]
        if row:
            row.popleft()
        if id is not None:
            self.of[id].since = None
        return self._begin(session) | ({id} if id is not None else set())

    def _begin(self, session: str) -> Set[int]:
        """The first one in a row is the one that is evaluated."""
        row = self._rows[session]
        if not row or not row[0][1] or self.of[row[0][0]].since is not None:
            return set()
        self.of[row[0][0]].since = time.time()
        return {row[0][0]}

    def _ended(self, session: str, lost: Sequence[LostItem]) -> Set[int]:
        self._rows[session].clear()
        ids = {item.id for item in lost}
        for id in ids:
            self.of[id].since = None
        return ids

    # ---- processes

    def lives(self, session: str, life: Optional[int]) -> Set[int]:
        """The process that a session has now. Gives the cells whose process has ended by that."""
        if self._lives.get(session) == life:
            return set()
        self._lives[session] = life
        self._counts[session] = 0
        return self._answered.pop(session, set())

    def has_ended(self, id: int, session: str) -> bool:
        """Whether the process that answered a cell has ended."""
        return self._lives.get(session) is None or id not in self._answered[session]
