"""Cells that wait to be evaluated: each session is asked one at a time, the next one when the one before has its answer, as `tmhost eval` does. So at a
kill one cell of each session is without its old answer, and all that still wait have theirs.

The server feeds, and no page: who closes a page stops nothing.
"""

from typing import Dict, List, Optional, Set

from tmhost import Evaluation


def has_failed(evaluation: Evaluation) -> bool:
    return evaluation.exception() is not None or bool(evaluation.result().errors)


class Feed:
    """To be used with the book's lock."""

    def __init__(self) -> None:
        self._rows: Dict[str, Dict[int, None]] = {}  # of each session the cells that aren't asked yet, in their order
        self._session_of: Dict[int, str] = {}
        self._asked: Dict[str, Evaluation] = {}  # of each session the last one
        self._stopping: Set[int] = set()  # the cells that wait, and stop where another one of them is an error
        self._may_stop: Dict[str, int] = {}  # of each session the one of them that was asked last
        self.being_asked: Optional[int] = None  # a cell that was taken out, and of which it wasn't heard yet that it is asked

    def __contains__(self, id: int) -> bool:
        return id in self._session_of or id == self.being_asked

    def count(self, session: str) -> int:
        return len(self._rows.get(session, ()))

    def is_free(self, session: str) -> bool:
        """Whether a session has answered what it was asked, so that it can be asked the next one."""
        return session not in self._asked or self._asked[session].done()

    def add(self, id: int, session: str, stops: bool = False) -> None:
        if session not in self._rows and self.is_free(session):
            self.forget(session)  # what came of it is nothing to those that are added now
        self._rows.setdefault(session, {})[id] = None
        self._session_of[id] = session
        if stops:
            self._stopping.add(id)

    def next(self) -> Optional[int]:
        """A cell that can be asked now."""
        return next((next(iter(row)) for session, row in self._rows.items() if self.is_free(session)), None)

    def take(self, id: int) -> None:
        """A cell waits no more."""
        self._stopping.discard(id)
        session = self._session_of.pop(id, None)
        if session is not None:
            del self._rows[session][id]
            if not self._rows[session]:
                del self._rows[session]

    def stops(self, id: int) -> bool:
        return id in self._stopping

    def asked(self, id: int, session: str, evaluation: Evaluation, stops: bool) -> None:
        self._asked[session] = evaluation
        self._may_stop.pop(session, None)
        if stops:
            self._may_stop[session] = id

    def forget(self, session: str) -> None:
        """What a session was asked is over."""
        self._asked.pop(session, None)
        self._may_stop.pop(session, None)

    def failed(self) -> List[int]:
        """The cells that were asked last and whose answer is an error, or didn't come, where others are to stop at that; each once."""
        over = [(session, id) for session, id in self._may_stop.items() if self.is_free(session)]
        for session, _ in over:
            del self._may_stop[session]
        return [id for session, id in over if has_failed(self._asked[session])]

    def drop_stopping(self) -> List[int]:
        """Takes out what waits and stops at an error."""
        ids = [id for row in self._rows.values() for id in row if id in self._stopping]
        for id in ids:
            self.take(id)
        return ids

    def lost(self) -> List[str]:
        """The sessions whose last one has no answer, and of which others wait."""
        return [session for session in self._rows if session in self._asked and self.is_free(session) and self._asked[session].exception()]

    def drop(self, session: str) -> List[int]:
        """Takes all that waits of a session out; they keep the answers that they have."""
        ids = list(self._rows.get(session, ()))
        for id in ids:
            self.take(id)
        return ids

    def drop_all(self) -> List[int]:
        return [id for session in list(self._rows) for id in self.drop(session)]
