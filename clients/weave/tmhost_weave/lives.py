"""What the interpreters of an open worksheet have evaluated since each of them was started, so that one goes on only where that is what a text asks for. And when
those ended that are no more."""
import contextlib
import errno
import os
import threading
from typing import Collection, Dict, Iterator, List, Mapping, NamedTuple, Optional, Tuple

from tmhost import Banner, Ended, Event, OfLife, Partial, Worksheet
from tmhost_notebook.partial import Text

UNKNOWN: Tuple[int, List[str]] = 0, []  # lives are counted from 1
UNSENT = "SendFault"  # the reason of a line that was for an interpreter which had ended
AT_START, AT_CODE = "before its banner", "at the code of a field"  # when an interpreter ended
BY_ITSELF = ("Ended", UNSENT)  # reasons of an end
HEARD_WITHIN = 10.0  # seconds in which an end is heard of that a caller knows already
NOT_HEARD = str(BrokenPipeError(errno.EPIPE, os.strerror(errno.EPIPE)))  # the last line of some adapters whose interpreter has ended, and no word of that


class Lives:
    """Of each interpreter that runs the inputs that it has answered, where they are known for sure."""

    def __init__(self, sheet: Worksheet) -> None:
        self.sheet = sheet
        self._known: Dict[str, Tuple[int, List[str]]] = {}  # the number of its life and its inputs, by its session

    def number(self, session: str) -> Optional[int]:
        """The number of the life of an interpreter; None where none runs."""
        found = self.sheet.sessions.get(session)
        return found.life if found else None

    def answered(self, session: str) -> Optional[List[str]]:
        """What the interpreter has answered that runs. Nothing where none runs, and None where it isn't known."""
        number = self.number(session)
        if number is None:
            return []
        life, inputs = self._known.get(session, UNKNOWN)
        return list(inputs) if life == number else None

    @property
    def all_answered(self) -> Mapping[str, List[str]]:
        return {name: self.answered(name) or [] for name in self.sheet.sessions}

    @contextlib.contextmanager
    def evaluating(self, session: str, input: str) -> Iterator[int]:
        """While an input is evaluated: gives the life whose inputs are known. What doesn't end in an answer leaves an interpreter of which nothing is known."""
        before, (life, inputs) = self.number(session), self._known.pop(session, UNKNOWN)
        yield life
        after = self.number(session)
        if after is None:
            return  # it has ended since
        if before != after:
            self._known[session] = after, [input]  # one that was started for this input
        elif life == after:
            self._known[session] = after, [*inputs, input]

    def end_all_but(self, sessions: Collection[str]) -> None:
        for name, session in self.sheet.sessions.items():
            if name not in sessions and session.life is not None:
                self.sheet.stop(name)


class End(NamedTuple):
    """When an interpreter ended, and what it wrote after its last answer, where the worksheet was opened so that this is reported."""

    when: str
    said: str


class Ends:
    """Hears of each interpreter that has ended whether it had greeted: then its code ended it. The events come on a thread of the worksheet."""

    def __init__(self, sheet: Worksheet) -> None:
        self._greeted = {(session.name, session.life) for session in sheet.sessions.values() if session.life is not None}
        self._ended: Dict[str, End] = {}
        self._written: Dict[str, Text] = {}  # by each session since its last answer
        self._changed = threading.Condition()
        self.stop = sheet.listen(self._hear)

    def _hear(self, event: Event) -> None:
        with self._changed:
            if isinstance(event, Partial):
                self._written.setdefault(event.session, Text()).feed(event.data)
                return
            written = self._written.pop(event.session, None) if isinstance(event, OfLife) else None
            if isinstance(event, Banner):
                self._greeted.add((event.session, event.life))
                self._ended.pop(event.session, None)  # of an earlier one, which had nothing to answer
            elif isinstance(event, Ended) and event.reason in BY_ITSELF:
                when = AT_CODE if (event.session, event.life) in self._greeted else AT_START
                self._ended[event.session] = End(when, (written.text if written else "").rstrip("\n").removesuffix(NOT_HEARD))
                self._changed.notify_all()

    def has_greeted(self, session: str, life: Optional[int]) -> bool:
        with self._changed:
            return (session, life) in self._greeted

    def take(self, session: str, seconds: float = HEARD_WITHIN) -> Optional[End]:
        """How the interpreter of a session ended that a caller has lost, or that is to end."""
        with self._changed:
            self._changed.wait_for(lambda: session in self._ended, seconds)
            return self._ended.pop(session, None)
