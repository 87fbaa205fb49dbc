"""The protocol of docs/use/JSON.md without input or output: lines come in, and what is to be reported and sent goes out."""

import collections
import copy
import dataclasses
import functools
from typing import Any, Callable, Deque, List, Optional, Tuple

from .commands import AnyCommand, Command, Look, R
from .errors import BadLine, Closed, Lost, ProtocolError, Refused, TmhostError
from .events import Answered, Banner, Completed, Done, Ended, Event, Finished, Stopped
from .mirror import Mirror, Settles, out_of_step
from .program import death, fault_in
from .reading import End, Fault, Hello, OneField, Refusal, Reply, StopReply, Reported, read
from .together import Together
from .values import LostItem

VERSION = 2  # of the protocol


@dataclasses.dataclass
class Taken:
    """What comes of something that was reported: events in their order, calls that wake those who wait, lines that are to be sent."""

    events: List[Event] = dataclasses.field(default_factory=list)
    settled: List[Callable[[], None]] = dataclasses.field(default_factory=list)
    lines: List[bytes] = dataclasses.field(default_factory=list)

    def give(self, waiter: "Settles[Any]", result: object) -> None:
        self.settled.append(functools.partial(give, waiter, result))

    def fail(self, waiter: "Settles[Any]", error: TmhostError) -> None:
        """One error may be that of many: who raises it raises a copy, since that changes it."""
        self.settled.append(functools.partial(fail, waiter, error))


def give(waiter: "Settles[Any]", result: object) -> None:
    if not waiter.done():
        waiter.set_result(result)


def fail(waiter: "Settles[Any]", error: TmhostError) -> None:
    if not waiter.done():
        waiter.set_exception(error)


class Nobody:
    """Waits for nothing."""

    def done(self) -> bool:
        return True

    def set_result(self, result: object) -> None:
        pass

    def set_exception(self, exception: BaseException) -> None:
        pass


class Lines:
    """Cuts what comes into lines. A last one without its end isn't one: its writer was ended in the middle of it."""

    def __init__(self) -> None:
        self._begun: List[bytes] = []

    def feed(self, data: bytes) -> List[bytes]:
        first, *others = data.split(b"\n")
        self._begun.append(first)
        if not others:
            return []
        lines = [b"".join(self._begun), *others[:-1]]
        self._begun = [others[-1]]
        return lines


class Protocol:
    """One talk with the program. `mirror` is exact after each `take`, `error` says why nothing goes any more."""

    def __init__(self, opened: "Settles[Hello]") -> None:
        self.mirror = Mirror()
        self.error: Optional[TmhostError] = None
        self._opened = opened
        self._fault: Optional[Fault] = None
        self._has_end = False
        self._reported = 0  # how many lines have their last object
        self._awaited: Deque[Tuple[AnyCommand, "Settles[Any]"]] = collections.deque()

    @property
    def is_over(self) -> bool:
        """The program has reported how it ends."""
        return self._has_end or self._fault is not None

    def send(self, command: Command[R], waiter: "Settles[R]") -> bytes:
        """The line of a command, or its lines, which have to be sent next."""
        if self.error:
            raise copy.copy(self.error)
        self._awaited.append((command, waiter))
        return command.sent

    def feed(self, line: bytes) -> Taken:
        """Takes a line, without what ends it."""
        return self.take(read(line))

    def take(self, told: Optional[Reported]) -> Taken:
        """Takes what a line tells (`read`). At an error all who wait still do: `finish` tells them."""
        taken = Taken()
        if isinstance(told, Hello):
            self._greeted(told, taken)
        elif isinstance(told, Fault):
            self._fault = told
        elif isinstance(told, End):
            self._has_end = True
        elif isinstance(told, Reply):
            self._replied(told, taken)
        elif isinstance(told, Event):
            self._came(told, taken)
        return taken

    def _greeted(self, hello: Hello, taken: Taken) -> None:
        if hello.protocol != VERSION:
            raise ProtocolError(f"tmhost speaks protocol {hello.protocol}, and this package {VERSION}")
        taken.give(self._opened, hello)

    # ---- lines

    def _replied(self, reply: Reply, taken: Taken) -> None:
        place = reply.line - self._reported - 1
        if not self._awaited or not 0 <= place < self._awaited[0][0].length:
            out_of_step(f"of line {reply.line} after line {self._reported}")
        command, waiter = self._awaited[0]
        if isinstance(command, Together):
            if command.takes(place, reply):
                self._end_transaction(command, reply, taken)
            return
        if reply.more:
            if isinstance(reply, OneField):
                self.mirror.show(reply.field)
            return
        if isinstance(reply, Refusal):
            taken.fail(waiter, Refused(reply.name, reply.number))
        elif reply.type == "bad":
            taken.fail(waiter, BadLine(command.line))
        else:
            taken.give(waiter, command.taken(self.mirror, reply))
            self._tell_done(command, reply, taken)
        self._drop_first()

    def _drop_first(self) -> None:
        """All is reported of what was sent first."""
        self._reported += self._awaited.popleft()[0].length

    def _end_transaction(self, transaction: Together, reply: Reply, taken: Taken) -> None:
        waiter = self._awaited[0][1]
        if transaction.undone:
            taken.fail(waiter, transaction.undone)
        else:
            taken.give(waiter, transaction.taken(self.mirror, reply))
            for change in transaction.changes:
                self._tell_done(change, reply, taken)
        self._drop_first()

    def _tell_done(self, command: AnyCommand, reply: Reply, taken: Taken) -> None:
        if isinstance(reply, StopReply):
            self._lose(reply.session, "Stopped", reply.lost, taken)
            taken.events.append(Stopped(reply.session, reply.life, reply.lost))
        elif command.is_reported:
            taken.events.append(Done(command.word, *command.about))

    # ---- interpreters

    def _came(self, event: Event, taken: Taken) -> None:
        if isinstance(event, Answered):
            taken.give(self.mirror.answered(event).waiter, event.answer)
        elif isinstance(event, Completed):
            taken.give(self.mirror.completed(event).waiter, event.completions)
        elif isinstance(event, Banner):
            self.mirror.greeted(event.session, event.life)
        elif isinstance(event, Ended):
            self._lose(event.session, event.reason, event.lost, taken)
        taken.events.append(event)

    def _lose(self, session: str, reason: str, lost: Tuple[LostItem, ...], taken: Taken) -> None:
        """The first line keeps the reason, but where the same piece of output had an answer too, or where the journal has no room for it
        (docs/dev/HOST.md, "What an event does"). Neither can be seen from here, so the cell is looked at."""
        items = self.mirror.ended(session, reason, lost)
        words = self.mirror.sessions[session].words
        for item in items:
            taken.fail(item.waiter, Lost(reason, words))
        if items and items[0].cursor is None:
            taken.lines.append(self.send(Look(items[0].id), Nobody()))

    # ---- the end

    def break_off(self, error: TmhostError) -> None:
        """Nothing that the program tells is taken from now on."""
        self.error = self.error or error

    def finish(self, is_closed: bool, status: Optional[int], told: str, lacks: Optional[str] = None) -> Taken:
        """The output of the program has come to its end; `is_closed` says that its input was ended by us, and `lacks` is the path of the
        worksheet where nothing is there."""
        if self.error is None:
            self.error = Closed() if is_closed and self._has_end else death(self._fault or fault_in(told), told, status, lacks)
        is_whole = isinstance(self.error, Closed)
        taken = Taken()
        items = self.mirror.close() if is_whole else self.mirror.drop_rows()
        waiters = [self._opened, *(waiter for _, waiter in self._awaited), *(item.waiter for item in items)]
        for waiter in waiters:
            taken.fail(waiter, self.error)
        self._awaited.clear()
        taken.events.append(Finished(None if is_whole else self.error))
        return taken
