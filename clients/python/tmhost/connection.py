"""A talk with a running program by threads of its own: one that writes, one that reads, and one that tells those who listen.

The one that reads waits for nobody: whoever sends puts a line into a queue, and the one that writes waits for the pipe. So full pipes
don't stand still, the program's output being read whatever happens.
"""

import copy
import logging
import os
import queue
import threading
import time
from concurrent.futures import Future
from concurrent.futures import TimeoutError as FutureTimeout
from typing import Callable, Dict, List, Optional, TypeVar

from .commands import Command, R
from .errors import Closed, ProtocolError, TimedOut, TmhostError
from .events import Event, Finished
from .mirror import Mirror
from .program import GRACE, Child, missing
from .protocol import Lines, Protocol, Taken
from .reading import Hello, read

T = TypeVar("T")

PIECE = 65_536  # bytes that are read at once
PAUSE = 0.002  # seconds between two looks at whether the program has ended, when its output has
Listener = Callable[[Event], None]


def outcome(future: "Future[T]", timeout: Optional[float], what: str, given: Optional[float] = None) -> T:
    """The result of a future, each time with an error of its own. That names the time which was `given`, where `timeout` is what is left of it."""
    try:
        error = future.exception(timeout)
    except FutureTimeout:
        raise TimedOut(f"{what}: {timeout if given is None else given} seconds are over") from None
    if error is not None:
        raise copy.copy(error)
    return future.result()


def call(listener: Listener, event: Event) -> None:
    try:
        listener(event)
    except Exception:
        logging.getLogger("tmhost").exception("a listener failed at %r", event)


class Moment:
    """The end of a time that may be spent in several parts."""

    def __init__(self, timeout: Optional[float]) -> None:
        self._timeout = timeout
        self._at = None if timeout is None else time.monotonic() + timeout

    def left(self, most: Optional[float] = None) -> Optional[float]:
        """The seconds until then, or `most` where that is less; None for no end."""
        left = None if self._at is None else max(0.0, self._at - time.monotonic())
        return most if left is None else left if most is None else min(left, most)

    def given(self, most: Optional[float] = None) -> Optional[float]:
        """The same of the whole time: what is named where it is over."""
        return most if self._timeout is None else self._timeout if most is None else min(self._timeout, most)


class Connection:
    """`lock` is held for moments alone, never while somebody waits for a pipe or a reply."""

    def __init__(self, words: List[str]) -> None:
        self.lock = threading.Lock()
        self.hello: "Future[Hello]" = Future()
        self.protocol = Protocol(self.hello)
        self._is_closed = False
        self._unsent: "queue.SimpleQueue[Optional[bytes]]" = queue.SimpleQueue()
        self._unreported: "queue.SimpleQueue[Event]" = queue.SimpleQueue()
        self._listeners: Dict[int, Listener] = {}
        self._listened = 0
        self._finished: Optional[Event] = None
        self._teller: Optional[threading.Thread] = None
        self.child = Child(words)
        self._writer = threading.Thread(target=self._write, name="tmhost writer", daemon=True)
        self._reader = threading.Thread(target=self._read, name="tmhost reader", daemon=True)
        self._writer.start()
        self._reader.start()

    @property
    def mirror(self) -> Mirror:
        """To be read with the lock."""
        return self.protocol.mirror

    @property
    def error(self) -> Optional[TmhostError]:
        """Why nothing goes any more."""
        with self.lock:
            return self.protocol.error or (Closed() if self._is_closed else None)

    # ---- calls

    def start(self, command: Command[R]) -> "Future[R]":
        """Sends a command in one piece; the future gets what its reply says."""
        self.refuse_reader()
        future: "Future[R]" = Future()
        with self.lock:
            if self._is_closed:
                raise Closed
            self._unsent.put(self.protocol.send(command, future))
        return future

    def refuse_reader(self) -> None:
        """A callback that waits on the thread that reads would wait for ever."""
        if threading.current_thread() is self._reader:
            raise RuntimeError("a callback of an Evaluation runs on the thread that reads, and can't wait for it: use listen")

    def do(self, command: Command[R], timeout: Optional[float], given: Optional[float] = None) -> R:
        return outcome(self.start(command), timeout, command.word, given)

    def listen(self, callback: Listener) -> Callable[[], None]:
        with self.lock:
            self._listened += 1
            number = self._listened
            self._listeners[number] = callback
            if self._finished:
                threading.Thread(target=call, args=(callback, self._finished), name="tmhost listener", daemon=True).start()
            elif self._teller is None:
                self._teller = threading.Thread(target=self._tell, name="tmhost listeners", daemon=True)
                self._teller.start()
        return lambda: self._stop_listening(number)

    def _stop_listening(self, number: int) -> None:
        with self.lock:
            self._listeners.pop(number, None)

    def close(self, timeout: Optional[float]) -> None:
        self.refuse_reader()
        with self.lock:
            self._is_closed = True
            self._unsent.put(None)
        self._reader.join(timeout)
        if self._reader.is_alive():
            self.child.kill()
            self._reader.join()

    # ---- the threads

    def _write(self) -> None:
        assert self.child.process.stdin
        with self.child.process.stdin as pipe:
            try:
                while (data := self._unsent.get()) is not None:
                    while data:
                        data = data[os.write(pipe.fileno(), data) :]
            except BrokenPipeError:
                pass  # the one that reads sees why

    def _read(self) -> None:
        assert self.child.process.stdout
        lines = Lines()
        with self.child.process.stdout as pipe:
            while data := os.read(pipe.fileno(), PIECE):
                for line in lines.feed(data):
                    self._take(line)
        if not self.protocol.is_over:
            self.child.kill()  # a signal ends the program alone, and an interpreter that is busy would go on for ever
        until = time.monotonic() + GRACE
        while (status := self.child.status()) is None:
            if time.monotonic() >= until:
                self.child.kill()
            time.sleep(PAUSE)
        self._finish(status)

    def _take(self, line: bytes) -> None:
        if self.protocol.error:
            return
        try:
            reported = read(line)
            with self.lock:
                taken = self.protocol.take(reported)
                self._pass_on(taken)
        except Exception as error:
            self._break_off(error)
            return
        for settle in taken.settled:
            settle()

    def _pass_on(self, taken: Taken) -> None:
        for line in taken.lines:
            self._unsent.put(line)
        if self._teller:
            for event in taken.events:
                self._unreported.put(event)

    def _break_off(self, error: Exception) -> None:
        """The mirror can't be relied on any more, nor can the program."""
        if not isinstance(error, ProtocolError):
            error = ProtocolError(f"what tmhost wrote could not be taken: {error!r}")
        with self.lock:
            self.protocol.break_off(error)
        self.child.kill()

    def _finish(self, status: int) -> None:
        reported = self.child.said()
        with self.lock:
            taken = self.protocol.finish(self._is_closed, status, reported, missing(self.child.path))
            self._finished = taken.events[-1]
            self._pass_on(taken)
            self._unsent.put(None)
        for settle in taken.settled:
            settle()

    def _tell(self) -> None:
        event: Optional[Event] = None
        while not isinstance(event, Finished):
            event = self._unreported.get()
            with self.lock:
                listeners = list(self._listeners.values())
            for listener in listeners:
                call(listener, event)
