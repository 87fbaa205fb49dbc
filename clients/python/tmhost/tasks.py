"""A talk with a running program by a task of an event loop. What is sent is kept by the loop until the pipe takes it, so the task that
reads waits for nobody."""

import asyncio
import copy
import inspect
import logging
import time
from asyncio.subprocess import DEVNULL, PIPE
from typing import Awaitable, Callable, Dict, List, Optional, TypeVar, Union

from .commands import Command, R
from .connection import PAUSE, PIECE
from .errors import Closed, ProtocolError, TimedOut, TmhostError
from .events import Event, Finished
from .program import GRACE, HELP, PARTIAL, Child, has_flag, missing, refuse_uncreated
from .protocol import Lines, Protocol, Taken
from .reading import Hello, read

T = TypeVar("T")

AsyncListener = Callable[[Event], Union[None, Awaitable[None]]]


async def outcome(future: "asyncio.Future[T]", timeout: Optional[float], what: str, given: Optional[float] = None) -> T:
    """The result of a future, each time with an error of its own. That names the time which was `given`, where `timeout` is what is left of it. The
    future outlives the task that waits for it."""
    done, _ = await asyncio.wait({future}, timeout=timeout)
    if not done:
        raise TimedOut(f"{what}: {timeout if given is None else given} seconds are over")
    error = future.exception()
    if error is not None:
        raise copy.copy(error)
    return future.result()


def new_future() -> "asyncio.Future[T]":
    """A future whose error may stay unseen, as where the task that waited for it has ended."""
    future: "asyncio.Future[T]" = asyncio.get_running_loop().create_future()
    future.add_done_callback(lambda done: done.cancelled() or done.exception())
    return future


async def call(listener: AsyncListener, event: Event) -> None:
    try:
        waits = listener(event)
        if inspect.isawaitable(waits):
            await waits
    except Exception:
        logging.getLogger("tmhost").exception("a listener failed at %r", event)


async def create(words: List[str], path: str) -> None:
    """Makes a worksheet."""
    made = await asyncio.create_subprocess_exec(*words, "create", path, stdin=DEVNULL, stdout=DEVNULL, stderr=PIPE)
    _, errors = await made.communicate()
    refuse_uncreated(path, made.returncode, errors)


async def words_of_live(words: List[str], path: str, partial: bool) -> List[str]:
    """Those that hold a worksheet open, as `program.words_of_live` gives them."""
    if partial:
        asked = await asyncio.create_subprocess_exec(*words, *HELP, stdin=DEVNULL, stdout=PIPE, stderr=DEVNULL)
        reported, _ = await asked.communicate()
        partial = has_flag(asked.returncode, reported, PARTIAL)
    return [*words, "live", "--json", *([PARTIAL] if partial else []), path]


class AsyncConnection:
    """All its calls are of one event loop."""

    def __init__(self, words: List[str]) -> None:
        self.hello: "asyncio.Future[Hello]" = new_future()
        self.protocol = Protocol(self.hello)
        self._is_closed = False
        self._unsent: List[bytes] = []  # until the pipe is there
        self._pipe: Optional[asyncio.WriteTransport] = None
        self._unreported: "asyncio.Queue[Event]" = asyncio.Queue()
        self._listeners: Dict[int, AsyncListener] = {}
        self._listened = 0
        self._finished: Optional[Event] = None
        self._teller: "Optional[asyncio.Task[None]]" = None
        self.child = Child(words)
        self._reader = asyncio.ensure_future(self._read())

    @property
    def error(self) -> Optional[TmhostError]:
        return self.protocol.error or (Closed() if self._is_closed else None)

    # ---- calls

    def start(self, command: Command[R]) -> "asyncio.Future[R]":
        """Sends a command in one piece; the future gets what its reply says."""
        if self._is_closed:
            raise Closed
        future: "asyncio.Future[R]" = new_future()
        self._send(self.protocol.send(command, future))
        return future

    async def do(self, command: Command[R], timeout: Optional[float], given: Optional[float] = None) -> R:
        return await outcome(self.start(command), timeout, command.word, given)

    def _send(self, line: bytes) -> None:
        if self._pipe is None:
            self._unsent.append(line)
        elif not self._pipe.is_closing():
            self._pipe.write(line)

    def listen(self, callback: AsyncListener) -> Callable[[], None]:
        self._listened += 1
        number = self._listened
        self._listeners[number] = callback
        if self._finished:
            self._teller = asyncio.ensure_future(call(callback, self._finished))
        elif self._teller is None:
            self._teller = asyncio.ensure_future(self._tell())

        def stop() -> None:
            self._listeners.pop(number, None)

        return stop

    async def close(self, timeout: Optional[float]) -> None:
        self._is_closed = True
        if self._pipe:
            self._pipe.close()
        done, _ = await asyncio.wait({self._reader}, timeout=timeout)
        if not done:
            self.child.kill()
            await asyncio.wait({self._reader})

    # ---- the tasks

    async def _connected(self) -> asyncio.StreamReader:
        """The program's output; its input is open then."""
        loop, output = asyncio.get_running_loop(), asyncio.StreamReader()
        pipe, _ = await loop.connect_write_pipe(asyncio.BaseProtocol, self.child.process.stdin)
        await loop.connect_read_pipe(lambda: asyncio.StreamReaderProtocol(output), self.child.process.stdout)
        pipe.writelines(self._unsent)
        self._pipe = pipe
        if self._is_closed:
            self._pipe.close()
        return output

    async def _read(self) -> None:
        lines, output = Lines(), await self._connected()
        while data := await output.read(PIECE):
            for line in lines.feed(data):
                self._take(line)
        if not self.protocol.is_over:
            self.child.kill()  # a signal ends the program alone, and an interpreter that is busy would go on for ever
        until = time.monotonic() + GRACE
        while (status := self.child.status()) is None:
            if time.monotonic() >= until:
                self.child.kill()
            await asyncio.sleep(PAUSE)
        self._finish(status)

    def _take(self, line: bytes) -> None:
        if self.protocol.error:
            return
        try:
            self._pass_on(self.protocol.take(read(line)))
        except Exception as error:
            broken = error if isinstance(error, ProtocolError) else ProtocolError(f"what tmhost wrote could not be taken: {error!r}")
            self.protocol.break_off(broken)
            self.child.kill()

    def _pass_on(self, taken: Taken) -> None:
        for line in taken.lines:
            self._send(line)
        if self._teller:
            for event in taken.events:
                self._unreported.put_nowait(event)
        for settle in taken.settled:
            settle()

    def _finish(self, status: int) -> None:
        if self._pipe:
            self._pipe.close()
        taken = self.protocol.finish(self._is_closed, status, self.child.said(), missing(self.child.path))
        self._finished = taken.events[-1]
        self._pass_on(taken)

    async def _tell(self) -> None:
        event: Optional[Event] = None
        while not isinstance(event, Finished):
            event = await self._unreported.get()
            for listener in list(self._listeners.values()):
                await call(listener, event)
