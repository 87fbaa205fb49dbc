"""A worksheet for asyncio: the calls of `Worksheet`, of one event loop.

What a call returned is on the disk. What raised Refused, BadLine or Undone changed nothing. What raised TimedOut, Died or ProtocolError, and
what was cancelled, may be done or not.
"""

import asyncio
import os
from types import TracebackType
from typing import Any, Callable, Dict, Generator, List, Optional, Sequence, Tuple, Type, Union

from . import commands, tasks
from .cells import CellView, id_of
from .commands import Command, R, input_of, matching, words_of
from .connection import Moment
from .errors import Closed, NoScript, Refused, TimedOut, TmhostError
from .program import Program, path_word, words_of_program
from .tasks import AsyncConnection, AsyncListener, new_future, outcome
from .together import Change, Together
from .values import Answer, Completions, Field, LostItem, Session, Text, Turn

AsyncCellLike = Union["AsyncCell", int]


class AsyncEvaluation:
    """The answer to the line of a cell, which comes later: `await` it, as often as wanted. To end a task that awaits it doesn't end it."""

    def __init__(self, cell: "AsyncCell") -> None:
        self.cell, self.id = cell, cell.id
        self._future: "asyncio.Future[Answer]" = new_future()

    def done(self) -> bool:
        return self._future.done()

    def set_result(self, answer: Answer) -> None:
        """The worksheet calls this."""
        self._future.set_result(answer)

    def set_exception(self, error: BaseException) -> None:
        """The worksheet calls this."""
        self._future.set_exception(error)

    async def result(self, timeout: Optional[float] = None) -> Answer:
        """Waits for the answer, which is on the disk then. Raises Lost, TimedOut (the line still waits), Died, ProtocolError, Closed."""
        return await self._answer_in(timeout, timeout)

    async def _answer_in(self, timeout: Optional[float], given: Optional[float]) -> Answer:
        """`timeout` is what is left of the time that was given, which TimedOut names."""
        return await outcome(self._future, timeout, f"cell {self.id}", given)

    def __await__(self) -> Generator[Any, None, Answer]:
        return self.result().__await__()


class AsyncCell(CellView):
    """A cell of an AsyncWorksheet; its calls are those of the worksheet with this cell."""

    _worksheet: "AsyncWorksheet"

    @property
    def worksheet(self) -> "AsyncWorksheet":
        return self._worksheet

    @property
    def evaluation(self) -> Optional[AsyncEvaluation]:
        """The one that waits for its answer."""
        return self._worksheet._evaluation(self.id)

    async def set(self, text: str) -> None:
        await self._worksheet.set(self, text)

    async def remove(self) -> None:
        await self._worksheet.remove(self)

    async def move(self, after: Optional[AsyncCellLike] = None) -> None:
        await self._worksheet.move(self, after)

    async def clear(self) -> None:
        await self._worksheet.clear(self)

    async def eval(self) -> AsyncEvaluation:
        return await self._worksheet.eval(self)

    async def evaluate(self, timeout: Optional[float] = None) -> Answer:
        return await self._worksheet.evaluate(self, timeout)

    async def complete(
        self, cursor: Optional[int] = None, timeout: Optional[float] = None, text: Optional[str] = None
    ) -> Optional[Completions]:
        return await self._worksheet.complete(self, cursor, timeout, text)


class AsyncWorksheet:
    """As Worksheet; `open`, or `async with`, starts the program."""

    def __init__(
        self, path: "Union[str, os.PathLike[str]]", *, create: bool = False, program: Program = None, timeout: Optional[float] = None,
        partial: bool = False,
    ) -> None:
        self.path, self.version = path_word(path), ""
        self._create, self._program, self._timeout, self._partial = create, program, timeout, partial
        self._opened: Optional[AsyncConnection] = None
        # What changes the order of the cells is done one after another, so that the last cell is known when one is put after it.
        self._order: asyncio.Lock
        self._ordering: "Optional[asyncio.Future[Any]]" = None

    async def open(self) -> "AsyncWorksheet":
        """Raises InUse where another program has the worksheet, FileNotFoundError where nothing is at the path (NoWorksheet, which is a
        Died) or there is no program, and Died where it can't be opened."""
        words = words_of_program(self._program)
        if self._create and not os.path.lexists(self.path):
            await tasks.create(words, self.path)
        self._order = asyncio.Lock()
        self._opened = AsyncConnection(await tasks.words_of_live(words, self.path, self._partial))
        try:
            self.version = (await outcome(self._opened.hello, self._timeout, "opening")).version
            await self.refresh()
        except BaseException:
            await self._opened.close(0)
            raise
        return self

    async def __aenter__(self) -> "AsyncWorksheet":
        return await self.open()

    async def __aexit__(self, kind: Optional[Type[BaseException]], error: Optional[BaseException], trace: Optional[TracebackType]) -> None:
        await self.close()

    async def close(self, timeout: Optional[float] = 10.0) -> None:
        """Ends the program, which stops its interpreters: cells that wait stay without an answer. One that takes longer than the timeout, as
        after a `wait` that isn't over, is killed with its interpreters; what was reported is on the disk then, too."""
        if self._opened:
            await self._opened.close(timeout)

    @property
    def _connection(self) -> AsyncConnection:
        if self._opened is None:
            raise Closed
        return self._opened

    @property
    def pid(self) -> int:
        return self._connection.child.process.pid

    @property
    def error(self) -> Optional[TmhostError]:
        """Why nothing goes any more: Closed, Died or ProtocolError; None while it is open."""
        return self._opened.error if self._opened else Closed()

    # ---- what it shows

    @property
    def cells(self) -> List[AsyncCell]:
        """The cells in their order."""
        return [AsyncCell(self, id) for id in self._connection.protocol.mirror.order]

    @property
    def fields(self) -> List[Field]:
        """What the cells are at this moment, in their order."""
        return self._connection.protocol.mirror.fields()

    def cell(self, id: int) -> AsyncCell:
        self._field(id)
        return AsyncCell(self, id)

    @property
    def sessions(self) -> Dict[str, Session]:
        """The sessions by their names, in the order in which they were made."""
        return dict(self._connection.protocol.mirror.sessions)

    @property
    def next_id(self) -> int:
        """The number that the next new cell gets."""
        return self._connection.protocol.mirror.next_id

    def _turn(self, id: int) -> Optional[Turn]:
        return self._connection.protocol.mirror.turn(id)

    def _field(self, id: int) -> Field:
        return self._connection.protocol.mirror.field(id)

    def _evaluation(self, id: int) -> Optional[AsyncEvaluation]:
        found = self._connection.protocol.mirror.waiter(id)
        return found if isinstance(found, AsyncEvaluation) else None

    # ---- sessions

    async def session(self, name: str, words: Union[str, Sequence[str]], tab: bool = False) -> Session:
        """Makes a session, whose interpreter is started with these words; `tab` says that it answers completions. A string of words is cut at
        its spaces, and no word has one: Refused BadWords."""
        return await self._do(commands.MakeSession(name, words_of(words), tab))

    async def ensure_session(self, name: str, words: Union[str, Sequence[str]], tab: bool = False) -> Session:
        """Makes a session where there is none with this name. Refused SessionExists where there is one with other words."""
        wanted = Session(name, words_of(words), tab)
        found = matching(self.sessions, wanted)
        if found is None:
            try:
                return await self._do(commands.MakeSession(name, wanted.words, tab))
            except Refused as refused:
                found = matching(self.sessions, wanted)  # another task may have made it meanwhile
                if refused.name != "SessionExists" or found is None:
                    raise
        return found

    async def stop(self, session: str) -> Tuple[LostItem, ...]:
        """Ends the interpreter of a session, and reports what it hadn't answered. The next evaluation starts it again."""
        return await self._do(commands.Stop(session))

    async def interrupt(self, session: str) -> str:
        """Sends SIGINT to the interpreter of a session: "sent"; "idle" where it is at nothing, and no signal is sent; or "failed"."""
        return await self._do(commands.Interrupt(session))

    # ---- cells

    async def new(self, session: str, text: str = "", after: Optional[AsyncCellLike] = None) -> AsyncCell:
        """A new cell after another one, first for 0, or last for None. Ends of lines in the text stand as U+2028 in the worksheet."""
        return AsyncCell(self, await self._do_in_order(lambda: commands.New(self._place(after), session, input_of(text))))

    async def set(self, cell: AsyncCellLike, text: str) -> None:
        """Gives a cell another input, and takes its answer away."""
        await self._do(commands.Set(id_of(self, cell), input_of(text)))

    async def remove(self, cell: AsyncCellLike) -> None:
        await self._do_in_order(lambda: commands.Remove(id_of(self, cell)))

    async def move(self, cell: AsyncCellLike, after: Optional[AsyncCellLike] = None) -> None:
        """Puts a cell after another one, first for 0, or last for None. Refused SamePlace where it stands there already."""
        await self._do_in_order(lambda: commands.Move(id_of(self, cell), self._place(after)))

    async def clear(self, cell: AsyncCellLike) -> None:
        """Takes the answer of a cell away."""
        await self._do(commands.Clear(id_of(self, cell)))

    async def eval(self, cell: AsyncCellLike) -> AsyncEvaluation:
        """Has a cell evaluated; returns when that is accepted, which is before its answer comes. The old answer is gone then."""
        return await self._eval(cell, self._timeout)

    async def evaluate(self, cell: AsyncCellLike, timeout: Optional[float] = None) -> Answer:
        """Evaluates a cell, and waits for its answer. After TimedOut its line still waits: `AsyncCell.evaluation` is the way back to it."""
        moment = Moment(timeout)
        evaluation = await self._eval(cell, moment.left(self._timeout), moment.given(self._timeout))
        return await evaluation._answer_in(moment.left(), timeout)

    async def _eval(self, cell: AsyncCellLike, timeout: Optional[float], given: Optional[float] = None) -> AsyncEvaluation:
        evaluation = AsyncEvaluation(AsyncCell(self, id_of(self, cell)))
        await self._connection.do(commands.Eval(evaluation.id, evaluation), timeout, given)
        return evaluation

    async def complete(
        self, cell: AsyncCellLike, cursor: Optional[int] = None, timeout: Optional[float] = None, text: Optional[str] = None
    ) -> Optional[Completions]:
        """What can stand at a cursor in the input of a cell, or in a text in its place, which the worksheet doesn't get; the cursor is the number
        of bytes before it, in UTF-8, the end of a line counted as three, None for the end. None where the interpreter's answer can't be
        read. Waits for that answer."""
        id, moment = id_of(self, cell), Moment(timeout)
        if cursor is None:
            cursor = commands.length_of(self._field(id).input if text is None else text)
        future: "asyncio.Future[Optional[Completions]]" = new_future()
        await self._connection.do(commands.Complete(id, cursor, future, text), moment.left(self._timeout), moment.given(self._timeout))
        return await outcome(future, moment.left(), "complete", timeout)

    async def together(self, *changes: Change) -> List[Optional[int]]:
        """Does several changes as a whole, 1,024 at most: after a crash all of them are there or none, and where one is refused none is done, which
        raises Undone. Gives for each the number of its new cell, or None. New cells get the numbers from `next_id` on, so that a later change
        can name them."""
        return await self._do_in_order(lambda: Together(changes)) if changes else []

    # ---- the whole

    async def wait(self, seconds: Optional[int] = None) -> bool:
        """Waits until no interpreter has anything to answer: True. Where these seconds (1 to 1,000,000) are over first, those that still had
        something are ended, and what they had is lost: False. **It holds back what any task sends meanwhile, so also an `interrupt` or a
        `stop`**; to wait for answers alone, await evaluations."""
        return await self._connection.do(commands.Wait(seconds), None)

    async def checkpoint(self) -> None:
        """Makes the file of the worksheet as short as what it shows allows."""
        await self._do(commands.Checkpoint())

    async def export(self, format: str) -> Text:
        """The worksheet in a format (docs/use/EXPORT.md): "script", "markdown", "html", "notebook" or "json". Raises NoScript where it has no script,
        and BadLine where there is no such format."""
        reported = await self._do(commands.Export(format))
        if reported is None:
            raise NoScript
        return reported

    async def refresh(self) -> None:
        """Has the program report the whole worksheet again. There is no need for it."""
        await self._do(commands.Print())

    def listen(self, callback: AsyncListener) -> Callable[[], None]:
        """Has each event reported from now on, one after another and in their order, by a task of the worksheet's own; what the callback gives back
        is awaited where it can be. The worksheet may be further then than the event. What is given back here ends it."""
        return self._connection.listen(callback)

    async def _do(self, command: Command[R]) -> R:
        return await self._connection.do(command, self._timeout)

    async def _do_in_order(self, make: Callable[[], Command[R]]) -> R:
        """Does a command when those before it that change the order of the cells are done, also one whose caller has gone."""
        async with self._order:
            if self._ordering:
                done, _ = await asyncio.wait({self._ordering}, timeout=self._timeout)
                if not done:
                    raise TimedOut(f"an earlier call has had no reply for {self._timeout} seconds")
            command = make()
            future = self._connection.start(command)
            self._ordering = future
            return await outcome(future, self._timeout, command.word)

    def _place(self, after: Optional[AsyncCellLike]) -> int:
        """The number of the cell after which another one is to stand."""
        order = self._connection.protocol.mirror.order
        return id_of(self, after) if after is not None else order[-1] if order else 0
