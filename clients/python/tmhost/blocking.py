"""A worksheet for blocking calls, from any thread.

What a call returned is on the disk. What raised Refused, BadLine or Undone changed nothing. What raised TimedOut, Died or ProtocolError may be
done or not.
"""

import concurrent.futures
import copy
import os
import subprocess
import threading
from concurrent.futures import Future
from concurrent.futures import TimeoutError as FutureTimeout
from types import TracebackType
from typing import Any, Callable, Dict, List, Optional, Sequence, Tuple, Type, Union

from . import commands
from .cells import CellView, id_of
from .commands import Command, R, input_of, matching, words_of
from .connection import Connection, Listener, Moment, outcome
from .errors import Closed, NoScript, Refused, TimedOut, TmhostError
from .program import Program, path_word, refuse_uncreated, words_of_live, words_of_program
from .together import Change, Together
from .values import Answer, Completions, Field, LostItem, Session, Text, Turn

CellLike = Union["Cell", int]


class Evaluation(Future[Answer]):
    """The answer to the line of a cell, which comes later. It can't be cancelled: interrupt or stop its session.

    `concurrent.futures.wait` and `as_completed` take it. What `add_done_callback` is given runs on the thread that reads, and can't call
    the worksheet: see `Worksheet.listen`.
    """

    def __init__(self, cell: "Cell") -> None:
        super().__init__()
        self.cell, self.id = cell, cell.id
        self.set_running_or_notify_cancel()

    def result(self, timeout: Optional[float] = None) -> Answer:
        """Waits for the answer, which is on the disk then. Raises Lost, TimedOut (the line still waits), Died, ProtocolError, Closed."""
        return self._answer_in(timeout, timeout)

    def exception(self, timeout: Optional[float] = None) -> Optional[BaseException]:
        """Waits as `result` does, and gives what that would raise but TimedOut, which it raises itself."""
        return self._error_in(timeout, timeout)

    def _answer_in(self, timeout: Optional[float], given: Optional[float]) -> Answer:
        """`timeout` is what is left of the time that was given, which TimedOut names."""
        error = self._error_in(timeout, given)
        if error is not None:
            raise copy.copy(error)
        return super().result()

    def _error_in(self, timeout: Optional[float], given: Optional[float]) -> Optional[BaseException]:
        if not self.done():
            self.cell.worksheet._connection.refuse_reader()
        try:
            return super().exception(timeout)
        except FutureTimeout:
            raise TimedOut(f"cell {self.id} has no answer after {given} seconds") from None


class Cell(CellView):
    """A cell of a Worksheet; its calls are those of the worksheet with this cell."""

    _worksheet: "Worksheet"

    @property
    def worksheet(self) -> "Worksheet":
        return self._worksheet

    @property
    def evaluation(self) -> Optional[Evaluation]:
        """The one that waits for its answer."""
        return self._worksheet._evaluation(self.id)

    def set(self, text: str) -> None:
        self._worksheet.set(self, text)

    def remove(self) -> None:
        self._worksheet.remove(self)

    def move(self, after: Optional[CellLike] = None) -> None:
        self._worksheet.move(self, after)

    def clear(self) -> None:
        self._worksheet.clear(self)

    def eval(self) -> Evaluation:
        return self._worksheet.eval(self)

    def evaluate(self, timeout: Optional[float] = None) -> Answer:
        return self._worksheet.evaluate(self, timeout)

    def complete(self, cursor: Optional[int] = None, timeout: Optional[float] = None, text: Optional[str] = None) -> Optional[Completions]:
        return self._worksheet.complete(self, cursor, timeout, text)


class Worksheet:
    """A worksheet that is held open: it is locked, and no other program works on it.

    `create` makes it where there is no file. `program` is the program `tmhost`, or its words (else the one that TMHOST names, or that is on
    PATH). `timeout` is how many seconds the reply to a command may take: none of them is one that an interpreter works for. `partial` has the
    event Partial reported, where the program knows it.

    What it shows (`cells`, `fields`, `sessions`) is held here, and asking for it sends nothing. It is exact after each call and each event:
    but that a lost line has a reason is a guess, mostly right, until it was looked up (the event `Done("print", id)` tells where it has
    none). When the program dies it stays as it was reported last.
    """

    def __init__(
        self, path: "Union[str, os.PathLike[str]]", *, create: bool = False, program: Program = None, timeout: Optional[float] = None,
        partial: bool = False,
    ) -> None:
        """Raises InUse where another program has the worksheet, FileNotFoundError where nothing is at the path (NoWorksheet, which is a
        Died) or there is no program, and Died where it can't be opened."""
        self.path = path_word(path)
        words = words_of_program(program)
        if create and not os.path.lexists(self.path):
            made = subprocess.run([*words, "create", self.path], stdin=subprocess.DEVNULL, capture_output=True)
            refuse_uncreated(self.path, made.returncode, made.stderr)
        self._timeout = timeout
        # What changes the order of the cells is done one after another, so that the last cell is known when one is put after it.
        self._order = threading.Lock()
        self._ordering: "Optional[Future[Any]]" = None
        self._connection = Connection(words_of_live(words, self.path, partial))
        try:
            self.version = outcome(self._connection.hello, timeout, "opening").version
            self.refresh()
        except BaseException:
            self._connection.close(0)
            raise

    def __enter__(self) -> "Worksheet":
        return self

    def __exit__(self, kind: Optional[Type[BaseException]], error: Optional[BaseException], trace: Optional[TracebackType]) -> None:
        self.close()

    def close(self, timeout: Optional[float] = 10.0) -> None:
        """Ends the program, which stops its interpreters: cells that wait stay without an answer. One that takes longer than the timeout, as
        after a `wait` that isn't over, is killed with its interpreters; what was reported is on the disk then, too."""
        self._connection.close(timeout)

    @property
    def pid(self) -> int:
        return self._connection.child.process.pid

    @property
    def error(self) -> Optional[TmhostError]:
        """Why nothing goes any more: Closed, Died or ProtocolError; None while it is open."""
        return self._connection.error

    # ---- what it shows

    @property
    def cells(self) -> List[Cell]:
        """The cells in their order."""
        with self._connection.lock:
            return [Cell(self, id) for id in self._connection.mirror.order]

    @property
    def fields(self) -> List[Field]:
        """What the cells are at this moment, in their order."""
        with self._connection.lock:
            return self._connection.mirror.fields()

    def cell(self, id: int) -> Cell:
        self._field(id)
        return Cell(self, id)

    @property
    def sessions(self) -> Dict[str, Session]:
        """The sessions by their names, in the order in which they were made."""
        with self._connection.lock:
            return dict(self._connection.mirror.sessions)

    @property
    def next_id(self) -> int:
        """The number that the next new cell gets."""
        return self._connection.mirror.next_id

    def _field(self, id: int) -> Field:
        with self._connection.lock:
            return self._connection.mirror.field(id)

    def _turn(self, id: int) -> Optional[Turn]:
        with self._connection.lock:
            return self._connection.mirror.turn(id)

    def _evaluation(self, id: int) -> Optional[Evaluation]:
        with self._connection.lock:
            found = self._connection.mirror.waiter(id)
        return found if isinstance(found, Evaluation) else None

    # ---- sessions

    def session(self, name: str, words: Union[str, Sequence[str]], tab: bool = False) -> Session:
        """Makes a session, whose interpreter is started with these words; `tab` says that it answers completions. A string of words is cut at
        its spaces, and no word has one: Refused BadWords."""
        return self._do(commands.MakeSession(name, words_of(words), tab))

    def ensure_session(self, name: str, words: Union[str, Sequence[str]], tab: bool = False) -> Session:
        """Makes a session where there is none with this name. Refused SessionExists where there is one with other words."""
        wanted = Session(name, words_of(words), tab)
        found = matching(self.sessions, wanted)
        if found is None:
            try:
                return self._do(commands.MakeSession(name, wanted.words, tab))
            except Refused as refused:
                found = matching(self.sessions, wanted)  # another thread may have made it meanwhile
                if refused.name != "SessionExists" or found is None:
                    raise
        return found

    def stop(self, session: str) -> Tuple[LostItem, ...]:
        """Ends the interpreter of a session, and reports what it hadn't answered. The next evaluation starts it again."""
        return self._do(commands.Stop(session))

    def interrupt(self, session: str) -> str:
        """Sends SIGINT to the interpreter of a session: "sent"; "idle" where it is at nothing, and no signal is sent; or "failed"."""
        return self._do(commands.Interrupt(session))

    # ---- cells

    def new(self, session: str, text: str = "", after: Optional[CellLike] = None) -> Cell:
        """A new cell after another one, first for 0, or last for None. Ends of lines in the text stand as U+2028 in the worksheet."""
        return Cell(self, self._do_in_order(lambda: commands.New(self._place(after), session, input_of(text))))

    def set(self, cell: CellLike, text: str) -> None:
        """Gives a cell another input, and takes its answer away."""
        self._do(commands.Set(id_of(self, cell), input_of(text)))

    def remove(self, cell: CellLike) -> None:
        self._do_in_order(lambda: commands.Remove(id_of(self, cell)))

    def move(self, cell: CellLike, after: Optional[CellLike] = None) -> None:
        """Puts a cell after another one, first for 0, or last for None. Refused SamePlace where it stands there already."""
        self._do_in_order(lambda: commands.Move(id_of(self, cell), self._place(after)))

    def clear(self, cell: CellLike) -> None:
        """Takes the answer of a cell away."""
        self._do(commands.Clear(id_of(self, cell)))

    def eval(self, cell: CellLike) -> Evaluation:
        """Has a cell evaluated; returns when that is accepted, which is before its answer comes. The old answer is gone then."""
        return self._eval(cell, self._timeout)

    def evaluate(self, cell: CellLike, timeout: Optional[float] = None) -> Answer:
        """Evaluates a cell, and waits for its answer. After TimedOut its line still waits: `Cell.evaluation` is the way back to it."""
        moment = Moment(timeout)
        return self._eval(cell, moment.left(self._timeout), moment.given(self._timeout))._answer_in(moment.left(), timeout)

    def _eval(self, cell: CellLike, timeout: Optional[float], given: Optional[float] = None) -> Evaluation:
        evaluation = Evaluation(Cell(self, id_of(self, cell)))
        self._connection.do(commands.Eval(evaluation.id, evaluation), timeout, given)
        return evaluation

    def complete(
        self, cell: CellLike, cursor: Optional[int] = None, timeout: Optional[float] = None, text: Optional[str] = None
    ) -> Optional[Completions]:
        """What can stand at a cursor in the input of a cell, or in a text in its place, which the worksheet doesn't get; the cursor is the number
        of bytes before it, in UTF-8, the end of a line counted as three, None for the end. None where the interpreter's answer can't be
        read. Waits for that answer."""
        id, moment = id_of(self, cell), Moment(timeout)
        if cursor is None:
            cursor = commands.length_of(self._field(id).input if text is None else text)
        future: "Future[Optional[Completions]]" = Future()
        self._connection.do(commands.Complete(id, cursor, future, text), moment.left(self._timeout), moment.given(self._timeout))
        return outcome(future, moment.left(), "complete", timeout)

    def together(self, *changes: Change) -> List[Optional[int]]:
        """Does several changes as a whole, 1,024 at most: after a crash all of them are there or none, and where one is refused none is done, which
        raises Undone. Gives for each the number of its new cell, or None. New cells get the numbers from `next_id` on, so that a later change
        can name them."""
        return self._do_in_order(lambda: Together(changes)) if changes else []

    # ---- the whole

    def wait(self, seconds: Optional[int] = None) -> bool:
        """Waits until no interpreter has anything to answer: True. Where these seconds (1 to 1,000,000) are over first, those that still had
        something are ended, and what they had is lost: False. **It holds back what any thread sends meanwhile, so also an `interrupt` or a
        `stop`**; to wait for answers alone, wait for evaluations."""
        return self._connection.do(commands.Wait(seconds), None)

    def checkpoint(self) -> None:
        """Makes the file of the worksheet as short as what it shows allows."""
        self._do(commands.Checkpoint())

    def export(self, format: str) -> Text:
        """The worksheet in a format (docs/use/EXPORT.md): "script", "markdown", "html", "notebook" or "json". Raises NoScript where it has no script,
        and BadLine where there is no such format."""
        reported = self._do(commands.Export(format))
        if reported is None:
            raise NoScript
        return reported

    def refresh(self) -> None:
        """Has the program report the whole worksheet again. There is no need for it."""
        self._do(commands.Print())

    def listen(self, callback: Listener) -> Callable[[], None]:
        """Has each event reported from now on, one after another and in their order, on a thread of the worksheet's own. The callback may call the
        worksheet, which may be further then than the event. What is given back ends it."""
        return self._connection.listen(callback)

    def _do(self, command: Command[R]) -> R:
        return self._connection.do(command, self._timeout)

    def _do_in_order(self, make: Callable[[], Command[R]]) -> R:
        """Does a command when those before it that change the order of the cells are done, also one whose caller's time was over."""
        self._connection.refuse_reader()
        moment = Moment(self._timeout)
        if not self._order.acquire(timeout=-1 if self._timeout is None else self._timeout):
            raise TimedOut(f"another thread has waited {self._timeout} seconds for a reply")
        try:
            if self._ordering:
                concurrent.futures.wait([self._ordering], moment.left())
                if not self._ordering.done():
                    raise TimedOut(f"an earlier call has had no reply for {self._timeout} seconds")
            command = make()
            future = self._connection.start(command)
            self._ordering = future
            return outcome(future, moment.left(), command.word, self._timeout)
        finally:
            self._order.release()

    def _place(self, after: Optional[CellLike]) -> int:
        """The number of the cell after which another one is to stand."""
        if after is not None:
            return id_of(self, after)
        with self._connection.lock:
            order = self._connection.mirror.order
            return order[-1] if order else 0
