"""Lines that are evaluated one at a time: what happens until the answer is there, and control-C meanwhile."""

import collections
import contextlib
import enum
import queue
import signal
import time
from types import FrameType
from typing import Counter, Deque, Dict, Iterator, Optional, Tuple, Union

from tmhost import Answer, Answered, Banner, Cell, Closed, Done, Ended, Event, Finished, LostItem, Partial, Stopped, Text, Worksheet

from .console import Console
from .texts import last_lines

AGAIN = 2.0  # seconds in which a second control-C asks to stop the interpreter
LAST_SAID, LAST_LINES = 4_000, 5  # of what an interpreter has written since its last answer: bytes that are kept, and lines that are shown at its end
ENOUGH = 4  # so many in this time end the program, which may be waiting for one that doesn't reply


class Outcome(enum.Enum):
    ANSWERED = "answered"
    LOST = "lost"
    LEFT = "left running"


class Interrupt:
    """Control-C was typed."""


@contextlib.contextmanager
def control_c_raises() -> Iterator[None]:
    """While the user is asked for something, control-C is a KeyboardInterrupt. Where it is ignored, as after `&`, it stays so."""
    before = signal.getsignal(signal.SIGINT)
    if before is not signal.SIG_IGN:
        signal.signal(signal.SIGINT, signal.default_int_handler)
    try:
        yield
    finally:
        signal.signal(signal.SIGINT, before)


class Evaluator:
    """Takes what the worksheet tells, in its order, and shows it. An answer is on the disk when it is reported."""

    def __init__(self, worksheet: Worksheet, console: Console) -> None:
        self.worksheet, self.console = worksheet, console
        self.was_interrupted = False  # the line that was evaluated last
        self._happenings: "queue.SimpleQueue[Union[Event, Interrupt]]" = queue.SimpleQueue()
        # How many ends of evaluations are to be reported of each cell. An event may come late, when the cell is evaluated again already.
        self._owed: Counter[int] = collections.Counter()
        # Of each session how many lines are to be answered, and the prompt that was reported last.
        self._asked: Counter[str] = collections.Counter()
        self._next: Dict[str, Optional[Text]] = {}
        self._said: Dict[str, bytes] = {}  # of each session what its interpreter has written since its last block, the end of that
        self._interrupted_at = float("-inf")
        self._typed: Deque[float] = collections.deque(maxlen=ENOUGH)  # when control-C was
        worksheet.listen(self._happenings.put)

    @contextlib.contextmanager
    def control_c(self) -> Iterator[None]:
        """Control-C is a happening here, and ends no call in the middle."""
        before = signal.getsignal(signal.SIGINT)
        if before is not signal.SIG_IGN:
            signal.signal(signal.SIGINT, self._control_c)
        try:
            yield
        finally:
            signal.signal(signal.SIGINT, before)

    def _control_c(self, number: int, frame: Optional[FrameType]) -> None:
        self._typed.append(time.monotonic())
        if len(self._typed) == ENOUGH and self._typed[-1] - self._typed[0] < AGAIN:
            raise KeyboardInterrupt
        self._happenings.put(Interrupt())

    def next_prompt(self, session: str) -> Optional[Text]:
        """The prompt of the next line of a session, where its interpreter has reported that and still runs. While a line is left running, the last one that
        was reported is the prompt of that line."""
        is_idle = not self._asked[session] and self.worksheet.sessions[session].life is not None
        return self._next.get(session) if is_idle else None

    def evaluate(self, cell: Cell) -> Outcome:
        """Evaluates a cell and shows its answer, which stands below the line that was read last."""
        self.was_interrupted, self._interrupted_at = False, float("-inf")
        cell.eval()
        self._owed[cell.id] += 1
        self._asked[cell.session] += 1
        while True:
            outcome = self._awaited(cell, self._happenings.get())
            if outcome:
                return outcome

    def tell_all(self) -> None:
        """Shows what has happened since."""
        with contextlib.suppress(queue.Empty):
            while True:
                happening = self._happenings.get_nowait()
                if not isinstance(happening, Interrupt):
                    self._tell(happening)

    def stop(self, session: str) -> None:
        """Ends the interpreter of a session, and shows what that lost."""
        self.worksheet.stop(session)
        while True:
            happening = self._happenings.get()
            if isinstance(happening, Interrupt):
                continue
            self._tell(happening)
            # One that has just ended by itself gives Done.
            if isinstance(happening, Done) and happening.command != "stop":
                continue
            if isinstance(happening, (Stopped, Done)) and happening.session == session:
                return

    def _awaited(self, cell: Cell, happening: Union[Event, Interrupt]) -> Optional[Outcome]:
        if isinstance(happening, Interrupt):
            return self._interrupt(cell)
        if isinstance(happening, Partial):
            if happening.session == cell.session:
                self.console.working(happening.data)
            self._tell(happening)
            return None
        if self._owed[cell.id] == 1:
            if isinstance(happening, Answered) and happening.id == cell.id:
                self._heed_answer(happening)
                self._show(cell.id, cell.input, happening.answer)
                return Outcome.ANSWERED
            if isinstance(happening, (Ended, Stopped)) and cell.id in lines_of(happening.lost):
                self._tell(happening)
                return Outcome.LOST
        self._tell(happening)
        return None

    def _tell(self, event: Event) -> None:
        if isinstance(event, Partial):
            self._said[event.session] = (self._said.get(event.session, b"") + event.data)[-LAST_SAID:]
        elif isinstance(event, Banner):
            self._next[event.session] = event.next
            self._said.pop(event.session, None)
            self.console.banner(text_of(event))
        elif isinstance(event, Answered):
            self._heed_answer(event)
            self.console.note(f"the answer of #{event.id}:")
            self._show(event.id, "", event.answer)
        elif isinstance(event, (Ended, Stopped)):
            self._tell_end(event)
        elif isinstance(event, Finished):
            raise event.error or Closed()

    def _heed_answer(self, event: Answered) -> None:
        self._owed[event.id] -= 1
        self._asked[event.session] -= 1
        self._next[event.session] = event.next
        self._said.pop(event.session, None)

    def _show(self, id: int, input: str, answer: Answer) -> None:
        self.console.answer(input, answer)
        if answer.errors:
            self.console.mark(f"#{id} is an error")

    def _tell_end(self, event: Union[Ended, Stopped]) -> None:
        reason = event.reason if isinstance(event, Ended) else "Stopped"
        ids = lines_of(event.lost)
        for id in ids:
            self._owed[id] -= 1
        self._asked[event.session] -= len(ids)
        self._next.pop(event.session, None)
        said = last_lines(self._said.pop(event.session, b""), LAST_LINES)
        self.console.note(f"the interpreter of {event.session} has ended: {reason}; its variables are gone")
        if said and isinstance(event, Ended):
            self.console.note("it had written: " + "\n".join(said))
        if ids:
            self.console.fail("lost: " + ", ".join(f"#{id}" for id in ids) + f" ({reason})")

    # ---- control-C

    def _interrupt(self, cell: Cell) -> Optional[Outcome]:
        """The first interrupts, and a second one soon after it asks to stop."""
        self.was_interrupted = True
        is_again = time.monotonic() - self._interrupted_at < AGAIN
        self._interrupted_at = time.monotonic()
        if not is_again:
            outcome = self.worksheet.interrupt(cell.session)
            hint = "; once more to stop its interpreter" if outcome == "sent" else ""
            self.console.note(f"interrupt: {outcome}{hint}")
            return None
        self._interrupted_at = float("-inf")
        choice = self._choice(cell.session)
        if choice == "l":
            self.console.note(f"#{cell.id} runs on; its answer is shown when it is there")
            return Outcome.LEFT
        if choice == "y" and cell.state == "waiting":
            self.worksheet.stop(cell.session)
        return None

    def _choice(self, session: str) -> str:
        """Where nobody can be asked, the second control-C is the answer, and so is a third one."""
        question = f"Stop the interpreter of {session}? Its variables go. [y]es, [n]o, [l]eave it running:"
        try:
            with control_c_raises():
                return self.console.choose(question, "ynl") or "y"
        except KeyboardInterrupt:
            return "y"
        except EOFError:
            return "n"


def text_of(banner: Banner) -> str:
    return banner.text if isinstance(banner.text, str) else banner.text.decode("utf-8", "backslashreplace")


def lines_of(lost: Tuple[LostItem, ...]) -> "list[int]":
    """The cells whose lines are lost; requests of completions aren't lines."""
    return [item.id for item in lost if item.cursor is None]
