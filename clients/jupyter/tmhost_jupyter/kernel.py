"""The kernel: each cell that a front end has run is a field of a worksheet, and its answer is on the disk before the front end gets it."""
import signal
import threading
from types import FrameType
from typing import Any, ClassVar, Dict, Optional

from ipykernel.kernelbase import Kernel
from tmhost import BadLine, Completions, Evaluation, Lost, Refused, TimedOut, TmhostError, readable
from tmhost.advice import advised
from tmhost.commands import length_of
from tmhost.values import LINE_END

from .languages import language_of, reported_of
from .outputs import Error, Message, Shown
from .sheet import Given, Sheet, Unusable

Reported = Dict[str, Any]

VERSION = "0.1.0"
LOOKS = 0.05  # seconds after which it is looked whether an interrupt has come
COMPLETES = 5.0  # seconds that completions may take
LONGEST = 4095  # bytes of an input
INTERRUPTED = Error("Interrupted", "the interpreter was interrupted", "Interrupted: the interpreter was interrupted")
WHY_LOST = {
    "Ended": "the interpreter has ended, and its variables are gone: the next cell starts it again",
    "SendFault": "the interpreter has ended, and its variables are gone: the next cell starts it again",
    "StartRefused": "there is no such program, or it may not be run: {words}",
    "Stopped": "the interpreter was stopped, and its variables are gone",
}
WHY_REFUSED = {
    "BadInput": "a field has at most {longest} bytes of text without control characters, and this cell has {bytes}",
}


def failure(name: str, value: str) -> Error:
    return Error(name, value, f"{name}: {value}" if value else name)


class WorksheetKernel(Kernel):
    """`given` says which worksheet and session it is for."""

    given: ClassVar[Given]
    implementation = "tmhost"
    implementation_version = VERSION

    def __init__(self, **kwargs: Any) -> None:
        super().__init__(**kwargs)  # type: ignore[no-untyped-call]
        self.sheet = Sheet(self.given)
        self.banner = f"{self.given.session}, kept in the worksheet {self.sheet.path}"
        self.language_info = reported_of(language_of(self.given.words) or self.given.session)
        self.is_interrupted = threading.Event()

    # ---- signals

    def pre_handler_hook(self) -> None:
        """A signal for us is one for the interpreter, whose answer ends the cell."""
        self.saved_sigint_handler = signal.signal(signal.SIGINT, self.note_interrupt)

    def note_interrupt(self, number: int, frame: Optional[FrameType]) -> None:
        self.is_interrupted.set()

    # ---- evaluation

    def do_execute(
        self, code: str, silent: bool, store_history: bool = True, user_expressions: Any = None, allow_stdin: bool = False, *, cell_id: Optional[str] = None
    ) -> Reported:
        if not code.strip():
            return self.done()
        if silent:
            return self.failed(failure("Silent", "a worksheet has no line that isn't kept"), silent)
        self.is_interrupted.clear()
        try:
            evaluation = self.sheet.opened().field(code, cell_id or self.given_name(), self.sheet.is_own and not allow_stdin).eval()
            return self.shown(evaluation)
        except Unusable as unusable:
            return self.failed(failure("Worksheet", str(unusable)), silent)
        except (Refused, BadLine) as refused:
            name = refused.name if isinstance(refused, Refused) else "BadInput"
            return self.failed(failure(name, WHY_REFUSED.get(name, str(refused)).format(longest=LONGEST, bytes=len(code.encode()))), silent)
        except Lost as lost:
            return self.failed(failure(lost.reason, WHY_LOST.get(lost.reason, "the interpreter ended").format(words=" ".join(self.sheet.words))), silent)
        except TmhostError as error:
            if self.sheet.ended():
                self.sheet.close()
            return self.failed(failure(type(error).__name__, f"{advised(error, self.sheet.path)}: the variables are gone, and the next cell opens the worksheet again"), silent)

    def given_name(self) -> str:
        """The front end's name for the cell, of which an ipykernel before 6.18 doesn't tell us."""
        parent = self.get_parent("shell")  # type: ignore[no-untyped-call]
        return str((parent.get("metadata") or {}).get("cellId") or "")

    def shown(self, evaluation: Evaluation) -> Reported:
        """Waits for an answer, and sends what it has."""
        was_interrupted = False
        while True:
            if self.is_interrupted.is_set() and self.sheet.interrupt():
                self.is_interrupted.clear()
                was_interrupted = True
            try:
                answer = evaluation.result(LOOKS)
                break
            except TimedOut:
                continue
        shown = Shown(answer, self.execution_count)
        for message in shown.messages:
            self.send(message)
        if shown.error:
            return self.ended(shown.error)
        return self.failed(INTERRUPTED, False) if was_interrupted else self.done()

    def done(self) -> Reported:
        return {"status": "ok", "execution_count": self.execution_count, "payload": [], "user_expressions": {}}

    def ended(self, error: Error) -> Reported:
        return {"status": "error", "execution_count": self.execution_count, **error.content}

    def failed(self, error: Error, silent: bool) -> Reported:
        if not silent:
            self.send(Message("error", error.content))
        return self.ended(error)

    def send(self, message: Message) -> None:
        self.send_response(self.iopub_socket, message.kind, message.content)  # type: ignore[no-untyped-call]

    # ---- the rest

    def do_complete(self, code: str, cursor_pos: int) -> Reported:
        none = {"status": "ok", "matches": [], "cursor_start": cursor_pos, "cursor_end": cursor_pos, "metadata": {}}
        found = self.completions(code, cursor_pos)
        if found is None:
            return none
        matches = [readable(word) for word in found.words]
        return {**none, "matches": matches, "cursor_start": cursor_pos - len(readable(found.root))}

    def completions(self, code: str, cursor_pos: int) -> Optional[Completions]:
        """What the interpreter says that can stand there; None where it doesn't say, or there is no worksheet."""
        text = code.replace("\n", LINE_END)
        if self.sheet.has_lost_variables or self.sheet.ended():
            return None  # the next cell says so
        try:
            cells = self.sheet.opened()
            if not self.sheet.answers_completions:
                return None
            return cells.for_completions().complete(length_of(text[:cursor_pos]), COMPLETES, text)
        except (TmhostError, Unusable):
            return None

    def do_shutdown(self, restart: bool) -> Reported:
        """Ends the program with its interpreter, and a cell that waits."""
        self.sheet.close()
        return {"status": "ok", "restart": restart}
