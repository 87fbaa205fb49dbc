"""Evaluates the stale fields of a text, in its order."""
import contextlib
import math
import threading
import time
from typing import Callable, Dict, Iterator, List, Optional, Set, Tuple

from tmhost import Cell, Lost, Refused, TimedOut

from .document import ENDS
from .files import Changed
from .lives import AT_CODE, AT_START, UNSENT, Ends, Lives
from .plan import ENDED as ENDED_SESSION, MARK, Plan, Wanted, note_of, noted

BELOW = "what stands below is of a replay, and is removed"
UNTRIED = "not evaluated, since what stands before it in its session has no answer"
ENDED = "not evaluated, since its interpreter ended by itself after what stands before it"
NOT_ENDED = f"this code didn't end its interpreter, as {{{ENDS}}} says that it does"
PATIENCE = 30.0  # seconds after which it is said that a field has no answer yet
LOOK = 0.3  # seconds after which it is asked whether a field is still wanted
NO_ANSWER = "no answer: {}"
SETTLES = 0.3  # seconds in which an interpreter ends that does so by itself after an answer: else what comes next would be taken for what has ended it
ENDS_WITHIN = 5.0  # seconds after its answer in which code has ended its interpreter that is meant to


class Another(Exception):
    """Another interpreter was asked than the one that has answered what stands before, since that has ended."""


class Evaluator:
    """`begun` is called for each field, with how many there are before it and how many in all; `late` of one that has no answer after some time. `is_outdated`
    tells, where it is given, whether a field of the plan isn't wanted any more, which breaks off all."""

    def __init__(
        self, lives: Lives, plan: Plan, seconds: Optional[float], begun: Callable[[Wanted, int, int], None], late: Callable[[Wanted, float], None],
        is_outdated: Optional[Callable[[Plan, Wanted], bool]] = None,
    ) -> None:
        self.lives, self.sheet, self.plan, self.seconds, self.begun, self.late = lives, lives.sheet, plan, seconds, begun, late
        self.is_outdated = is_outdated
        self.replayed: Dict[str, int] = {}  # how many fields were, of each session that has an interpreter
        self.others: Dict[str, int] = {}  # how many of those were answered otherwise than what is kept
        self.failed: Set[str] = set()  # sessions of which no further field is evaluated
        self.unstarted: Set[str] = set()  # those of them that have failed since their interpreter never started
        self._asked: Dict[str, List[str]] = {}  # what the interpreter of each session has to have answered by now, and nothing else
        self._has_lost = False  # whether the last one was lost with its interpreter
        self._scratch: List[Cell] = []
        self._ends = Ends(lives.sheet)

    def evaluate_all(self) -> None:
        try:
            self._evaluate_all()
        finally:
            self._ends.stop()

    def _evaluate_all(self) -> None:
        stale = [wanted for wanted in self.plan.wanted if not wanted.is_kept]
        for place, wanted in enumerate(stale):
            if wanted.is_skipped:
                continue
            self.begun(wanted, place, len(stale))
            with self._watched(wanted):
                wanted.failure = self._failure(wanted)
            if wanted.fence.ends:
                self._heed_end(wanted)
            wanted.is_answered = not wanted.is_skipped and wanted.failure in (None, NOT_ENDED)
            if wanted.failure and not wanted.fence.is_pure:
                self.failed.add(wanted.session)
                self.unstarted |= {wanted.session} if wanted.is_unstarted else set()
        # The mark that stands in front of the others goes last.
        for cell in reversed(self._scratch):
            cell.remove()

    # ---- code that is meant to end its interpreter

    def _heed_end(self, wanted: Wanted) -> None:
        """Notes that a field of such code has ended it, or makes it a failure that all of them have an answer."""
        try:
            if not self._has_noted_end(wanted) and wanted.failure is None and wanted.is_last:
                self.sheet.stop(wanted.session)
                wanted.failure = NOT_ENDED
        except Refused as refused:
            wanted.failure = str(refused)

    def _has_noted_end(self, wanted: Wanted) -> bool:
        if wanted.failure is None and wanted.is_last:
            found = self._ends.take(wanted.session, ENDS_WITHIN)
            if found:
                self._note_end(wanted, found.said)
            return found is not None
        before = self.plan.before_in_fence(wanted)
        if wanted.end == AT_CODE and wanted.ender is wanted:
            self._note_end(wanted, wanted.last_words)
        elif wanted.failure in (ENDED, NO_ANSWER.format(UNSENT)) and before:
            found = self._ends.take(wanted.session, 0.0)
            self._note_end(before, found.said if found else "")
        else:
            return False
        return True

    def _note_end(self, ender: Wanted, said: str) -> None:
        """Has the worksheet say that a field has ended its interpreter. Those after it in its fence have no answer then, but one that no field can have stays a failure."""
        assert ender.id is not None
        for one in (one for one in self.plan.after_in_fence(ender) if not one.misfit):
            one.is_skipped, one.failure, one.end, one.ender, one.is_unstarted = True, None, None, None, False
            if one.id is not None and self.sheet.cell(one.id).state != "empty":
                self.sheet.clear(one.id)
        text = noted(said)
        ender.note = self.sheet.new(ENDED_SESSION.name, note_of(ender.id, text), ender.id).id
        ender.said, ender.failure, ender.end, ender.ender, ender.is_unstarted = text, None, None, None, False

    @contextlib.contextmanager
    def _watched(self, wanted: Wanted) -> Iterator[None]:
        timer = threading.Timer(PATIENCE, self.late, [wanted, PATIENCE])
        timer.daemon = True
        timer.start()
        try:
            yield
        finally:
            timer.cancel()

    def _failure(self, wanted: Wanted) -> Optional[str]:
        """Evaluates a field, and tells why it has no answer."""
        if wanted.misfit or wanted.session in self.failed:
            wanted.is_unstarted |= wanted.session in self.unstarted
            return wanted.misfit or UNTRIED
        assert wanted.id is not None
        cell = self.sheet.cell(wanted.id)
        if wanted.fence.is_pure:
            self._start(wanted.session)
        elif wanted.session not in self.replayed:
            return self._failure_of_first(cell, wanted)
        return self._evaluate(cell, wanted, wanted)

    def _start(self, session: str) -> None:
        """Has the next input of a session evaluated by a new interpreter."""
        self.sheet.stop(session)
        self._asked[session] = []

    def _failure_of_first(self, cell: Cell, wanted: Wanted) -> Optional[str]:
        """The same of the first one in its session, for an interpreter that has answered what is kept and nothing else: the one that runs, or a new one."""
        kept = [one for one in self.plan.of(wanted.session) if one.is_kept]
        inputs = [one.input for one in kept]
        if kept and self.lives.answered(wanted.session) == inputs:
            self.replayed[wanted.session], self._asked[wanted.session] = 0, inputs
            self._has_lost = False
            if wanted.fence.ends and self.plan.before_in_fence(wanted):
                self._ends.take(wanted.session, SETTLES)
            failure = self._evaluate(cell, wanted, wanted)
            is_meant = wanted.fence.ends and wanted.end == AT_CODE
            if is_meant or failure != ENDED and not self._has_lost:
                return failure
            wanted.end, wanted.ender, wanted.is_unstarted = None, None, False  # it may have ended before it was asked, while nothing was evaluated
        self._start(wanted.session)
        return self._replay(kept, wanted) or self._evaluate(cell, wanted, wanted)

    def _refuse_outdated(self, wanted: Wanted) -> None:
        if self.is_outdated and self.is_outdated(self.plan, wanted):
            raise Changed

    def _answer(self, cell: Cell, wanted: Wanted, life: Optional[int]) -> None:
        """Waits for the answer of a cell as long as the field is wanted for whose sake it is evaluated. The interpreter with this life has to give it, where one is
        named."""
        until = math.inf if self.seconds is None else time.monotonic() + self.seconds
        evaluation = cell.eval()
        if life is not None and self.lives.number(cell.session) not in (life, None):
            raise Another
        while True:
            left = max(0.0, until - time.monotonic())
            most = min(left, LOOK if self.is_outdated else math.inf)
            try:
                evaluation.result(None if most == math.inf else most)
                return
            except TimedOut:
                if most == left:
                    raise
            self._refuse_outdated(wanted)

    def _evaluate(self, cell: Cell, code: Wanted, wanted: Wanted) -> Optional[str]:
        """Why a cell has no answer to this code, which is there for the sake of a field. It is asked of no interpreter that hasn't answered what stands before it."""
        self._refuse_outdated(wanted)
        asked = self._asked[cell.session]
        if asked and code is wanted and wanted.fence.ends and not self.plan.before_in_fence(wanted):
            self._ends.take(cell.session, SETTLES)
        if self.lives.answered(cell.session) != asked:
            return ENDED
        try:
            with self.lives.evaluating(cell.session, code.input) as life:
                self._answer(cell, wanted, life if asked else None)
        except Lost as lost:
            self._has_lost = True
            found = self._ends.take(cell.session) if lost.reason == "Ended" else None
            if found:
                wanted.end, wanted.last_words, wanted.ender = found.when, found.said, code
            wanted.is_unstarted = lost.reason == "StartRefused" or wanted.end == AT_START
            return NO_ANSWER.format(lost.reason)
        except Refused as refused:
            return str(refused)
        except TimedOut:
            wanted.is_unstarted = not self._ends.has_greeted(cell.session, self.lives.number(cell.session))
            self.sheet.stop(cell.session)
            return f"no answer within {self.seconds:g} seconds"
        except Another:
            self.sheet.stop(cell.session)  # before it has greeted, so no answer of it is ever kept
            return ENDED
        except Changed:
            self.sheet.stop(cell.session)
            raise
        asked.append(code.input)
        return None

    def _replay(self, kept: List[Wanted], first: Wanted) -> Optional[str]:
        """Has the interpreter of a session evaluate the fields that are kept, in a field of their own, in front of the first one that isn't."""
        session = first.session
        self.replayed[session] = len(kept)
        if not kept:
            return None
        try:
            cell = self._scratch_cell(session)
        except Refused as refused:
            return f"not evaluated, since what stands before it can't be replayed: {refused}"
        for wanted in kept:
            cell.set(wanted.input)
            failure = self._evaluate(cell, wanted, first)
            if failure:
                return f"not evaluated, since the replay of what stands before it failed: {failure}"
            assert wanted.id is not None
            self.others[session] = self.others.get(session, 0) + (cell.text != self.sheet.cell(wanted.id).text)
        return None

    def _scratch_cell(self, session: str) -> Cell:
        if not self._scratch:
            self._scratch.append(self.sheet.new(MARK.name, BELOW))
        self._scratch.append(self.sheet.new(session))
        return self._scratch[-1]
