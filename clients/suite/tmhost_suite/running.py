"""Evaluates the cases of a suite, in the order of its text or its sessions side by side, and judges what comes."""
import contextlib
import dataclasses
import random
import re
import threading
import time
from concurrent.futures import ThreadPoolExecutor
from typing import Callable, List, NamedTuple, Optional, Tuple

from tmhost import Answer, Cell, Lost, Refused, TimedOut

from .agenda import Step, agenda_of, is_fixed
from .cases import Case, Suite
from .kept import Kept, joined
from .results import BROKEN, WRONG, Result
from .shown import Shown, shown_of

GRACE = 2.0  # seconds for an interpreter that was interrupted to say so


@dataclasses.dataclass
class Plan:
    """What is run and how: `chosen` says which cases, `seconds` how long one may take, `slots` how many run at a time over all files, `ended` that no
    more are begun, `is_cut_off` that what comes now isn't what a case came to, `fails_fast` that none is begun after a failure, `seed` in which
    order they come where it is drawn, and `is_side_by_side` that no session waits for another one."""

    chosen: Callable[[int, Case], bool]
    seconds: float
    slots: threading.Semaphore
    ended: threading.Event
    is_cut_off: threading.Event
    fails_fast: bool = False
    seed: Optional[int] = None
    is_side_by_side: bool = False


def verdict_of(case: Case, result: Result, is_good: bool) -> str:
    if case.is_own:
        return BROKEN if result.is_error or result.is_lost or case.wanted is not None and not is_good else "setup"
    if is_skipped(case, result.got):
        return "skip"
    is_free = case.wanted is None and case.errors is None
    wrong = "ended" if result.end else "over" if result.over else "new" if is_free else "differs"
    if not result.has_started and not is_good:
        return wrong  # a wrong answer is what may be wanted, and this is none: the case wasn't tried
    if case.marks.xfail is not None:
        return "xpass" if is_good else "xfail"
    if is_good:
        return "flaky" if result.tries > 1 else "ok"
    if case.marks.may_fail is not None:
        return "xfail"
    if is_free and (case.marks.is_teardown or case.marks.is_setup and not result.is_lost):
        return "setup"  # what takes down may end its interpreter
    return wrong


def is_skipped(case: Case, got: str) -> bool:
    """Whether what came says that the case can't be tried here."""
    return case.marks.skip_if is not None and re.search(case.marks.skip_if, got, re.MULTILINE) is not None


def is_good(suite: Suite, case: Case, result: Result) -> bool:
    rules = suite.rules_of(case)
    return rules.is_wanted(case.wanted, result.got, set()) and (not rules.apart or rules.is_wanted(case.errors, result.errors, set()))


def judge_again(kept: Kept) -> None:
    """What came before a run was cut off is compared with what is wanted now."""
    for at, result in kept.results.items():
        case = kept.suite.cases[at]
        result.verdict = verdict_of(case, result, is_good(kept.suite, case, result))


class Over(Exception):
    """The time of a case is over. `has_started` says that its interpreter was ready within it."""

    def __init__(self, has_started: bool) -> None:
        super().__init__(has_started)
        self.has_started = has_started


class Chain:
    """The cases of one session, one after another, in one interpreter as long as that goes on."""

    def __init__(self, kept: Kept, session: str, plan: Plan, tell: Callable[[int], None]) -> None:
        self.kept, self.session, self.plan, self.tell = kept, session, plan, tell
        self.suite = kept.suite
        self.is_fresh = True  # its interpreter isn't started, or starts empty
        self.has_run = False
        self.ended_at: Optional[int] = None  # the last case in which an interpreter of the session ended
        self.last_at: Optional[int] = None  # the case that was evaluated last
        self.life: Optional[int] = None  # of the interpreter that gave the last answer its number, 0 where it had ended by then; None where none gave any
        self.is_bare = False  # an answer came of another interpreter than the one before, which nobody had known to have ended
        self.replayed = 0  # how many cases were evaluated only for those after them
        self.broken = ""  # why its interpreter hasn't what the tool sets up for its cases
        self.own = [at for at in self.order if self.suite.cases[at].is_own and self.suite.cases[at].marks.is_setup]
        self.past: List[int] = []  # what a run that was cut off had done, of which `needed` is replayed before the first case
        self.needed: List[int] = []

    @property
    def order(self) -> List[int]:
        """The places of its cases. Where they are shuffled, what sets up comes first and what takes down last, as they stand."""
        places = self.suite.of(self.session)
        if self.plan.seed is not None:
            free = [at for at in places if not is_fixed(self.suite.cases[at])]
            mixed = iter(random.Random(f"{self.plan.seed} {self.session}").sample(free, len(free)))
            fixed = [at for at in places if is_fixed(self.suite.cases[at])]
            first = [at for at in fixed if self.suite.cases[at].marks.is_setup]
            places = first + list(mixed) + [at for at in fixed if at not in first]
        return places

    def _is_broken(self) -> bool:
        """Whether what the tool sets up went wrong."""
        return any(at in self.kept.results and self.kept.results[at].verdict == BROKEN for at in self.own)

    def begin(self) -> List[Step]:
        """What it is to evaluate, in this order."""
        agenda = agenda_of(self.suite, self.order, self.kept.results, self.plan.chosen)
        self.past, self.needed = agenda.past, agenda.needed
        return agenda.steps

    def turns(self) -> "List[Turn]":
        """The same, each with where it comes among those of all sessions: at the place in the text, and what takes down after all others. Cases that are
        shuffled have the places of their session one after another."""
        steps = self.begin()
        places = sorted((self.suite.cases[step.at].marks.is_teardown, step.at) for step in steps)
        return [Turn(place, step, self) for place, step in zip(places, steps)]

    def run(self) -> None:
        for step in self.begin():
            self.take(step)

    def take(self, step: Step) -> None:
        """Evaluates a case, where nothing has ended all."""
        case = self.suite.cases[step.at]
        if self._is_broken() and not case.marks.is_teardown:
            return  # it would be evaluated elsewhere than in what the program of its form makes for it
        with self.plan.slots:
            if self.plan.ended.is_set():
                return
            if self.past:
                self._replay_past(self.past, self.needed)
                self.past = []
            if step.is_judged:
                self._judge(step.at, case)
            else:
                self._replay_case(step.at)
        if step.is_judged and not case.is_own:
            self.tell(step.at)

    def _judge(self, at: int, case: Case) -> None:
        tries, good, result = 0, False, Result("", 0.0)
        while not good and tries <= case.marks.flaky and not self.plan.is_cut_off.is_set():
            tries += 1
            result = self._evaluate(at, case)
            if self._leave_bare():
                result = self._evaluate(at, case)  # after what sets up
            result.after_end = None if self.suite.is_independent(case) else self.ended_at
            self._heed_end(at)
            good = is_good(self.suite, case, result)
        if self.plan.is_cut_off.is_set():
            return
        result.tries = tries
        result.verdict = verdict_of(case, result, good)
        self.kept.note(at, result)
        self.kept.results[at] = result
        if self.plan.fails_fast and result.verdict in (*WRONG, BROKEN):
            self.plan.ended.set()

    def _heed_end(self, at: int) -> None:
        """After a case: whether its interpreter ended in it."""
        if self.is_fresh:
            self.ended_at = at
        self.last_at = at

    def _notice_end(self) -> None:
        """Before a case: whether its interpreter has ended since its last answer."""
        if self.life is not None and self._life_now() != self.life:
            self.is_fresh, self.ended_at = True, self.last_at

    def _leave_bare(self) -> bool:
        """Whether the last answer came of an interpreter that has nothing of what sets up, since the one before ended in the moment before it: it is ended."""
        was_bare, self.is_bare = self.is_bare, False
        if was_bare and not self.is_fresh:
            self.kept.sheet.stop(self.session)
            self.is_fresh = True
        return was_bare

    def _life_now(self) -> int:
        return self.kept.sheet.sessions[self.session].life or 0

    # ---- one case

    def _evaluate(self, at: int, case: Case) -> Result:
        self._notice_end()
        began_anew = self.is_fresh and self.has_run
        self._begin_life(at)
        if self.broken and not case.marks.is_teardown:
            return Result(f"? setting up again went wrong: {self.broken}", 0.0, began_anew=began_anew, is_lost=True)
        began, has = time.monotonic(), self._seconds_of(case)
        until = began + has
        got: List[Shown] = []
        lost: List[Shown] = []
        is_error, has_started, end, said, over, rules = False, True, "", "", 0.0, self.suite.rules_of(case)
        try:
            for cell in self.kept.cells[at]:
                answer = self._answer(cell, until)
                got.append(shown_of(answer, rules))
                is_error = is_error or bool(answer.errors)
        except Lost as ended:
            lost.append(Shown(f"? {ended.reason}"))
            end, (has_started, said) = ended.reason, self.kept.losses.of(cell)
        except Over as late:
            has_started, over = late.has_started, has
            lost.append(Shown(f"? over {has:g} s"))
        except Refused as refused:
            lost.append(Shown(f"? {refused}"))
        if at in self.kept.misfits:
            lost.append(Shown(f"? {self.kept.misfits[at]}"))
        shown, taken = joined(got + lost), time.monotonic() - began
        result = Result(shown.text, taken, began_anew=began_anew, is_error=is_error, is_lost=bool(lost), errors=shown.errors, has_started=has_started)
        return dataclasses.replace(result, end=end, said=said, over=over)

    def _seconds_of(self, case: Case) -> float:
        return case.marks.timeout or self.suite.timeout or self.plan.seconds

    def _answer(self, cell: Cell, until: float) -> Answer:
        """The answer of a cell. Raises Lost, where its interpreter ended, Over, where the time is, and Refused."""
        self.kept.losses.forget(cell)
        try:
            answer = cell.evaluate(max(0.001, until - time.monotonic()))
            life = self._life_now()
            if self.life is not None and life not in (0, self.life):
                self.ended_at, self.is_bare = self.last_at, True
            self.life = life
            return answer
        except Lost:
            self.is_fresh = True
            raise
        except TimedOut:
            is_queued = cell.turn == "queued"  # before its interpreter has greeted
            self._interrupt(cell)
            raise Over(not is_queued) from None

    def _interrupt(self, cell: Cell) -> None:
        """Ends what an interpreter is at; where it doesn't heed that, the interpreter."""
        self.kept.sheet.interrupt(self.session)
        evaluation = cell.evaluation
        try:
            if evaluation is not None:
                evaluation.result(GRACE)
        except TimedOut:
            self.kept.sheet.stop(self.session)
            self.is_fresh = True
        except Lost:
            self.is_fresh = True

    # ---- what an interpreter has to know before it

    def _begin_life(self, at: int) -> None:
        """Where its interpreter starts empty and did so before, what sets up in front of this case is evaluated once more."""
        if self.is_fresh:
            self.broken, self.life = "", None
        if self.is_fresh and self.has_run:
            places = self.suite.of(self.session)
            self._replay([one for one in places[: places.index(at)] if self.suite.cases[one].marks.is_setup])
        self.is_fresh, self.has_run = False, True

    def _replay_past(self, past: List[int], needed: List[int]) -> None:
        """Brings a new interpreter to where that of the run that was cut off stood: what set up before the last case in which an
        interpreter ended, and all after that; of both what is needed."""
        cut = max((place for place, at in enumerate(past) if self._was_lost(at)), default=-1)
        self.has_run, self.is_fresh, self.ended_at = True, cut + 1 == len(past), past[cut] if cut >= 0 else None
        after = frozenset(past[cut + 1 :])
        for at in needed if after else []:
            if self.suite.cases[at].marks.is_setup or at in after:
                self._replay_case(at)

    def _replay_case(self, at: int) -> None:
        """Evaluates a case only for those after it."""
        self._notice_end()
        self._begin_life(at)
        self._replay([at])
        if self._leave_bare():
            self._begin_life(at)
            self._replay([at])
        self._heed_end(at)
        self.replayed += not self.suite.cases[at].is_own

    def _was_lost(self, at: int) -> bool:
        return any(cell.state != "answered" for cell in self.kept.cells[at])

    def _replay(self, places: List[int]) -> None:
        """Evaluates cases once more, in a cell of their own: what stands in theirs stays."""
        if not places:
            return
        scratch = self.kept.sheet.new(self.session)
        try:
            for at in places:
                case = self.suite.cases[at]
                until = time.monotonic() + self._seconds_of(case)
                for cell in self.kept.cells[at]:
                    scratch.set(cell.input)
                    with contextlib.suppress(Over, Refused):
                        self._look(case, self._answer(scratch, until))
        except Lost:
            pass  # the case that comes starts another one
        finally:
            scratch.remove()

    def _look(self, case: Case, answer: Answer) -> None:
        """Notes why what the tool sets up went wrong, where it did."""
        shown = shown_of(answer, self.suite.rules_of(case))
        result = Result(shown.text, 0.0, is_error=bool(answer.errors))
        if case.marks.is_setup and verdict_of(case, result, is_good(self.suite, case, result)) == BROKEN:
            self.broken = shown.text


class Turn(NamedTuple):
    place: Tuple[bool, int]
    step: Step
    chain: Chain


def run(kept: Kept, plan: Plan, tell: Callable[[int], None]) -> int:
    """Runs all cases that aren't done. Says how many were evaluated only for those after them."""
    judge_again(kept)
    chains = [Chain(kept, name, plan, tell) for name in kept.suite.sessions]
    if plan.is_side_by_side:
        with ThreadPoolExecutor(len(chains)) as pool:
            for done in [pool.submit(chain.run) for chain in chains]:
                done.result()
    else:
        for turn in sorted((turn for chain in chains for turn in chain.turns()), key=lambda turn: turn.place):
            turn.chain.take(turn.step)
    return sum(chain.replayed for chain in chains)
