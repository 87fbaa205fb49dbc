"""Which cases of a session are evaluated, in which order, and which of them only since others need what they set."""
from typing import Callable, Dict, List, NamedTuple, Sequence

from .cases import Case, Suite
from .results import Result


class Step(NamedTuple):
    """`is_judged` is false of a case that is replayed: evaluated only for those after it, neither compared nor reported."""

    at: int
    is_judged: bool


class Agenda(NamedTuple):
    """`past` is what a run that was cut off had done before all steps. Of that `needed` is replayed, as far as no interpreter ended after it."""

    past: List[int]
    needed: List[int]
    steps: List[Step]


def is_fixed(case: Case) -> bool:
    """Whether it is evaluated whatever is chosen."""
    return case.marks.is_setup or case.marks.is_teardown


def last(flags: Sequence[bool]) -> int:
    return max((place for place, flag in enumerate(flags) if flag), default=-1)


def agenda_of(suite: Suite, order: Sequence[int], results: Dict[int, Result], is_chosen: Callable[[int, Case], bool]) -> Agenda:
    """A case needs those before it, but where it is independent. What sets up or takes down needs what was done, and nothing that isn't chosen."""
    cases = [suite.cases[at] for at in order]
    is_done = [at in results for at in order]
    is_meant = [not done and case.marks.skip is None and (is_fixed(case) or is_chosen(at, case)) for at, done, case in zip(order, is_done, cases)]
    needs = [meant and not suite.is_independent(case) for meant, case in zip(is_meant, cases)]
    last_after_done, last_chosen = last(needs), last([need and not is_fixed(case) for need, case in zip(needs, cases)])

    def is_needed(place: int) -> bool:
        case = cases[place]
        if case.marks.skip is not None or case.marks.is_teardown:
            return False
        if case.marks.is_setup:
            return place < last(is_meant)
        return not suite.is_independent(case) and place < (last_after_done if is_done[place] else last_chosen)

    first = next((place for place, done in enumerate(is_done) if not done and (is_meant[place] or is_needed(place))), len(order))
    past = [place for place in range(first) if is_done[place]]
    steps = [Step(order[place], is_meant[place]) for place in range(first, len(order)) if is_meant[place] or is_needed(place)]
    return Agenda([order[place] for place in past], [order[place] for place in past if is_needed(place)], steps)
