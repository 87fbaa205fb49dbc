"""Sessions whose interpreter never started: what the text shows of them stays as it stands, since nothing else is known of it."""
import dataclasses
from typing import Dict, Iterator, List

from tmhost.starting import doubt, missing_program

from .answers import Shown
from .document import Fence
from .plan import Plan


def doubts(plan: Plan) -> Iterator[str]:
    """What is said of each session that most likely has no answers."""
    for name, words in plan.words.items():
        why = doubt(words) if plan.stale(name) else None
        if why:
            yield f"{plan.of(name)[0].session_in_text}: {why}"


def note_missing(plan: Plan) -> None:
    """Of a session whose program isn't here, no field has failed by anything else."""
    missing = {name for name, words in plan.words.items() if missing_program(words)}
    for wanted in plan.wanted:
        wanted.is_unstarted |= bool(wanted.failure) and wanted.session in missing


def left(plan: Plan) -> Dict[int, Shown]:
    """What stays after fences as it stands, by the first line of each: all that weren't evaluated of sessions that show an answer there."""
    fences: List[Fence] = [wanted.fence for wanted in plan.wanted if wanted.failure and wanted.is_unstarted]
    showing = {fence.session for fence in fences if fence.old.answers}
    return {fence.begin: dataclasses.replace(fence.old, is_left=True) for fence in fences if fence.session in showing}


def said_of_left(plan: Plan, what: str) -> Iterator[str]:
    """What is said of them, of each session."""
    found = left(plan)
    counts: Dict[str, int] = {}
    for fence in {wanted.fence.begin: wanted.fence for wanted in plan.wanted}.values():
        if fence.begin in found:
            counts[fence.session] = counts.get(fence.session, 0) + fence.old.answers
    for name, count in counts.items():
        answers = "1 answer is" if count == 1 else f"{count} answers are"
        yield f"{name}: {answers} {what}"
