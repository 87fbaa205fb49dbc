"""What is said of a text as a whole, of its sessions, and of fields without an answer."""
from typing import Iterator, List, Mapping, Optional

from tmhost import Field

from .answers import PICTURE
from .document import ENDS, Document
from .formulas import parts_of
from .lives import AT_CODE, AT_START
from .plan import Plan, Wanted

MOST_LINES = 20  # of errors, in a message
MOST_REPORTED = 5  # kinds of fences, in a message
LONGEST_INFO = 40  # characters of what stands at one
OF_R = "plot.new"  # in what R says of that, in each of its languages


def why_nothing(document: Document) -> str:
    """What is said of a text of which no fence is evaluated: an author has most likely named a session otherwise than its fences."""
    sessions = ", ".join(document.sessions) or "none; write them as `sessions: {py: [tmhost-python]}`"
    reported = [f"{ascii(info[:LONGEST_INFO])[1:-1] or 'without a word'} ({count})" for info, count in document.others.most_common(MOST_REPORTED + 1)]
    fences = ", ".join([*reported[:MOST_REPORTED], *([".."] if len(reported) > MOST_REPORTED else [])]) or "none"
    what = "each fence of a session says that it is text" if document.has_texts else "no fence is of a session"
    return f"{what}, so nothing is evaluated. Sessions in the front matter: {sessions}. Fences: {fences}"


def reason_of(wanted: Wanted) -> Optional[str]:
    """Why a field has no answer, with what isn't said in the text: where an interpreter ended."""
    if wanted.end == AT_CODE and wanted.ender is wanted:
        return f"no answer: its interpreter ended at this code (where that is meant: {{{ENDS}}} at its fence)"
    if wanted.end == AT_CODE and wanted.ender:
        return f"not evaluated, since the interpreter ended at the replay of line {wanted.ender.line}"
    return "no answer: its interpreter ended at its start" if wanted.end == AT_START and wanted.ender is wanted else wanted.failure


def later_ones(wanted: List[Wanted]) -> str:
    """What is said of the fields of a session that weren't tried."""
    first, last, name = wanted[0].line, wanted[-1].line, wanted[0].session_in_text
    if len(wanted) == 1:
        return f"1 later field of {name} isn't evaluated (line {first})"
    return f"{len(wanted)} later fields of {name} aren't evaluated (lines {first} to {last})"


def done_in(plan: Plan, replayed: Mapping[str, int], others: Mapping[str, int]) -> Iterator[str]:
    """What was done in each session of a text, which has several in the worksheet where code ends its interpreter. `replayed` is how many fields of each of those were,
    and `others` how many of these were answered otherwise than what is kept."""
    for shown, names in plan.in_text.items():
        of = [wanted for wanted in plan.wanted if wanted.session in names]
        stale = [wanted for wanted in of if not wanted.is_kept and not wanted.is_skipped]
        kept, done = sum(wanted.is_kept and not wanted.is_skipped for wanted in of), sum(wanted.is_answered for wanted in stale)
        had = sum(plan.lost_answers(name) for name in names)
        again, differing = (sum(counts.get(name, 0) for name in names) for counts in (replayed, others))
        parts = [f"{kept} kept"] if kept else []
        parts += [f"{done} evaluated" + " again" * (0 < done <= had)]
        parts += [f"{len(stale) - done} without an answer"] if done < len(stale) else []
        parts += [f"{again} replayed"] if again else []
        if stale:
            yield f"{shown}: {', '.join(parts)}"
        if differing:
            yield f"{shown}: {differing} kept answers aren't those of the replay; --all evaluates all again"


def said_of_errors(errors: List[Wanted]) -> str:
    """How many there are, and in which lines their code stands. Where no field was evaluated for one, its cause may be gone by now."""
    lines = [str(wanted.line) for wanted in errors]
    where = ", ".join([*lines[:MOST_LINES], *([".."] if len(lines) > MOST_LINES else [])])
    kept = "; kept from an earlier weave: --all evaluates all again" if all(wanted.is_kept for wanted in errors) else ""
    return (f"1 error: line {where}" if len(lines) == 1 else f"{len(lines)} errors: lines {where}") + kept


def has_picture(field: Optional[Field]) -> bool:
    return bool(field and field.answer and any(kind == PICTURE for _, kind in parts_of(field.answer.output) or ()))


def draws_on(wanted: Wanted, plan: Plan, fields: Mapping[int, Field]) -> bool:
    """Whether lines after one that shows a figure are most likely meant to draw on it: in Python, unless the line shows it by a call; in Octave, where each
    line that draws has a figure of its own; in R, where what draws on a figure is an error when there is none."""
    language = wanted.fence.language
    later = [fields.get(one.id or 0) for one in plan.after_in_fence(wanted)]
    if language == "R":
        return any(field and field.answer and field.answer.errors and OF_R in field.answer.brief for field in later)
    return any(map(has_picture, later)) if language == "octave" else language == "python" and bool(later) and "show(" not in wanted.input


def early(plan: Plan, fields: Mapping[int, Field]) -> Iterator[int]:
    """The first line of each fence that leaves a figure open, where others come after it: it is shown with that line, as far as it is drawn."""
    reported = set()
    for wanted in plan.wanted:
        if wanted.fence.begin not in reported and has_picture(fields.get(wanted.id or 0)) and draws_on(wanted, plan, fields):
            reported.add(wanted.fence.begin)
            yield wanted.line
