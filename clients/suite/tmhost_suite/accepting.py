"""What came is put into the text of a suite, as far as it is what the suite is to want."""
import os
from typing import Callable, Dict, List, Optional

from tmhost_fences.troubles import Trouble
from tmhost_weave.files import put

from .reports import Reported
from .results import WITHOUT_ANSWER
from .rules import as_wanted
from .text import Text

MOST_LINES = 10  # of numbers of lines that are named


def accept(text: Optional[Text], reported: List[Reported], asks: Optional[Callable[[Reported], bool]]) -> List[str]:
    """Says what was accepted, and what wasn't and why. `asks` says of each case whether it is to be; None: all are whose answer is one, and came of all
    that stands before them."""
    if text is None:
        raise Trouble("nothing is accepted into a file of this form: --convert writes the text form")
    wrong = [at for at, one in enumerate(reported) if one.verdict in ("differs", "new", *WITHOUT_ANSWER)]
    said: List[str] = []
    if asks is None:
        lost = [at for at in wrong if reported[at].is_lost]
        bereft = [at for at in wrong if reported[at].ended_before is not None and at not in lost]
        said = why_not(text.suite.path, lost, [reported[at] for at in bereft])
        accepted = [at for at in wrong if at not in lost and at not in bereft]
    else:
        accepted = [at for at in wrong if asks(reported[at])]
    if accepted:
        write(text, {at: reported[at] for at in accepted})
        said.append(f"{text.suite.path}: {len(accepted)} accepted")
    return said


def why_not(path: str, lost: List[int], bereft: List[Reported]) -> List[str]:
    said = [f"{path}: {len(lost)} not accepted, since no answer came to a field"] if lost else []
    for line in sorted({one.ended_before for one in bereft if one.ended_before is not None}):
        own = [str(one.case.line) for one in bereft if one.ended_before == line]
        where = ", ".join(own[:MOST_LINES]) + (", .." if len(own) > MOST_LINES else "")
        said.append(f"{path}: {len(own)} not accepted, since line {line} ended their interpreter, and with it went what was set before: line{'s' if len(own) > 1 else ''} {where}")
        said.append(f"{path}: mend line {line}; or put {{setup}} at what they need, or {{independent}} at them where they need nothing; --interactive accepts them as they are")
    return said


def write(text: Text, accepted: Dict[int, Reported]) -> None:
    """Puts what came of these cases, by their places, into the text. Every other byte stays."""
    answers: Dict[int, str] = {}
    errors: Dict[int, str] = {}
    for at, one in accepted.items():
        rules = text.suite.rules_of(one.case)
        if not rules.is_wanted(one.case.wanted, one.got, set()):
            answers[at] = "\n".join(as_wanted(one.got))
        if rules.apart and not rules.is_wanted(one.case.errors, one.errors, set()):
            errors[at] = "\n".join(as_wanted(one.errors))
    new = text.checked(answers, errors)
    with open(text.suite.path, "rb") as file:
        if file.read() != "".join(text.lines).encode("utf-8"):
            raise Trouble("the text was changed while it was run: nothing is accepted")
    put(os.path.realpath(text.suite.path), new.encode("utf-8"))
