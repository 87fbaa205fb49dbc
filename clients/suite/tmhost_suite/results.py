"""What can come of a case, and what is known of an interpreter that ended in one."""
import dataclasses
import re
import threading
from typing import Dict, NamedTuple, Optional, Set, Tuple

from tmhost import Answered, Banner, Cell, Ended, Event, Partial, Stopped, Worksheet
from tmhost.starting import LONGEST_TAIL, last_lines

# The verdicts: of what is as wanted, of what isn't, and of what is the tool's own and went wrong.
PASSED = ("ok", "flaky", "xfail", "skip", "setup")
WITHOUT_ANSWER = ("ended", "over")  # an interpreter ended, or a time was over: a wrong answer is none of these
WRONG = ("differs", "new", "xpass", *WITHOUT_ANSWER)
BROKEN = "broken"

PATIENCE = 10.0  # seconds; what is reported of an end comes a moment after it
PROTOCOL = re.compile(rb"\x02[^:#]*[:#]|[\x05\x1b]")  # what begins and ends blocks, beside their text


@dataclasses.dataclass
class Result:
    """What came of a case. These names are those in the notes of a run, which may be one of an earlier version that was cut off: so they stay."""

    got: str  # what is compared: the answers of its fields, or why there is none
    seconds: float  # that it took
    tries: int = 1  # how often it was evaluated
    began_anew: bool = False  # its interpreter was started for it, other than for the first case of its session
    is_error: bool = False  # an answer is an error, or has one
    is_lost: bool = False  # a field has no answer
    errors: str = ""  # those that are apart
    verdict: str = ""  # one of the above
    has_started: bool = True  # its interpreter came so far that it could have given an answer
    after_end: Optional[int] = None  # the place of the case that ended the interpreter of its session before, with which went what it may need
    end: str = ""  # why its interpreter ended in it, as "Ended"
    said: str = ""  # what that had written last
    over: float = 0.0  # the seconds that it had, where its time was over


# The names that notes didn't have at first, with what they are mostly.
LATER: Dict[str, object] = {"has_started": True, "after_end": None, "end": "", "said": "", "over": 0.0}


class Loss(NamedTuple):
    """What is known of a line that was lost."""

    has_started: bool  # its interpreter was ready, which greets then
    said: str  # the last lines that it wrote after its last answer: what adapters pass on of standard error, and of an answer that didn't come to its end


class Losses:
    """What is known of the lines of a worksheet that were lost, by what its program reports."""

    def __init__(self, sheet: Worksheet) -> None:
        self._greeted: Set[Tuple[str, int]] = set()  # the lives of sessions that were ready
        self._written: Dict[str, bytes] = {}  # of each session since its last answer
        self._lost: Dict[int, Loss] = {}  # by the number of a cell
        self._came = threading.Condition()
        sheet.listen(self._take)

    def _take(self, event: Event) -> None:
        with self._came:
            if isinstance(event, Partial):
                self._written[event.session] = (self._written.get(event.session, b"") + event.data)[-LONGEST_TAIL:]
            elif isinstance(event, Banner):
                self._greeted.add((event.session, event.life))
                self._written.pop(event.session, None)
            elif isinstance(event, Answered):
                self._written.pop(event.session, None)
            elif isinstance(event, (Ended, Stopped)):
                said = PROTOCOL.sub(b"", self._written.pop(event.session, b"")).decode("utf-8", "backslashreplace")
                for item in event.lost:
                    self._lost[item.id] = Loss((event.session, event.life) in self._greeted, last_lines(said))
                self._came.notify_all()

    def forget(self, cell: Cell) -> None:
        """Before a cell is evaluated: what was lost of it before isn't meant."""
        with self._came:
            self._lost.pop(cell.id, None)

    def of(self, cell: Cell) -> Loss:
        """Of a cell whose line was lost. What is reported to listeners comes a moment later than what is reported to who waits."""
        with self._came:
            self._came.wait_for(lambda: cell.id in self._lost, PATIENCE)
            return self._lost.pop(cell.id, Loss(True, ""))
