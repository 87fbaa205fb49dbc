"""What came of a run, for people: differences, counts, the slowest cases, and on a terminal how far it is."""
import sys
import threading
from typing import Dict, List, Set, TextIO, Tuple

from tmhost.starting import doubt, why_it_ends

from .reports import Reported, printable
from .results import WITHOUT_ANSWER

COLOURS = {"-": "31", "+": "32", "@": "36"}
BOLD = "1"
ORDER = ("ok", "flaky", "xfail", "skip", "differs", "new", "xpass", *WITHOUT_ANSWER)
SILENT = ("? Ended", "? StartRefused", "? Stalled", "? over ")  # how what came of a case without an answer begins
CLEAR = "\r\x1b[K"
LONGEST, MOST = 500, 200  # characters of a line, and lines of a text, that a person is shown


def cut(line: str) -> str:
    """A line for people: of a long one its beginning and its end. The reports have it whole."""
    left = len(line) - LONGEST
    return line if left <= 0 else f"{line[: LONGEST // 2]} [{left:,} characters left out] {line[-(LONGEST // 2) :]}"


def shortened(lines: List[str]) -> List[str]:
    """Lines for people: of many the first and the last ones, and of long ones as much."""
    left = len(lines) - MOST
    if left > 0:
        lines = [*lines[: MOST // 2], f"[{left:,} lines left out]", *lines[-(MOST // 2) :]]
    return [cut(line) for line in lines]


class Teller:
    def __init__(self, out: TextIO, progress: TextIO) -> None:
        self.out, self.progress = out, progress
        self.has_colours = out.isatty()
        self.shows_progress = progress.isatty()
        self.lock = threading.Lock()
        self.done, self.all = 0, 0

    def begin(self, count: int) -> None:
        self.all = count

    def one_more(self) -> None:
        with self.lock:
            self.done += 1
            if self.shows_progress:
                self.progress.write(f"{CLEAR}{self.done} of {self.all}")
                self.progress.flush()

    def end_progress(self) -> None:
        if self.shows_progress:
            self.progress.write(CLEAR)
            self.progress.flush()

    def painted(self, text: str, colour: str) -> str:
        return f"\x1b[{colour}m{text}\x1b[0m" if self.has_colours and colour else text

    def say(self, line: str) -> None:
        self.out.write(line + "\n")

    def tell(self, reported: Reported) -> None:
        """A case that is wrong, with its difference, or one of which more is said than that it is counted."""
        remark = f" ({reported.remark})" if reported.remark else ""
        # A wrong answer is what is wanted to come of it, and none came.
        lost = f", {reported.lost_as}" if reported.verdict == "xfail" and reported.is_lost else ""
        self.say(self.painted(printable(cut(f"{reported.verdict}{', an error' if reported.is_error else ''}{lost}: {reported.name}{remark}")), BOLD))
        if reported.verdict == "xpass":
            self.say("  it is wanted to fail, and passes")
        if reported.said:
            self.say(printable(f"  before it ended its interpreter had written: {reported.said}"))
        for line in shortened(reported.diff[2:] if reported.differs_in_text else reported.diff):
            self.say("  " + self.painted(printable(line), COLOURS.get(line[:1], "")))

    def tell_unstarted_sessions(self, all_reported: List[Reported]) -> None:
        """The sessions whose interpreter didn't start, since what that said of it stands nowhere."""
        sessions: Dict[Tuple[str, str], List[Reported]] = {}
        for reported in all_reported:
            if reported.result:
                sessions.setdefault((reported.suite.path, reported.case.session), []).append(reported)
        for (path, name), own in sessions.items():
            if any(reported.is_wrong and not reported.has_started for reported in own):
                words = own[0].suite.sessions[name]
                named = doubt(words) if "/" not in words[0] else None  # a path is that in the folder in which it is started
                why = named or why_it_ends(words, own[0].suite.folder) or f"do its words start an interpreter here? {' '.join(words)}"
                is_silent = all(reported.got.startswith(SILENT) for reported in own)
                what = f"no case of the session {name} has an answer" if is_silent else f"the session {name} didn't start for each of its cases"
                self.say(printable(f"{path}: {what}: {why}"))

    def tell_slowest(self, all_reported: List[Reported], count: int) -> None:
        slowest = sorted((reported for reported in all_reported if reported.result), key=lambda reported: -reported.seconds)[:count]
        for reported in slowest:
            self.say(printable(f"{reported.seconds:9.3f} s  {reported.name}"))

    def tell_idle_rules(self, all_reported: List[Reported]) -> None:
        """The rules that found nothing, of each suite of which all cases were run."""
        by_suite: Dict[str, List[Reported]] = {}
        for reported in all_reported:
            by_suite.setdefault(reported.suite.path, []).append(reported)
        for path, own in by_suite.items():
            if any(reported.verdict == "out" for reported in own):
                continue
            rules, applied = own[0].suite.rules, applied_in(own)
            for at, normal in enumerate(rules.normal):
                if at not in applied:
                    self.say(printable(f"{path}: the rule {normal.pattern.pattern!r} found nothing"))
            for reported in own:
                self._tell_own_idle_rules(reported)

    def _tell_own_idle_rules(self, reported: Reported) -> None:
        applied = applied_in([reported])
        first = len(reported.suite.rules.normal)
        for at, normal in enumerate(reported.case.marks.normal, first):
            if reported.result and at not in applied:
                self.say(printable(f"{reported.name}: its rule {normal.pattern.pattern!r} found nothing"))

    def tell_normalised(self, reported: Reported) -> None:
        """What the rules made of what came, where they changed it."""
        normalised = reported.suite.rules_of(reported.case).normalised(reported.got, set())
        if normalised != reported.got:
            self.say(printable(f"normalised: {reported.name}"))
            for line in shortened(normalised.split("\n")):
                self.say("  " + printable(line))

    def tell_counts(self, all_reported: List[Reported], replayed: int, seconds: float) -> None:
        counts: Dict[str, int] = {}
        for reported in all_reported:
            counts[reported.verdict] = counts.get(reported.verdict, 0) + 1
        parts = [f"{counts[verdict]} {verdict}" for verdict in ORDER if counts.get(verdict)]
        left_out = counts.get("out", 0)
        more = (f", {left_out} left out" if left_out else "") + (f", {replayed} replayed" if replayed else "")
        self.say(f"{', '.join(parts) or 'no cases'}{more} in {seconds:.1f} s")


def applied_in(all_reported: List[Reported]) -> Set[int]:
    """The places of the rules that found something."""
    applied: Set[int] = set()
    for reported in all_reported:
        for text in (reported.case.wanted or "", reported.case.errors or "", reported.got, reported.errors):
            reported.suite.rules_of(reported.case).normalised(text, applied)
    return applied


def standard(has_output: bool = True) -> Teller:
    """One of the program's own streams. It has standard output, or a report has."""
    return Teller(sys.stdout if has_output else sys.stderr, sys.stderr)
