"""Which fields a text wants, and which of them the worksheet has with an answer that still holds."""
import collections
import dataclasses
import itertools
import re
from typing import Counter, Dict, Iterable, Iterator, List, Mapping, Optional, Sequence, Set, Tuple

from tmhost import Field, Session
from tmhost.values import CONTROL, LINE_END

from .document import Document, Fence
from tmhost_fences.front import Sessions

# The session that says that a worksheet is that of a text. A field of it stands in front of those of a replay. It is never started.
MARK = Session("tmhost-weave", ("true",), False)
# A field of this one says of the field before it that its code has ended its interpreter, and what that wrote before. It is never started either.
ENDED = Session("tmhost-weave-ended", ("true",), False)
NOTE = re.compile(f"field ([1-9][0-9]*) ended its interpreter(?:{LINE_END}(.*))?", re.DOTALL)
MOST_NOTED = 3_900  # bytes of what was written that a note has, of the 4,095 of an input
LEFT_OUT = "[what stands before this is left out]"
NOTHING: Mapping[str, Sequence[str]] = {}


def noted(said: str) -> str:
    """What a note can have of a text: the end of a long one, and no control characters."""
    text = CONTROL.sub(lambda found: f"\\x{ord(found[0]):02x}", said.replace(LINE_END, "\n")).rstrip("\n")
    data = text.replace("\n", LINE_END).encode("utf-8", "replace")
    if len(data) <= MOST_NOTED:
        return text
    return f"{LEFT_OUT}\n{data[-MOST_NOTED:].decode('utf-8', 'ignore')}".replace(LINE_END, "\n")


def note_of(id: int, text: str) -> str:
    """The input of the field that says of another one that it has ended its interpreter, and what that wrote, as `noted` has it."""
    return f"field {id} ended its interpreter" + (LINE_END + text.replace("\n", LINE_END) if text else "")


@dataclasses.dataclass
class Wanted:
    """A field of the text. `session` is the name that its session has in the worksheet, `line` where it stands in the text, from 1. `life` is the number of the
    interpreter that evaluates it, among those of its session, and `is_last` whether it is the last one of its fence. Where an interpreter
    has ended, `end` says when, `last_words` what it wrote then, and `ender` is the field at which it did, which is another one in a replay. `is_unstarted` says that it
    has no answer since its interpreter never started. Where it ended its interpreter as it was meant to, `said` is what that wrote, and `note` the field of the
    worksheet that says so; `is_skipped` are those after it in its fence, which aren't evaluated."""

    fence: Fence
    session: str
    input: str
    line: int
    misfit: Optional[str]
    life: int = 1
    is_last: bool = False
    id: Optional[int] = None
    is_kept: bool = False
    is_answered: bool = False  # by this weave
    failure: Optional[str] = None
    end: Optional[str] = None
    last_words: str = ""
    ender: "Optional[Wanted]" = None
    is_unstarted: bool = False
    said: Optional[str] = None
    note: Optional[int] = None
    is_skipped: bool = False

    @property
    def session_in_text(self) -> str:
        """What a user knows its session as: one with other words, of pure fences, or of a further interpreter has another name in the worksheet."""
        return f"{self.fence.session} {{pure}}" if self.fence.is_pure else self.fence.session

    def fits(self, field: Field, is_ended: bool, is_after_end: bool) -> bool:
        """Whether a field has what is wanted. `is_ended` is whether it has ended its interpreter, and `is_after_end` whether one before it in its fence has."""
        if self.misfit is not None or field.input != self.input:
            return False
        if is_after_end:
            return field.state == "empty" and not is_ended
        if is_ended:
            return self.fence.ends and field.state in ("answered", "lost")
        return field.state == "answered" and not (self.fence.ends and self.is_last)


def with_lives(fences: Iterable[Fence]) -> Iterator[Tuple[Fence, int]]:
    """Fences, each with the number of the interpreter that evaluates it, among those of its session: after code that ends one, it is another one."""
    lives: Counter[str] = collections.Counter()
    for fence in fences:
        yield fence, 1 if fence.is_pure else 1 + lives[fence.session]
        lives[fence.session] += fence.ends and not fence.is_pure


def name_in_sheet(name: str, is_pure: bool, life: int, words: Tuple[str, ...], sessions: Mapping[str, Session]) -> str:
    """Pure fences have a session of their own, and so has each further interpreter, and a session with other words, since those of a worksheet don't change. No
    session of a text has a hyphen in its name, so these names are nobody else's."""
    base = f"{name}-pure" if is_pure else f"{name}-life{life}" if life > 1 else name
    names = itertools.chain([base], (f"{base}-{number}" for number in itertools.count(2)))
    return next(name for name in names if name not in sessions or sessions[name].words == words)


class Plan:
    """`fields` are those of the worksheet that aren't left of a replay, nor notes of ends, `left` those that are of a replay, `notes` those notes, by the numbers of
    the fields that they are about. `running` is what interpreters that run have answered. `renews` is whether nothing is kept."""

    def __init__(
        self, document: Document, sessions: Mapping[str, Session], fields: Sequence[Field], running: Mapping[str, Sequence[str]] = NOTHING, renews: bool = False
    ) -> None:
        marks = [at for at, field in enumerate(fields) if field.session == MARK.name]
        end = marks[0] if marks else len(fields)
        self.fields, self.left = [field for field in fields[:end] if field.session != ENDED.name], fields[end:]
        self.all_notes = [field for field in fields[:end] if field.session == ENDED.name]
        self.notes: Dict[int, Tuple[Field, str]] = {}
        for field in self.all_notes:
            found = NOTE.fullmatch(field.input)
            if found:
                self.notes.setdefault(int(found[1]), (field, (found[2] or "").replace(LINE_END, "\n")))
        self.words: Sessions = {}
        self.wanted: List[Wanted] = []
        for fence, life in with_lives(document.fences):
            words, groups = document.sessions[fence.session], fence.groups
            name = name_in_sheet(fence.session, fence.is_pure, life, words, sessions)
            for group in groups:
                self.words[name] = words
                self.wanted.append(Wanted(fence, name, group.input, fence.begin + 2 + group.at, group.misfit, life, group is groups[-1]))
        for name in self.words if not renews else ():
            have = [field for field in self.fields if field.session == name]
            if self.of(name)[0].fence.is_pure:
                self._keep_pure(self.of(name), have)
            else:
                self._keep_first(self.of(name), have, running.get(name, ()))

    def _keep_first(self, wanted: List[Wanted], have: List[Field], running: Sequence[str]) -> None:
        """Keeps the fields in front of the first fence that is changed, and of that fence those that an interpreter which runs has answered, where these are all that
        it has answered."""
        same = self._same(wanted, have)
        if same < len(wanted):
            begin = next(at for at, one in enumerate(wanted) if one.fence is wanted[same].fence)
            goes_on = begin < len(running) <= same and list(running) == [one.input for one in wanted[: len(running)]]
            same = len(running) if goes_on else begin
        self._keep(zip(wanted[:same], have))

    def _same(self, wanted: List[Wanted], have: List[Field]) -> int:
        """How many of them the worksheet has, from the first one on."""
        ending: Optional[Fence] = None  # whose interpreter has ended
        for at, (one, field) in enumerate(zip(wanted, have)):
            is_ended = field.id in self.notes
            if not one.fits(field, is_ended, one.fence is ending):
                return at
            ending = one.fence if is_ended else ending
        return min(len(wanted), len(have))

    def _keep_pure(self, wanted: List[Wanted], have: List[Field]) -> None:
        """Keeps each field that has an answer to its text, wherever it stands."""
        by_input: Dict[str, List[Field]] = {}
        for field in have:
            by_input.setdefault(field.input, []).append(field)
        for one in wanted:
            found = by_input.get(one.input, [])
            fitting = next((at for at, field in enumerate(found) if one.fits(field, field.id in self.notes, False)), None)
            if fitting is not None:
                self._keep([(one, found.pop(fitting))])

    def _keep(self, pairs: Iterable[Tuple[Wanted, Field]]) -> None:
        ending: Optional[Fence] = None
        for one, field in pairs:
            one.id, one.is_kept, one.is_skipped = field.id, True, one.fence is ending
            if field.id in self.notes:
                ending = one.fence
                one.note, one.said = self.notes[field.id][0].id, self.notes[field.id][1]

    def of(self, session: str) -> List[Wanted]:
        return [wanted for wanted in self.wanted if wanted.session == session]

    def before(self, wanted: Wanted) -> List[Wanted]:
        """Those of its session that stand before a field."""
        return list(itertools.takewhile(lambda one: one is not wanted, self.of(wanted.session)))

    def before_in_fence(self, wanted: Wanted) -> Optional[Wanted]:
        """The one before a field, where it is of the same fence."""
        return next((one for one in self.before(wanted)[-1:] if one.fence is wanted.fence), None)

    def after_in_fence(self, wanted: Wanted) -> List[Wanted]:
        """Those of its fence that stand after a field."""
        return [one for one in self.wanted if one.fence is wanted.fence and one.line > wanted.line]

    def stale(self, session: str) -> List[Wanted]:
        return [wanted for wanted in self.of(session) if not wanted.is_kept]

    def move(self, further: Mapping[int, int]) -> None:
        """Takes the lines of a text in which each fence, by its first line, stands so many lines further down."""
        for wanted in self.wanted:
            wanted.line += further[wanted.fence.begin]

    @property
    def in_text(self) -> Dict[str, List[str]]:
        """The sessions of the worksheet, by what a user knows them as."""
        found: Dict[str, List[str]] = {}
        for name in self.words:
            found.setdefault(self.of(name)[0].session_in_text, []).append(name)
        return found

    @property
    def flowing(self) -> Set[str]:
        """Sessions whose variables flow from field to field."""
        return {wanted.session for wanted in self.wanted if not wanted.fence.is_pure}

    @property
    def is_stale(self) -> bool:
        return not all(wanted.is_kept for wanted in self.wanted)

    def lost_answers(self, session: str) -> int:
        """How many answers, and ends that were meant, the worksheet has in a session that aren't kept."""
        kept = self.kept_ids
        return sum(field.session == session and (field.state == "answered" or field.id in self.notes) and field.id not in kept for field in self.fields)

    @property
    def answered(self) -> int:
        """How many fields have by now what they are to have."""
        return sum(wanted.is_kept or wanted.is_answered or wanted.is_skipped for wanted in self.wanted)

    @property
    def kept_ids(self) -> Dict[int, Wanted]:
        return {wanted.id: wanted for wanted in self.wanted if wanted.is_kept and wanted.id is not None}

    @property
    def kept_notes(self) -> Set[int]:
        return {wanted.note for wanted in self.wanted if wanted.note is not None}
