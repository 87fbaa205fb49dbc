"""Steps: changes of several cells at once, each of which can be taken back and done again.

The changes of a step are done as a whole: whatever ends the program in the middle, all of it is there then, or none. A step of more than 1,024 changes is
done in several parts: what it makes is on the disk before it gives other texts, and these are before it removes anything. A text of it may be there twice then,
and none is lost.
"""

import dataclasses
from typing import TYPE_CHECKING, Dict, Iterable, List, NamedTuple, Optional, Sequence, Set as SetOf, Tuple

from tmhost import Answer, Change, Field, Refused, Undone
from tmhost.commands import Move, New, Remove, Set, input_of, length_of
from tmhost.together import MOST_CHANGES

from . import prose
from .asked import NotDone
from .telling import text_of

if TYPE_CHECKING:
    from .book import Book

MOST_STEPS = 200  # that can be taken back
MOST_CELLS = 10_000
LONGEST = 4_095  # bytes of an input


class NotFit(NotDone):
    """A step can't be done, and nothing of it is. `name` is that of a refusal, which says it to people where nothing is said here."""

    def __init__(self, name: str, says: str = "") -> None:
        super().__init__(name, says)


@dataclasses.dataclass(frozen=True)
class Made:
    """A cell to be made after another one, or at a place where that isn't there any more. `was` is the cell that it was before, `number` its number among
    those that are removed, and `old` is shown as its earlier answer."""

    after: int
    session: Optional[str]  # None for prose, whose session is made where there is none
    text: str
    place: int = 0
    old: Optional[Answer] = None
    was: int = 0
    number: int = 0


@dataclasses.dataclass(frozen=True)
class Given:
    """A cell that has the text `base` and is to have another one."""

    id: int
    base: str
    text: str
    old: Optional[Answer] = None


@dataclasses.dataclass(frozen=True)
class Step:
    what: str  # as it is reported to people
    made: Sequence[Made] = ()
    given: Sequence[Given] = ()
    moved: Sequence[Tuple[int, int]] = ()  # cells, and after which one each is put
    removed: Sequence[int] = ()


class Came(NamedTuple):
    """What came of a step: the cells that it made or changed, and those that are gone by it."""

    ids: List[int]
    gone: Sequence[int]


class Steps:
    """The steps of a worksheet, to be used with the book's `order`."""

    def __init__(self, book: "Book") -> None:
        self.book = book
        self.past: List[Step] = []
        self.ahead: List[Step] = []
        self.returned: SetOf[int] = set()  # numbers of removed cells that were brought back by themselves
        self._now: Dict[int, int] = {}  # cells that were removed and came back, with the number that they have now

    # ---- what is done

    def do(self, step: Step) -> Came:
        """Does a step, which can be taken back."""
        back, ids = self._done(step)
        self.past.append(back)
        del self.past[:-MOST_STEPS]
        self.ahead.clear()
        return Came(ids, step.removed)

    def go(self, is_back: bool) -> Tuple[str, Came]:
        """Takes the last step back, or does the last one again that was taken back. One that can't be isn't tried a second time."""
        steps, others = (self.past, self.ahead) if is_back else (self.ahead, self.past)
        if not steps:
            raise NotFit("NotThere", f"there is nothing to {'take back' if is_back else 'do again'}")
        step = self._as_now(steps.pop())
        other, ids = self._done(step)
        others.append(other)
        return step.what, Came(ids, step.removed)

    def id_now(self, id: int) -> int:
        while id in self._now:
            id = self._now[id]
        return id

    def _as_now(self, step: Step) -> Step:
        """A step of earlier, with the numbers that its cells have now. What was brought back by itself isn't made again."""
        there = self.book.places
        made = [dataclasses.replace(one, after=self.id_now(one.after)) for one in step.made if one.number not in self.returned]
        given = [dataclasses.replace(one, id=self.id_now(one.id)) for one in step.given]
        pairs = [(self.id_now(id), self.id_now(after)) for id, after in step.moved]
        moved = [(id, after) for id, after in pairs if id in there and (after == 0 or after in there)]
        removed = [id for id in map(self.id_now, step.removed) if id in there]
        return Step(step.what, made, given, moved, removed)

    # ---- one step

    def _done(self, step: Step) -> Tuple[Step, List[int]]:
        """Does a step, and gives the one that takes it back."""
        self._refuse(step)
        book = self.book
        fields = {id: book.sheet.cell(id).field for id in (*(one.id for one in step.given), *step.removed)}
        back, places = self._back(step, fields), {id: book.places.place(id) for id in step.removed}
        changes = self._changes(step)
        reported, refused = self._send(changes, fields)
        ids = [one for one in reversed(reported) if one is not None]
        book.settle(lambda: self._is_heard(changes[: len(reported)]))
        self._bin([fields[change.id] for change in changes[: len(reported)] if isinstance(change, Remove)], places)
        if refused:
            self._take_back(step, ids, changes[: len(reported)])
            raise NotFit(name_of(refused))
        self._note(step, ids, fields)
        numbers = {one["field"].id: one["number"] for one in book.removed}
        made = [dataclasses.replace(one, number=numbers.get(one.was, 0)) for one in back.made]
        self._tell([*ids, *(one.id for one in step.given)])
        return dataclasses.replace(back, made=made, removed=ids), ids or [one.id for one in step.given] or [id for id, _ in step.moved]

    def _refuse(self, step: Step) -> None:
        book = self.book
        texts = [*(one.text for one in step.made), *(one.text for one in step.given)]
        if any(length_of(text) > LONGEST or not is_fit(text) for text in texts):
            raise NotFit("BadInput")
        if any(one.session is not None and one.session not in book.sheet.sessions for one in step.made):
            raise NotFit("NoSession")
        if len(book.places) + len(step.made) > MOST_CELLS:
            raise NotFit("TooManyFields")
        if any(one.after and one.after not in book.places and not one.was for one in step.made):
            raise NotFit("NoField")
        if any(id not in book.places or (after and after not in book.places) for id, after in step.moved):
            raise NotFit("NoField")
        for id in (*(one.id for one in step.given), *step.removed):
            field = book.field(id)
            if field is None:
                raise NotFit("NoField")
            if book.waits(field):
                raise NotFit("InFlight", f"cell {id} waits for its answer, so nothing is done")
        for one in step.given:
            if one.id in book.drafts.of:
                raise NotFit("Elsewhere", f"cell {one.id} has a draft, so nothing is done")
            if text_of(book.sheet.cell(one.id).field) != one.base:
                raise NotFit("Elsewhere", f"cell {one.id} was changed since, so nothing is done")

    def _back(self, step: Step, fields: Dict[int, Field]) -> Step:
        """The step that takes one back, but for the cells that this makes."""
        places, afters, made = self.book.places, {0: 0}, []
        for id in places.in_order(step.removed):
            before = places.before(id)
            afters[id] = afters[before] if before in step.removed else before
            made.append(Made(afters[id], fields[id].session, text_of(fields[id]), places.place(id), self._old(fields[id]), id))
        given = [Given(one.id, one.text, one.base, self._old(fields[one.id])) for one in step.given]
        moved = [(id, places.before(id)) for id in places.in_order({id for id, _ in step.moved})]
        return Step(step.what, made, given, moved)

    def _old(self, field: Field) -> Optional[Answer]:
        note = self.book.notes.of.get(field.id)
        return field.answer or (note.old if note else None)

    # ---- its changes

    def _changes(self, step: Step) -> List[Change]:
        """New cells, the last one first: of those that stand after the same one each is put in front of the one before. Then texts, places, removals."""
        book = self.book
        afters = [one.after if one.after in book.places else 0 if one.after == 0 else book.places.at(min(one.place, len(book.places)) - 1) for one in step.made]
        named = prose.name_in(book.sheet.sessions)
        made = [New(after, named if one.session is None else one.session, input_of(one.text)) for after, one in reversed([*zip(afters, step.made)])]
        sessions = prose.missing_in(book.sheet.sessions) if any(one.session is None for one in step.made) else []
        given = [Set(one.id, input_of(one.text)) for one in step.given]
        return [*sessions, *made, *given, *self._moves(step.moved, made), *(Remove(id) for id in step.removed)]

    def _moves(self, moved: Sequence[Tuple[int, int]], made: Sequence[New]) -> List[Move]:
        """Those of cells that don't stand there already, after these new ones: such a move would be refused."""
        order, moves = self.book.places.ids if moved else [], []
        for number, one in enumerate(made if moved else ()):
            order.insert(order.index(one.after) + 1 if one.after else 0, self.book.sheet.next_id + number)
        for id, after in moved:
            at = order.index(id)
            if after not in (id, order[at - 1] if at else 0):
                del order[at]
                order.insert(order.index(after) + 1 if after else 0, id)
                moves.append(Move(id, after))
        return moves

    def _send(self, changes: Sequence[Change], doubtful: Iterable[int]) -> Tuple[List[Optional[int]], Optional[Undone]]:
        """Does changes as a whole; what one transaction doesn't hold goes into the next. Gives the numbers of new cells, None for another change, up to where a
        transaction was refused. Where the program ends in the middle, the cells stay in doubt until the worksheet is opened again."""
        self.book.in_doubt = set(doubtful)
        reported: List[Optional[int]] = []
        refused = None
        while len(reported) < len(changes) and not refused:
            try:
                reported += self.book.sheet.together(*changes[len(reported) : len(reported) + MOST_CHANGES])
            except Undone as undone:
                refused = undone
        self.book.in_doubt = set()
        return reported, refused

    def _is_heard(self, changes: Sequence[Change]) -> bool:
        """What was done last to the order is known, and so is what was done before it."""
        places = self.book.places
        last = next((one for one in reversed(changes) if isinstance(one, (New, Move, Remove))), None)
        if isinstance(last, Move):
            return places.before(last.id) == last.after
        return last is None or last.id is None or (last.id in places) == isinstance(last, New)

    def _take_back(self, step: Step, ids: Sequence[int], done: Sequence[Change]) -> None:
        """Undoes what was done of a step in front of a transaction that was refused: its new cells and texts. What was removed is in the list."""
        bases = {one.id: input_of(one.base) for one in step.given}
        self._send([*(Set(one.id, bases[one.id]) for one in done if isinstance(one, Set)), *(Remove(id) for id in ids)], ())

    def _bin(self, gone: Iterable[Field], places: Dict[int, int]) -> None:
        for field in gone:
            self.book.bin(field, places[field.id])

    def _note(self, step: Step, ids: Sequence[int], fields: Dict[int, Field]) -> None:
        """The earlier answers of what a step made and changed."""
        with self.book.lock:
            for id, one in zip(ids, step.made):
                if one.old:
                    self.book.notes.of[id].old = one.old
                if one.was:
                    self._now[one.was] = id
            for given in step.given:
                self.book.notes.of[given.id].old = given.old or self._old(fields[given.id])
        for one in step.made:
            self.book.unbin(one.number) if one.number else None

    def _tell(self, ids: Sequence[int]) -> None:
        self.book.changes += 1
        self.book.touch(*(id for id in ids if id in self.book.places))


def name_of(undone: Undone) -> str:
    """The refusal of the change for which nothing was done."""
    return undone.why.name if isinstance(undone.why, Refused) else "BadInput"


def is_fit(text: str) -> bool:
    return all(character >= " " or character in "\t\n" for character in text)
