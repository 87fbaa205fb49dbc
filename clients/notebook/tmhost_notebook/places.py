"""The order of the cells, and which of their answers are stale, kept so that a change costs no time for cells that it doesn't touch.

An answer is stale when the inputs of its session up to its own are others than when it was asked: a cell above it was changed, made, moved or
removed since. (A change of its own input takes an answer away.) Such a row of inputs has a number, its chain, which one more input makes
`chain * BASE + hash`, modulo a prime. The cells stand in blocks, and a block knows for which chain in front of it an answer in it is fresh. So a
change goes through its own block, and asks each later one for two numbers.
"""

import secrets
from typing import Dict, Iterable, Iterator, List, Optional, Set

from tmhost import Field

Chain = int

PRIME = 2**61 - 1
BASE = 2 + secrets.randbelow(PRIME - 3)
INVERSE: int = pow(BASE, -1, PRIME)
LONGEST = 128  # cells of a block


class Place:
    """A cell at its place. `asked` is the chain of its answer, None where that isn't known."""

    __slots__ = ("id", "session", "input", "is_answered", "asked")

    def __init__(self, field: Field, asked: Optional[Chain]) -> None:
        self.id, self.session = field.id, field.session
        self.input, self.is_answered = field.input, field.state == "answered"
        self.asked = asked if self.is_answered else None


class Part:
    """The cells of one session in a block."""

    def __init__(self, places: Iterable[Place], before: Chain) -> None:
        self.before = before  # the chain in front of the block
        self.number, self.power = 0, 1
        self._fresh: Dict[Chain, Set[int]] = {}  # for each chain in front of the block, the cells whose answers are fresh then
        inverse = 1
        for place in places:
            self.number = longer(self.number, place.input)
            self.power = self.power * BASE % PRIME
            inverse = inverse * INVERSE % PRIME
            if place.is_answered and place.asked is not None:
                self._fresh.setdefault((place.asked - self.number) * inverse % PRIME, set()).add(place.id)

    @property
    def end(self) -> Chain:
        """The chain after the block."""
        return (self.before * self.power + self.number) % PRIME

    def fresh(self, before: Chain) -> Set[int]:
        return self._fresh.get(before, NONE)

    @property
    def is_fresh(self) -> Set[int]:
        return self.fresh(self.before)


NONE: Set[int] = set()


def longer(chain: Chain, input: str) -> Chain:
    return (chain * BASE + hash(input) + 1) % PRIME  # no empty input counts for nothing


class Block:
    def __init__(self, places: List[Place]) -> None:
        self.places = places
        self.parts: Dict[str, Part] = {}

    def of(self, session: str) -> Iterator[Place]:
        return (place for place in self.places if place.session == session)


class Places:
    """Each change gives the cells that are stale by it, or are so no more."""

    def __init__(self, fields: Iterable[Field]) -> None:
        """Of answers that are there already it is known that they are stale where a cell above has none."""
        last: Dict[str, Chain] = {}
        unanswered: Set[str] = set()
        self._of: Dict[int, Place] = {}
        for field in fields:
            last[field.session] = longer(last.get(field.session, 0), field.input)
            if field.state != "answered" and field.input.strip():
                unanswered.add(field.session)
            self._of[field.id] = Place(field, None if field.session in unanswered else last[field.session])
        places = list(self._of.values())
        self._blocks = [Block(places[at : at + LONGEST // 2]) for at in range(0, len(places), LONGEST // 2)] or [Block([])]
        self._block_of = {place.id: block for block in self._blocks for place in block.places}
        for at in range(len(self._blocks)):
            self._make_parts(at)

    # ---- what is asked

    def __contains__(self, id: int) -> bool:
        return id in self._of

    @property
    def ids(self) -> List[int]:
        return [place.id for block in self._blocks for place in block.places]

    def __len__(self) -> int:
        return len(self._of)

    def place(self, id: int) -> int:
        """How many cells stand in front of one."""
        block = self._block_of[id]
        return sum(len(one.places) for one in self._blocks[: self._blocks.index(block)]) + block.places.index(self._of[id])

    def at(self, place: int) -> int:
        """The cell at a place, 0 where that is in front of the first one."""
        for block in self._blocks if place >= 0 else ():
            if place < len(block.places):
                return block.places[place].id
            place -= len(block.places)
        return 0

    def before(self, id: int) -> int:
        """The cell in front of one, 0 where it is the first."""
        return self.at(self.place(id) - 1)

    def in_order(self, ids: Iterable[int]) -> List[int]:
        blocks = {block: number for number, block in enumerate(self._blocks)}
        return sorted(ids, key=lambda id: (blocks[self._block_of[id]], self._block_of[id].places.index(self._of[id])))

    def chain(self, id: int) -> Chain:
        """Of the inputs up to a cell's own."""
        block, session = self._block_of[id], self._of[id].session
        chain = block.parts[session].before
        for place in block.of(session):
            chain = longer(chain, place.input)
            if place.id == id:
                break
        return chain

    def answered_by(self, id: int) -> Optional[str]:
        """The session of a cell that has an answer."""
        place = self._of[id]
        return place.session if place.is_answered else None

    def is_stale(self, id: int) -> bool:
        place = self._of[id]
        return place.is_answered and id not in self._block_of[id].parts[place.session].is_fresh

    # ---- what is changed

    def put(self, field: Field, after: int) -> Set[int]:
        """A new cell, after another one or first."""
        place = self._of[field.id] = Place(field, None)
        return self._put(place, after)

    def _put(self, place: Place, after: int) -> Set[int]:
        block = self._block_after(after)
        block.places.insert(self._number_after(block, after), place)
        self._block_of[place.id] = block
        touched = self._renew(block, place.session)
        if len(block.places) > LONGEST:
            self._split(block)
        return touched

    def drop(self, id: int) -> Set[int]:
        touched = self._take_out(self._of[id])
        del self._of[id]
        return touched

    def move(self, id: int, after: int) -> Set[int]:
        place, block = self._of[id], self._block_of[id]
        if block is self._block_after(after):  # what lies below has the same in front of it
            block.places.remove(place)
            block.places.insert(self._number_after(block, after), place)
            return self._renew(block, place.session)
        was_stale = self.is_stale(id)
        touched = self._take_out(place) ^ self._put(place, after)
        touched.discard(id)
        return touched | {id} if self.is_stale(id) != was_stale else touched

    def _block_after(self, after: int) -> Block:
        return self._block_of[after] if after in self._of else self._blocks[0]

    def _number_after(self, block: Block, after: int) -> int:
        return block.places.index(self._of[after]) + 1 if after in self._of else 0

    def _take_out(self, place: Place) -> Set[int]:
        block = self._block_of.pop(place.id)
        block.places.remove(place)
        touched = self._renew(block, place.session)
        if not block.places and len(self._blocks) > 1:
            self._blocks.remove(block)
        return touched

    def know(self, field: Field, asked: Optional[Chain]) -> Set[int]:
        """What a cell is now; `asked` is the chain of its answer, None where it is the one that it had."""
        place = self._of[field.id]
        now = Place(field, place.asked if asked is None else asked)
        if (place.input, place.is_answered, place.asked) == (now.input, now.is_answered, now.asked):
            return set()
        place.input, place.is_answered, place.asked = now.input, now.is_answered, now.asked
        return self._renew(self._block_of[field.id], place.session)

    # ---- blocks

    def _chain_before(self, at: int, session: str) -> Chain:
        parts = (self._blocks[number].parts.get(session) for number in range(at - 1, -1, -1))
        return next((part.end for part in parts if part is not None), 0)

    def _make_parts(self, at: int) -> None:
        block = self._blocks[at]
        block.parts = {name: Part(block.of(name), self._chain_before(at, name)) for name in {place.session for place in block.places}}

    def _split(self, block: Block) -> None:
        at, half = self._blocks.index(block), len(block.places) // 2
        further = Block(block.places[half:])
        del block.places[half:]
        self._blocks.insert(at + 1, further)
        self._block_of.update((place.id, further) for place in further.places)
        self._make_parts(at)
        self._make_parts(at + 1)

    def _renew(self, block: Block, session: str) -> Set[int]:
        """A session has other cells in a block."""
        at, old = self._blocks.index(block), block.parts.pop(session, None)
        part = Part(block.of(session), self._chain_before(at, session))
        if part.power != 1:
            block.parts[session] = part
        touched = (old.is_fresh if old else NONE) ^ part.is_fresh
        return touched | self._go_on(at + 1, session, part.end)

    def _go_on(self, at: int, session: str, chain: Chain) -> Set[int]:
        """From a block on another chain stands in front."""
        touched: Set[int] = set()
        for number in range(at, len(self._blocks)):
            part = self._blocks[number].parts.get(session)
            if part is None:
                continue
            if part.before == chain:
                break
            touched |= part.is_fresh ^ part.fresh(chain)
            part.before = chain
            chain = part.end
        return touched
