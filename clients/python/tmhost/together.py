"""Several changes of a worksheet that are done as a whole (docs/use/SCRIPT.md, "Commands that go together")."""

import dataclasses
from typing import List, Optional, Sequence, Union

from .commands import Clear, Command, MakeSession, Move, New, Remove, Set, bytes_of
from .errors import BadLine, ProtocolError, Refused, Undone
from .mirror import Mirror, out_of_step
from .reading import NothingDone, Refusal, Reply

MOST_CHANGES = 1_024  # that one transaction has
Change = Union[MakeSession, New, Set, Remove, Move, Clear]
Results = List[Optional[int]]


@dataclasses.dataclass
class Together(Command[Results]):
    """Changes between `begin` and `end`. What is reported of them is kept until all of it is there, so that the mirror has all of them or none."""

    changes: Sequence[Change]
    replies: List[Reply] = dataclasses.field(default_factory=list)
    undone: Optional[Undone] = None
    word = "together"

    @property
    def length(self) -> int:
        return len(self.changes) + 2

    @property
    def sent(self) -> bytes:
        return b"".join([b"begin\n", *(bytes_of(change.line) for change in self.changes), b"end\n"])

    def takes(self, place: int, reply: Reply) -> bool:
        """Takes what is reported of one of its lines, which are counted from 0; whether nothing more will be reported of them."""
        is_last = place == self.length - 1
        if isinstance(reply, NothingDone):
            return True if is_last and self.undone else out_of_step(f"that nothing of line {reply.first} and those after it was done")
        if place == 0 and reply.type == "bad":
            raise ProtocolError("this tmhost is older than the package: it knows no transactions")
        if reply.more or self.undone or place < len(self.replies):
            out_of_step(f"{reply.type!r} of line {reply.line}")
        if isinstance(reply, Refusal) or reply.type == "bad":
            self.undone = self.why(place, reply)
            return False
        if place > len(self.replies) or (place == 0 or is_last) != (reply.type == "nothing"):
            out_of_step(f"{reply.type!r} of line {reply.line}")
        self.replies.append(reply)
        return is_last

    def why(self, place: int, reply: Reply) -> Undone:
        """Why nothing is done: the change at this line of the transaction isn't."""
        if not 0 < place <= len(self.changes):
            out_of_step(f"{reply.type!r} of line {reply.line}")
        line = self.changes[place - 1].line
        return Undone(place - 1, line, Refused(reply.name, reply.number) if isinstance(reply, Refusal) else BadLine(line))

    def taken(self, mirror: Mirror, reply: Reply) -> Results:
        """After the reply to its last line."""
        results = [change.taken(mirror, reported) for change, reported in zip(self.changes, self.replies[1:])]
        return [result if isinstance(result, int) else None for result in results]
