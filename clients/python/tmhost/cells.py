"""What the cells of both kinds of worksheet have: the members of their field as it is now."""

import operator
from typing import Any, List, Optional, SupportsIndex, Union

from .errors import Gone
from .values import Answer, Block, Field, Text, Turn


class CellView:
    """A cell of an open worksheet. Its members are those of the moment at which they are read, and raise Gone where it was removed; who
    reads several takes `field`, which is one moment's."""

    def __init__(self, worksheet: Any, id: int) -> None:
        self._worksheet, self.id = worksheet, id

    def __eq__(self, other: object) -> bool:
        return isinstance(other, CellView) and self._worksheet is other._worksheet and self.id == other.id

    def __hash__(self) -> int:
        return hash((id(self._worksheet), self.id))

    def __repr__(self) -> str:
        return f"<{type(self).__name__} {self.id} of {self._worksheet.path!r}>"

    @property
    def field(self) -> Field:
        found: Field = self._worksheet._field(self.id)
        return found

    @property
    def exists(self) -> bool:
        """Whether it wasn't removed."""
        try:
            self.field
        except Gone:
            return False
        return True

    @property
    def session(self) -> str:
        return self.field.session

    @property
    def input(self) -> str:
        """The input as the worksheet has it: one line, in which U+2028 stands for the ends of lines."""
        return self.field.input

    @property
    def lines(self) -> List[str]:
        """The input, cut into lines."""
        return self.field.lines

    @property
    def state(self) -> str:
        """ "empty", "waiting", "answered" or "lost"."""
        return self.field.state

    @property
    def turn(self) -> Optional[Turn]:
        """Of a cell that waits "running" where its interpreter works on its line, and "queued" where that isn't sent yet; else None. It changes
        with an event alone. (A line that can't be sent counts as running until `Ended` says so, which comes at once.)"""
        found: Optional[Turn] = self._worksheet._turn(self.id)
        return found

    @property
    def answer(self) -> Optional[Answer]:
        return self.field.answer

    @property
    def prompt(self) -> Optional[Text]:
        answer = self.answer
        return answer.prompt if answer else None

    @property
    def output(self) -> Optional[Block]:
        answer = self.answer
        return answer.output if answer else None

    @property
    def text(self) -> Optional[Text]:
        answer = self.answer
        return answer.text if answer else None

    @property
    def reason(self) -> Optional[str]:
        """Why its line was lost."""
        return self.field.reason


def id_of(worksheet: object, cell: "Union[CellView, SupportsIndex]") -> int:
    """The number of a cell, which is given as such or by its number."""
    if isinstance(cell, CellView):
        if cell._worksheet is not worksheet:
            raise ValueError(f"{cell!r} is of another worksheet")
        return cell.id
    return operator.index(cell)
