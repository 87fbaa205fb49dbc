"""What the calls of the package raise."""

import errno
import os
from typing import Optional, Tuple, Type, Union


DISK = 32  # the fault of a file that can't be opened


def plain(error: BaseException) -> str:
    """What a user is shown of an error: of one of the system what is wrong and with which file, without its number."""
    if isinstance(error, OSError) and error.strerror:
        return error.strerror + (f": {os.fspath(error.filename)}" if isinstance(error.filename, (str, os.PathLike)) else "")
    return str(error)


class TmhostError(Exception):
    """The base of all errors of this package."""


class Refused(TmhostError):
    """A command was refused, and nothing was changed. docs/use/SCRIPT.md, "Refusals", has the names and numbers."""

    def __init__(self, name: str, number: int) -> None:
        super().__init__(name, number)
        self.name, self.number = name, number

    def __str__(self) -> str:
        return f"refused: {self.name} ({self.number})"


class BadLine(TmhostError):
    """The program doesn't know the line: it has more than 65,536 bytes, or a number that is negative or too large."""

    def __init__(self, line: str) -> None:
        super().__init__(line)
        self.line = line

    def __str__(self) -> str:
        return f"a bad line: {self.line[:60]!r}"


class Undone(TmhostError):
    """Of several changes that are done as a whole none was, since one of them wasn't: `place` is which one, counted from 0, `line` what was sent
    of it, and `why` what it would raise by itself."""

    def __init__(self, place: int, line: str, why: Union[Refused, BadLine]) -> None:
        super().__init__(place, line, why)
        self.place, self.line, self.why = place, line, why

    def __str__(self) -> str:
        return f"nothing was done, since {self.line[:60]!r} is {self.why if isinstance(self.why, Refused) else 'a bad line'}"


class NoScript(TmhostError):
    """No script makes the worksheet: a session has a word with a space, or there are more than 10,000 fields."""

    def __str__(self) -> str:
        return "no script makes the worksheet"


class Lost(TmhostError):
    """The interpreter ended before it answered. `reason` is one of the nine names of docs/use/SCRIPT.md, as "Ended" or "Stopped", and `words` are those
    that start it."""

    def __init__(self, reason: str, words: Tuple[str, ...] = ()) -> None:
        super().__init__(reason, words)
        self.reason, self.words = reason, words

    def __str__(self) -> str:
        return f"lost: {self.reason}"


class TimedOut(TmhostError, TimeoutError):
    """The time of a call is over. What it asked for goes on, and may be done later."""


class Gone(TmhostError, LookupError):
    """There is no cell with this number, or it was removed."""

    def __init__(self, id: int) -> None:
        super().__init__(id)
        self.id = id

    def __str__(self) -> str:
        return f"there is no cell {self.id}"


class Closed(TmhostError):
    """The worksheet was closed by `close`, or isn't open yet."""

    def __str__(self) -> str:
        return "the worksheet is closed"


class ProtocolError(TmhostError):
    """The program wrote something that isn't of the protocol. It was ended then, since nothing that it tells can be relied on."""


class Died(TmhostError):
    """The program ended by itself. What was reported before is on the disk; a call that raises this may be done or not.

    `fault`, `number` and `offset` are those of the fault that it reported (docs/use/FAULTS.md), None where it reported none. `told` is what stands on
    its standard error. `status` is its exit status, below zero where a signal ended it, None where it isn't known.
    """

    def __init__(
        self, fault: Optional[str], number: Optional[int], told: str = "", status: Optional[int] = None, offset: Optional[int] = None
    ) -> None:
        super().__init__(fault, number, told, status, offset)
        self.fault, self.number, self.told, self.status, self.offset = fault, number, told, status, offset

    def __str__(self) -> str:
        if self.fault is not None:
            at = "" if self.offset is None else f" at {self.offset}"
            return f"tmhost ended: fault {self.number} {self.fault}{at}"
        how = "without a status" if self.status is None else f"with status {self.status}" if self.status >= 0 else f"by signal {-self.status}"
        return f"tmhost ended {how}" + (f": {self.told.strip()}" if self.told.strip() else "")


class InUse(Died):
    """Another program has the worksheet (fault 35)."""


class NoWorksheet(Died, FileNotFoundError):
    """Nothing is at the path (fault 32), or not even its folder. `filename` is the path."""

    def __init__(self, path: str, told: str = "", status: Optional[int] = None) -> None:
        FileNotFoundError.__init__(self, errno.ENOENT, os.strerror(errno.ENOENT), path)
        self.fault, self.number, self.told, self.status, self.offset = "Disk", DISK, told, status, None

    def __reduce__(self) -> "Tuple[Type[NoWorksheet], Tuple[str, str, Optional[int]]]":
        return type(self), (str(self.filename), self.told, self.status)

    def __str__(self) -> str:
        return FileNotFoundError.__str__(self)
