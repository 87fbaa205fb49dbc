"""What a task of the program writes that reads no lines while it runs: objects, up to its end or its fault."""

import os
import subprocess
from typing import Callable, Iterator, Optional, TypeVar, Union

from .errors import Died, ProtocolError
from .program import GRACE, Child, death, fault_in, missing
from .protocol import VERSION, Lines
from .reading import End, Fault, Hello

PIECE = 65_536

Read = TypeVar("Read")


def lines_of(child: Child) -> Iterator[bytes]:
    """The lines that the program writes, each as soon as it is there."""
    cut = Lines()
    assert child.process.stdout is not None
    while True:
        piece = os.read(child.process.stdout.fileno(), PIECE)
        if not piece:
            return
        yield from cut.feed(piece)


def died(child: Child, fault: Optional[Fault]) -> Died:
    """Why a task didn't come to its end."""
    try:
        status: Optional[int] = child.process.wait(GRACE)
    except subprocess.TimeoutExpired:
        status = None
    said = child.said()
    return death(fault or fault_in(said), said, status, missing(child.path))


def reported_by(child: Child, read: "Callable[[bytes], Union[Read, Hello, Fault, End, None]]") -> Iterator[Read]:
    """What the lines tell by this reader, but for the first and the last of them. It raises where the last is missing, or is a fault."""
    for line in lines_of(child):
        reported = read(line)
        if isinstance(reported, Hello):
            if reported.protocol != VERSION:
                raise ProtocolError(f"tmhost speaks the protocol {reported.protocol}, and not {VERSION}")
        elif isinstance(reported, Fault):
            raise died(child, reported)
        elif isinstance(reported, End):
            return
        elif reported is not None:
            yield reported
    raise died(child, None)
