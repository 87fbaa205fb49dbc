"""Which processes of an interpreter wait for more of its input, as the kernel tells it."""
import contextlib
import os
import platform
from typing import Collection, Iterator, List, Optional, Set

READ = {"x86_64": b"0", "aarch64": b"63", "riscv64": b"63"}.get(platform.machine(), b"3")  # the number of read(2)
SELECT = {"x86_64": (b"23", b"270"), "aarch64": (b"72",), "riscv64": (b"72",)}.get(platform.machine(), ())  # select(2) and pselect(2)
NONE = b"0x0"


def session_of(process: int) -> int:
    """The session that a process belongs to, or 0 where it has just ended."""
    with contextlib.suppress(OSError), open(f"/proc/{process}/stat", "rb") as reported:
        return int(reported.read().rpartition(b")")[2].split()[3])
    return 0


def processes(session: int) -> Iterator[int]:
    return (int(name) for name in os.listdir("/proc") if name.isdigit() and session_of(int(name)) == session)


def file_read(number: bytes, words: List[bytes]) -> Optional[int]:
    """The descriptor of the file that a call waits in for something to read: in a read, or, as readline does before one, in a select without an
    end of time, of which it is the last one. None of other calls."""
    if number == READ:
        return int(words[0], 16)
    if number in SELECT and words[1] != NONE and words[4] == NONE:
        return int(words[0], 16) - 1
    return None


def reads(process: int, files: Collection[str]) -> bool:
    """Whether a thread of the process waits for something to read in one of these files, so that there is nothing in it."""
    for thread in os.listdir(f"/proc/{process}/task"):
        with contextlib.suppress(FileNotFoundError, ProcessLookupError), open(f"/proc/{process}/task/{thread}/syscall", "rb") as reported:
            number, *words = reported.read().split()
            file = file_read(number, words)
            if file is not None and os.readlink(f"/proc/{process}/fd/{file}") in files:
                return True
    return False


def readers(session: int, files: Collection[str]) -> Set[int]:
    """The processes of a session that wait for something to read in one of these files; none where the kernel doesn't tell."""
    found = set()
    for process in processes(session):
        with contextlib.suppress(OSError):
            if reads(process, files):
                found.add(process)
    return found
