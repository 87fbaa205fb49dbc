"""Runs a program and lists what it asks of its files, in order: `calls.py LIST FAILS WORD ..`. LIST is the file of the list; FAILS is `-`, or a call as
it is listed, the number of the one among them that fails, and its error: `fdatasync:1:EIO`. By `calls.py LIST` one program after another is run: each line
of the input is a FAILS and WORDs, of which none has a blank; the program reads the file `given` and writes the file `said`, and its status is then a line
of the output. Listed are, of the program itself and not of those that it starts,

    lock KIND MODE FILE     a lock that is asked for: EX or SH, of a file that may be read (r), or read and written (rw)
    fsync FILE              and fdatasync FILE, write FILE
    told                    a write on standard output

and of those as well

    kill NUMBER             a signal to a process, or `kill NUMBER group` to several

Where FAILS is `polls` none fails, and this is listed, too, of a processor whose system has it:

    poll TIME               a wait for what comes, and its limit in milliseconds, -1 for none

Where the system has no such filter of calls the status is 77, and the program isn't run."""

from __future__ import annotations

import array
import ctypes
import errno
import fcntl
import io
import os
import select
import socket
import struct
import sys

CALLS = {
    "x86_64": {"seccomp": 317, "write": 1, "poll": 7, "pwrite64": 18, "kill": 62, "flock": 73, "fsync": 74, "fdatasync": 75},
    "aarch64": {"seccomp": 277, "write": 64, "pwrite64": 68, "kill": 129, "flock": 32, "fsync": 82, "fdatasync": 83},
}
LOAD, EQUALS, RETURN = 0x20, 0x15, 0x06  # of the filter's language: a word of the call, a comparison, an answer
ASKED, ALLOWED = 0x7FC00000, 0x7FFF0000
RECEIVE, SEND = 0xC0502100, 0xC0182101
KINDS = {1: "SH", 2: "EX"}


def filter_of(numbers: list[int]) -> bytes:
    """The filter: these calls are asked about, and all others are allowed."""
    checks = [(EQUALS, len(numbers) - at, 0, number) for at, number in enumerate(numbers)]
    return b"".join(struct.pack("=HBBI", *it) for it in [(LOAD, 0, 0, 0), *checks, (RETURN, 0, 0, ALLOWED), (RETURN, 0, 0, ASKED)])


class Program(ctypes.Structure):
    _fields_ = [("length", ctypes.c_ushort), ("steps", ctypes.c_void_p)]


def start(numbers: list[int], seccomp: int, words: list[str], line: socket.socket) -> None:
    """Becomes the program, in a session of its own, once the place where its calls are asked about was handed out."""
    os.setsid()
    code = filter_of(numbers)
    steps = ctypes.create_string_buffer(code, len(code))
    program = Program(len(code) // 8, ctypes.cast(steps, ctypes.c_void_p))
    system = ctypes.CDLL(None)
    asked = -1 if system.prctl(38, 1, 0, 0, 0) else system.syscall(seccomp, 1, 8, ctypes.byref(program))
    if asked < 0:
        os._exit(77)
    line.sendmsg([b"x"], [(socket.SOL_SOCKET, socket.SCM_RIGHTS, array.array("i", [asked]))])
    os.close(asked)
    os.execvp(words[0], words)


names_of_paths: dict[str, str] = {}  # as they were found: to find one takes longer than a call


def name_of(process: int, descriptor: int) -> str:
    path = os.readlink(f"/proc/{process}/fd/{descriptor}")
    if path not in names_of_paths:
        names_of_paths[path] = os.path.relpath(path) if path.startswith("/") else path
    return names_of_paths[path]


def mode_of(process: int, descriptor: int) -> str:
    with open(f"/proc/{process}/fdinfo/{descriptor}", encoding="ascii") as lines:
        flags = next(int(it.split()[1], 8) for it in lines if it.startswith("flags:"))
    return ("r", "w", "rw")[flags & 3]


def listed(process: int, call: str, first: int, second: int, third: int) -> str | None:
    """A call as it is listed; nothing of a write that goes elsewhere."""
    if call == "poll":
        return f"poll {third if third < 1 << 31 else -1}"
    if call == "kill":
        return f"kill {second}" if 0 < first < 1 << 31 else f"kill {second} group"
    if call == "write":
        return "told" if first == 1 else None
    if call == "flock":
        return f"lock {KINDS.get(second & 3, second)} {mode_of(process, first)} {name_of(process, first)}"
    return f"{'write' if call == 'pwrite64' else call} {name_of(process, first)}"


class Failing:
    """Which call fails: by its name, the how many-th from here on, and with which error."""

    def __init__(self, given: str) -> None:
        self.call, self.left, self.error = "", 0, 0
        if given not in ("-", "polls"):
            self.call, at, error = given.split(":")
            self.left, self.error = int(at), getattr(errno, error)

    def fails(self, line: str) -> bool:
        if not self.call or line.split()[0] != self.call:
            return False
        self.left -= 1
        return self.left == 0


def answer(asked: int, process: int, names: dict[int, str], failing: Failing, out: io.TextIOWrapper) -> None:
    """Lists one call, and lets it go on or fail."""
    question = bytearray(80)
    fcntl.ioctl(asked, RECEIVE, question)
    number, caller, _, call, _, _, first, second, third = struct.unpack_from("=QIIiIQQQQ", question)
    line = listed(process, names[call], first, second, third & 0xFFFFFFFF) if caller == process or names[call] == "kill" else None
    failure = failing.error if line is not None and failing.fails(line) else 0
    if line is not None:
        out.write(f"{line} {errno.errorcode[failure]}\n" if failure else line + "\n")
    fcntl.ioctl(asked, SEND, struct.pack("=QqiI", number, 0, -failure, 0 if failure else 1))


def run(path: str, given: str, words: list[str], has_files: bool) -> int:
    """Runs one program, over its files where it has some, and gives its status."""
    calls = CALLS.get(os.uname().machine)
    if calls is None or (given == "polls" and "poll" not in calls):
        return 77
    names = {number: name for name, number in calls.items() if name != "seccomp" and (name != "poll" or given == "polls")}
    failing = Failing(given)
    here, there = socket.socketpair()
    process = os.fork()
    if process == 0:
        here.close()
        if has_files:
            os.dup2(os.open("given", os.O_RDONLY), 0)
            said = os.open("said", os.O_WRONLY | os.O_CREAT | os.O_TRUNC, 0o666)
            os.dup2(said, 1)
            os.dup2(said, 2)
        start(list(names), calls["seccomp"], words, there)
    there.close()
    _, rights, _, _ = here.recvmsg(1, socket.CMSG_SPACE(4))
    if rights:
        asked = struct.unpack("i", rights[0][2])[0]
        turns = select.poll()
        turns.register(asked, select.POLLIN)
        with open(path, "w", encoding="utf-8") as out:
            while turns.poll()[0][1] & select.POLLIN:
                try:
                    answer(asked, process, names, failing, out)
                except FileNotFoundError:
                    continue
        os.close(asked)
    here.close()
    status = os.waitstatus_to_exitcode(os.waitpid(process, 0)[1])
    return status if status >= 0 else 128 - status


def main() -> None:
    path, *words = sys.argv[1:]
    if words:
        sys.exit(run(path, words[0], words[1:], False))
    for line in sys.stdin:
        given, *words = line.split()
        print(run(path, given, words, True), flush=True)


main()
