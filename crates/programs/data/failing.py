"""Runs a program of which one call of the system fails each time: `failing.py CALL ERROR WORD ..`. CALL is `fdatasync`, `fsync`, `flock`, or
`pread64`, of which those at the beginning of a file fail alone, since the loader reads libraries by the others. ERROR is a name as `EIO`.
Where the system or the processor has no such filter of calls the status is 77, and the program isn't run."""

import ctypes
import errno
import os
import struct
import sys

CALLS = {
    "x86_64": {"pread64": 17, "flock": 73, "fsync": 74, "fdatasync": 75},
    "aarch64": {"flock": 32, "pread64": 67, "fsync": 82, "fdatasync": 83},
}
LOAD, EQUALS, RETURN = 0x20, 0x15, 0x06  # of the filter's language: a word of the call, a comparison, an answer
FAILS, ALLOWED = 0x00050000, 0x7FFF0000
NUMBER, OFFSET = 0, 40  # where the number of the call stands, and the lower half of its fourth argument


def filter_of(number, at_beginning, error):
    """The filter: each comparison that fails goes to the last answer."""
    checks = [(LOAD, 0, 0, NUMBER), (EQUALS, 0, 3 if at_beginning else 1, number)]
    if at_beginning:
        checks += [(LOAD, 0, 0, OFFSET), (EQUALS, 0, 1, 0)]
    return b"".join(struct.pack("=HBBI", *it) for it in [*checks, (RETURN, 0, 0, FAILS | error), (RETURN, 0, 0, ALLOWED)])


class Program(ctypes.Structure):
    _fields_ = [("length", ctypes.c_ushort), ("steps", ctypes.c_void_p)]


call, error, *words = sys.argv[1:]
number = CALLS.get(os.uname().machine, {}).get(call)
if number is None:
    sys.exit(77)
code = filter_of(number, call == "pread64", getattr(errno, error))
steps = ctypes.create_string_buffer(code, len(code))
program = Program(len(code) // 8, ctypes.cast(steps, ctypes.c_void_p))
system = ctypes.CDLL(None)
if system.prctl(38, 1, 0, 0, 0) or system.prctl(22, 2, ctypes.byref(program), 0, 0):  # PR_SET_NO_NEW_PRIVS, PR_SET_SECCOMP
    sys.exit(77)
os.execvp(words[0], words)
