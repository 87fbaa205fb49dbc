"""The program `tmhost`: where it is, how it is started and ended, and what it says at its end."""

import contextlib
import os
import re
import shutil
import signal
import subprocess
import tempfile
import threading
from typing import IO, List, Optional, Sequence, Union

from .errors import DISK, Died, InUse, NoWorksheet
from .reading import Fault

FAULT = re.compile(r"^fault (\d+) (\w+)(?: (\d+))?$", re.MULTILINE)
NOT_EMPTY, IN_USE = 34, 35
BAD_WORDS = 2  # the status where words are refused
NOT_UTF8 = "the worksheet's path isn't UTF-8, as words of tmhost have to be: give the file, or its folder, another name"
LONGEST_SAYING = 65_536  # bytes of standard error that are kept
PARTIAL = "--partial"
HELP = ("help", "live")
SCRIPT_BEGINS = b"#!"
GRACE = 10.0  # seconds that it has for its end after that of its output

Program = Union[None, str, Sequence[str]]

# The repository in which this package lies, or where it is installed with the other clients, and the commands of the adapters there.
ROOT = os.path.dirname(os.path.dirname(os.path.dirname(os.path.dirname(os.path.realpath(__file__)))))
COMMANDS = os.path.join(ROOT, "adapters", "bin")
# The programs of that place: where one of the first is built its script `tmhost` starts the right one; the last lies where `make install` puts it.
BUILT = [os.path.join(ROOT, "crates", "tmhost", "out", *names) for names in (("tmhost",), ("checked", "tmhost"))]
SCRIPT, INSTALLED = os.path.join(ROOT, "tmhost"), os.path.join(os.path.dirname(os.path.dirname(ROOT)), "bin", "tmhost")


def search_path() -> str:
    """Where the program looks for interpreters: as it is given here, and first among the commands of the adapters that lie beside this package."""
    path = os.environ.get("PATH", os.defpath)
    return os.pathsep.join([COMMANDS, path]) if os.path.isdir(COMMANDS) else path


def own_program() -> Optional[str]:
    """The program of the place in which this package lies. None where it would have to be built first, which takes minutes."""
    if any(map(os.path.isfile, BUILT)):
        return shutil.which(SCRIPT)
    return shutil.which(INSTALLED) if os.path.basename(ROOT) == "tmhost" else None


def find_program() -> str:
    """The program that the environment variable TMHOST names, the one on PATH, or that of the place in which this package lies."""
    named = os.environ.get("TMHOST")
    if named and not shutil.which(named):
        raise FileNotFoundError(f"TMHOST names no program: {named}")
    found = named or shutil.which("tmhost") or own_program()
    if not found:
        how = f"; {SCRIPT} --version builds one" if os.path.isfile(SCRIPT) else ""
        raise FileNotFoundError(f"there is no tmhost on PATH, and TMHOST names none{how}")
    return found


def words_of_program(program: Program) -> List[str]:
    if program is None:
        return [find_program()]
    return [program] if isinstance(program, str) else list(program)


def show_building(program: Program = None) -> None:
    """Starts a program that is a script, as that of a checkout, before it is needed. Where it has to build what it runs first, which takes minutes, it
    says so on standard error, which a client keeps to itself later on. What else goes wrong, the next start tells."""
    with contextlib.suppress(OSError):
        words = words_of_program(program)
        with open(shutil.which(words[0]) or words[0], "rb") as file:
            is_script = file.read(len(SCRIPT_BEGINS)) == SCRIPT_BEGINS
        if is_script:
            subprocess.run([*words, "--version"], stdin=subprocess.DEVNULL, stdout=subprocess.DEVNULL)


def words_of_live(words: Sequence[str], path: str, partial: bool) -> List[str]:
    """Those that hold a worksheet open. What isn't an answer yet is asked for where the program can tell it."""
    if partial:
        reported = subprocess.run([*words, *HELP], stdin=subprocess.DEVNULL, capture_output=True)
        partial = has_flag(reported.returncode, reported.stdout, PARTIAL)
    return [*words, "live", "--json", *([PARTIAL] if partial else []), path]


def has_flag(status: Optional[int], reported: bytes, flag: str) -> bool:
    """Whether a task has a flag, as its own help says."""
    return status == 0 and any(line.split()[:1] == [flag] for line in reported.decode("utf-8", "replace").splitlines())


def path_word(path: "Union[str, os.PathLike[str]]") -> str:
    """A path as a word that can't be taken for a flag."""
    word = os.fspath(path)
    return os.path.join(".", word) if word.startswith("-") else word


def fault_in(reported: str) -> Optional[Fault]:
    """The fault of which a text on standard error tells."""
    found = FAULT.search(reported)
    return Fault(int(found[1]), found[2], int(found[3]) if found[3] else None) if found else None


def isnt_utf8(path: str) -> bool:
    """Whether a path has bytes that aren't UTF-8."""
    try:
        os.fsencode(path).decode("utf-8")
    except UnicodeError:
        return True
    return False


def with_reason(reported: str, status: Optional[int], path: str) -> str:
    """What stands on standard error at the end of the program; and where its words were refused for a path, why, which it doesn't say."""
    return NOT_UTF8 if status == BAD_WORDS and not reported.strip() and isnt_utf8(path) else reported


def missing(path: str) -> Optional[str]:
    """The path, where nothing is there that could be opened."""
    try:
        os.stat(path)
    except FileNotFoundError:
        return path
    except OSError:
        pass  # whether something is there can't be seen, so the fault stays the one that the program names
    return None


def death(fault: Optional[Fault], reported: str, status: Optional[int], lacks: Optional[str]) -> Died:
    """Why the program ended by itself; `lacks` is the path of its worksheet where nothing is there."""
    if fault is None:
        return Died(None, None, reported, status)
    if fault.number == DISK and lacks is not None:
        return NoWorksheet(lacks, reported, status)
    kind = InUse if fault.number == IN_USE else Died
    return kind(fault.name, fault.number, reported, status, fault.offset)


def refuse_uncreated(path: str, status: Optional[int], errors: bytes) -> None:
    """Raises why a `create` made nothing, but where somebody else has made it meanwhile."""
    reported = with_reason(errors.decode("utf-8", "backslashreplace"), status, path)
    fault = fault_in(reported)
    if status == 0 or (fault and fault.number == NOT_EMPTY and os.path.exists(path)):
        return
    raise death(fault, reported, status, path if missing(os.path.dirname(path) or ".") else None)


class Child:
    """The program while it runs, in a session and a group of processes of its own: control-C at a terminal is for Python, which ends the
    program when it wants to."""

    def __init__(self, words: List[str], given: Optional[IO[bytes]] = None) -> None:
        """Starts it, with a file as its input or a pipe. The last word is the path of a worksheet."""
        self.path = words[-1]
        self._asking = threading.Lock()
        self._errors = tempfile.TemporaryFile()
        pipe = subprocess.PIPE
        try:
            self.process = subprocess.Popen(
                words, bufsize=0, stdin=given or pipe, stdout=pipe, stderr=self._errors, start_new_session=True,
                env={**os.environ, "PATH": search_path(), **({"TMHOST_PARTIAL": "1"} if PARTIAL in words[:-1] else {})})
        except BaseException:
            self._errors.close()
            raise

    def kill(self) -> None:
        """Ends the program with its interpreters; what it reported is on the disk. As long as nobody has asked for its status, its number is
        that of the group, also where it has ended."""
        with self._asking, contextlib.suppress(ProcessLookupError):
            if self.process.returncode is None:
                os.killpg(self.process.pid, signal.SIGKILL)

    def status(self) -> Optional[int]:
        """Its status, or None while it runs."""
        with self._asking:
            return self.process.poll()

    def said(self) -> str:
        """What stands on its standard error, at its end, or the reason of that which it doesn't say."""
        with self._errors:
            reported = os.pread(self._errors.fileno(), LONGEST_SAYING, 0).decode("utf-8", "backslashreplace")
        return with_reason(reported, self.status(), self.path)

    def close(self) -> None:
        """Ends it, where it runs, and waits for that. What it says isn't asked for any more."""
        self.kill()
        for stream in (self.process.stdin, self.process.stdout):
            if stream is not None:
                stream.close()
        self.process.wait()
        self._errors.close()
