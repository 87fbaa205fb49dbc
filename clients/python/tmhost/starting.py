"""What is known of a session before its interpreter is started, by its words and by what is on this machine."""

import contextlib
import os
import re
import shutil
import signal
import subprocess
import tempfile
import time
from typing import Dict, List, Optional, Sequence, Tuple

from .near import near
from .program import ROOT, search_path
from .values import CONTROL

COMMAND = "tmhost-"  # and a name of the table is an adapter
# The program that each adapter starts, and Debian's package of that.
PROGRAMS: Dict[str, Tuple[str, str]] = {
    "M2": ("M2", "macaulay2"), "R": ("R", "r-base-core"), "bc": ("bc", "bc"), "coqtop": ("coqtop", "coq"), "fricas": ("fricas", "fricas"), "gap": ("gap", "gap-core"),
    "ghci": ("ghci", "ghc"), "giac": ("giac", "giac"), "gnuplot": ("gnuplot", "gnuplot-nox"), "gp": ("gp", "pari-gp"), "guile": ("guile", "guile-3.0"),
    "lua": ("lua", "lua5.4"), "maxima": ("maxima", "maxima"), "node": ("node", "nodejs"), "ocaml": ("ocaml", "ocaml"), "octave": ("octave-cli", "octave"), "perl": ("perl", "perl"),
    "python": ("python3", "python3"), "ruby": ("ruby", "ruby"), "sbcl": ("sbcl", "sbcl"), "sh": ("bash", "bash"), "singular": ("Singular", "singular"),
    "sqlite3": ("sqlite3", "sqlite3"), "swipl": ("swipl", "swi-prolog-nox"), "tcl": ("tclsh", "tcl"), "yacas": ("yacas", "yacas"),
}
JUPYTER = "jupyter"
ADAPTERS = [COMMAND + name for name in (*PROGRAMS, JUPYTER)]
# Other names under which these programs are started.
OTHER_NAMES = {"python": "python", "ipython": "python", "octave": "octave", "sh": "sh", "nodejs": "node", "irb": "ruby"}
# Interpreters that an adapter starts by the name of a kernel.
BY_KERNEL = ("julia",)
# Options with which an interpreter still takes no file, and has no blocks.
STAYS_BARE = ("-i", "-q", "-u", "-f", "-s", "--interactive", "--login", "--no-gui", "--no-save", "--quiet", "--silent", "--vanilla", "--very-quiet")
SHIPPED_ENDS_WITHIN = 10.0  # seconds that an adapter of ours has which is started to hear why it ends
ENDS_WITHIN = 2.0  # the same, of other words, whose start may do anything
MOST_LINES, LONGEST_LINE = 3, 300  # of what is said of an end; characters
USAGE = "usage: "
PAUSE = 0.02  # seconds
LONGEST_TAIL = 65_536  # bytes of standard error that are looked at
VERSION = re.compile(r"-?\d[\d.]*\Z")  # after a name, as in lua5.4


def can_be_run(path: str) -> bool:
    return os.path.isfile(path) and os.access(path, os.X_OK)


def is_found(word: str) -> bool:
    """As `execvp` looks for a program: a word with a slash is a path, seen from the folder in which the host runs, which is this program's own."""
    if "/" in word:
        return can_be_run(word)
    return any(can_be_run(os.path.join(folder or ".", word)) for folder in search_path().split(":"))


def missing_program(words: Sequence[str]) -> Optional[Tuple[str, str]]:
    """The program that isn't here of those that the words of a session start, and what is to be said of it; None where none is known to be missing."""
    word = words[0] if words else ""
    if not is_found(word):
        meant = adapter_meant(word)
        return word, f"there is no program {word}" + (f": is {meant} meant?" if meant else "")
    name = os.path.basename(word)
    program, package = PROGRAMS.get(name[len(COMMAND) :], ("", "")) if name.startswith(COMMAND) else ("", "")
    if not program or is_found(program):
        return None
    return program, f"there is no program {program}, which {name} starts (Debian's package {package})"


def adapter_meant(word: str) -> Optional[str]:
    """The words of the adapter that is most likely meant by a word which is no program: of a name of its interpreter, or of one in which letters are
    wrong. Of a short name these are capitals, or stand in another order."""
    if "/" in word or word in ADAPTERS:
        return None
    if not word.startswith(COMMAND):
        return near(word, ADAPTERS)
    name = word[len(COMMAND) :]
    swapped = next((one for one in PROGRAMS if sorted(one.lower()) == sorted(name.lower())), None)
    found = swapped or near(name, [*PROGRAMS, JUPYTER])
    return COMMAND + found if found else adapter_words(name)


def adapter_of(name: str) -> Optional[str]:
    """The adapter that starts a program of this name."""
    return next((one for one, (program, _) in PROGRAMS.items() if program == name), OTHER_NAMES.get(name))


def adapter_words(name: str) -> Optional[str]:
    """The words that start an interpreter of this name with an adapter."""
    base = VERSION.sub("", name)
    adapter = adapter_of(name) or adapter_of(base)
    return COMMAND + adapter if adapter else f"{COMMAND}jupyter KERNEL" if base in BY_KERNEL else None


def is_our_adapter(path: str) -> bool:
    """Whether this is an adapter that came with this program, by whichever path."""
    return os.path.realpath(path).startswith(os.path.join(ROOT, "adapters", ""))


def without_adapter(words: Sequence[str]) -> Optional[str]:
    """What is to be said of words that start an interpreter by its bare name. It doesn't speak the protocol then, so no answer of it is ever seen."""
    word = words[0] if words and all(option in STAYS_BARE for option in words[1:]) else ""
    name = os.path.basename(word)
    start = None if "/" in word and is_our_adapter(word) else adapter_words(name)
    return f"{name} by itself has no blocks for its answers: the words {start} start it with an adapter" if start else None


def never_answers(words: Sequence[str]) -> Optional[str]:
    """The same, where it is certain: of a name that PATH finds, or a path to the same file, and not of an adapter that goes by such a name."""
    why = without_adapter(words)
    found = shutil.which(os.path.basename(words[0]), path=search_path()) if why else None
    if not found or is_our_adapter(found):
        return None
    return why if "/" not in words[0] or os.path.realpath(words[0]) == os.path.realpath(found) else None


def doubt(words: Sequence[str]) -> Optional[str]:
    """Why a session will have no answers, as far as that is known; None where nothing is against it."""
    missing = missing_program(words)
    return missing[1] if missing else without_adapter(words)


def why_it_ends(words: Sequence[str], folder: Optional[str] = None) -> Optional[str]:
    """How an interpreter ends by itself at its start, and the last lines that it says on standard error then, which a host drops. It is started once more
    for this: ask only of one that has ended before its banner. None where it doesn't end so, or not in time."""
    if not words:
        return None
    is_shipped = words[0].startswith(COMMAND)
    # One of ours ends well at the end of its input, which then needn't be waited for. Another one might call that end a trouble, so its input stays open.
    reader, writer = os.pipe()
    with tempfile.TemporaryFile() as errors, contextlib.ExitStack() as later:
        later.callback(os.close, reader)
        if is_shipped:
            os.close(writer)
        else:
            later.callback(os.close, writer)
        try:
            child = subprocess.Popen(
                words, stdin=reader, stdout=subprocess.DEVNULL, stderr=errors, cwd=folder, start_new_session=True,
                env={**os.environ, "PATH": search_path()})
        except OSError:
            return None
        status = status_in_time(child, SHIPPED_ENDS_WITHIN if is_shipped else ENDS_WITHIN)
        size = os.fstat(errors.fileno()).st_size
        said = os.pread(errors.fileno(), LONGEST_TAIL, max(0, size - LONGEST_TAIL)).decode("utf-8", "backslashreplace")
    if status is None or (is_shipped and status == 0):
        return None
    lines = last_lines(said)
    return f"{' '.join(words)} {how_it_ended(status)}" + (f": {lines}" if lines else "")


def has_ended(pid: int) -> bool:
    """Whether a program of ours has, whose status nobody has asked for."""
    return os.waitid(os.P_PID, pid, os.WEXITED | os.WNOHANG | os.WNOWAIT) is not None


def status_in_time(child: "subprocess.Popen[bytes]", seconds: float) -> Optional[int]:
    """The status of a program that ends in time. It is gone then in any case, with what it has started: until its status is asked for, its number is that
    of its group."""
    until = time.monotonic() + seconds
    while not has_ended(child.pid) and time.monotonic() < until:
        time.sleep(PAUSE)
    is_over = has_ended(child.pid)
    with contextlib.suppress(ProcessLookupError, PermissionError):
        os.killpg(child.pid, signal.SIGKILL)
    status = child.wait()
    return status if is_over else None


def how_it_ended(status: int) -> str:
    if status >= 0:
        return f"ended with status {status}"
    with contextlib.suppress(ValueError):
        return f"was ended by {signal.Signals(-status).name}"
    return f"was ended by signal {-status}"


def last_lines(said: str) -> str:
    """The last lines of a text as one, each of which is cut where it is long. That of argparse in front of its reason is left out."""
    lines: List[str] = [line.strip() for line in said.splitlines() if line.strip() and not line.startswith(USAGE)]
    cut = [line if len(line) <= LONGEST_LINE else line[:LONGEST_LINE] + ".." for line in lines[-MOST_LINES:]]
    return CONTROL.sub(lambda found: f"\\x{ord(found[0]):02x}", " | ".join(cut))
