"""The worksheet as `tmhost export` writes it, while the notebook has it open.

The program locks a worksheet, so what is exported is a copy. Its two files must be those of one moment: they are read twice, the one after the
other. Where both have the same bytes again, both had them at the moment between. Any moment of a worksheet opens to all that was saved by then.
"""

import hashlib
import os
import subprocess
import tempfile
import time
from typing import Dict, List, Optional, Set, Tuple

from tmhost.advice import reason_of_end
from tmhost.program import fault_in, path_word, words_of_program

# Of each format the end of a file's name, and the kind that a browser gets.
FORMATS: Dict[str, Tuple[str, str]] = {
    "html": (".html", "text/html; charset=utf-8"),
    "markdown": (".md", "text/markdown; charset=utf-8"),
    "notebook": (".ipynb", "application/x-ipynb+json"),
    "json": (".jsonl", "application/jsonl"),
    "script": (".txt", "text/plain; charset=utf-8"),
    "html-set": (".html", "text/html; charset=utf-8"),
    "markdown-prose": (".md", "text/markdown; charset=utf-8"),
    "notebook-prose": (".ipynb", "application/x-ipynb+json"),
}
# Those that a command of a client beside this one makes of an export of the program.
CLIENTS = os.path.dirname(os.path.dirname(os.path.dirname(os.path.abspath(__file__))))
PROSE = os.path.join(CLIENTS, "import", "tmhost-prose")
COMMANDS = {"html-set": os.path.join(CLIENTS, "typeset", "tmhost-typeset"), "markdown-prose": PROSE, "notebook-prose": PROSE}
NO_SESSION = ""  # a name that none has
FILES = ("", ".alt")
PIECE = 1 << 20
TIMES = 100  # that a copy is tried
WITHIN = 300.0  # seconds that the program may take


class NotExported(Exception):
    """There is no export, for a reason that is reported to people."""


def read(path: str, copy: str) -> bytes:
    """The hash of what a file has, which is written to `copy` too."""
    known = hashlib.sha256()
    with open(path, "rb") as file, open(copy, "wb") as written:
        while data := file.read(PIECE):
            known.update(data)
            written.write(data)
    return known.digest()


def copy_of(sheet: str, folder: str) -> str:
    """A copy of the worksheet as it was at one moment, in a folder."""
    copy = os.path.join(folder, os.path.basename(sheet))
    for _ in range(TIMES):
        first = [read(sheet + end, copy + end) for end in FILES]
        if first == [read(sheet + end, os.devnull) for end in FILES]:
            return copy
        time.sleep(0.01)
    raise NotExported("the worksheet is changing all the time: try again when less is evaluated")


def written_by(words: List[str], given: bytes = b"", within: float = WITHIN, of: str = "") -> bytes:
    """What a command writes of a worksheet, or of a copy of it, within so many seconds."""
    try:
        done = subprocess.run(words, input=given, stdout=subprocess.PIPE, stderr=subprocess.PIPE, timeout=within)
    except subprocess.TimeoutExpired:
        raise NotExported("it takes too long") from None
    if done.returncode:
        said = done.stderr.decode("utf-8", "backslashreplace").strip()
        raise NotExported(f"it was refused: {reason_of_end(said, done.returncode, of) if fault_in(said) else said}")
    return done.stdout


def exported(sheet: str, program: Optional[str], name: str, prose: Set[str]) -> bytes:
    """The worksheet in a format of this name. `prose` has the names of its sessions of prose."""
    try:
        with tempfile.TemporaryDirectory(prefix="tmhost-notebook-") as folder:
            data = written_by([*words_of_program(program), "export", name.partition("-")[0], path_word(copy_of(sheet, folder))], of=sheet)
    except OSError as error:
        raise NotExported(f"the worksheet can't be copied: {error}") from error
    if name not in COMMANDS:
        return data
    try:
        return written_by([COMMANDS[name], *(word for one in sorted(prose) or [NO_SESSION] for word in ("--prose", one))], data)
    except OSError as error:
        raise NotExported(f"{COMMANDS[name]} can't be started: {error}") from error
