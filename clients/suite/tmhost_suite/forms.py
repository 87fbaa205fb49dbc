"""What the readers of other forms share: the interpreters of their files, and cases of one field."""
import dataclasses
import os
import re
from typing import List, NamedTuple, Optional, Sequence, Tuple

from tmhost_fences.fields import whole
from tmhost_fences.troubles import Trouble

from .cases import Case, Marks

# The variable that has the folder of a suite, in its interpreters.
FOLDER = "TMHOST_SUITE_FOLDER"


class Session(NamedTuple):
    name: str
    words: Tuple[str, ...]


PYTHON = Session("py", ("tmhost-python",))
SHELL = Session("sh", ("tmhost-sh", "--as-written"))
GP = Session("gp", ("tmhost-gp", "--text", "--no-numbers"))
GAP = Session("gap", ("tmhost-gap",))
OCTAVE = Session("octave", ("tmhost-octave",))


def session_of(words: str) -> Session:
    """A session with words from outside. Its name is that of the adapter, or of what the words name."""
    found = tuple(words.split())
    if not found:
        raise Trouble("--words names no interpreter")
    name = os.path.basename(next((word for word in reversed(found) if word[0] != "-"), found[0])).removeprefix("tmhost-")
    return Session(re.sub(r"\W", "_", name, flags=re.ASCII)[:20], found)


def formula_of(formula: str, words: Sequence[str]) -> str:
    """A formula as the interpreter of these words shows it. The adapter for kernels leaves out that it is large."""
    is_kernel = any(os.path.basename(word).removeprefix("tmhost-") == "jupyter" for word in words)
    return "{latex:$" + " ".join((formula.replace("\\displaystyle", "") if is_kernel else formula).split()) + "$}"


def lines_of(count: int, what: str) -> str:
    return f"{count:,} line{'s' if count != 1 else ''} of {what}"


def said_of(path: str, left_out: List[Tuple[int, str]]) -> Tuple[str, ...]:
    """What is said of the lines that were left out, each with the number of its cell."""
    if not left_out:
        return ()
    number, line = left_out[0]
    return (f"{path}: left out: lines that IPython alone knows: {len(left_out)}, the first of cell {number}: {line}; --words 'tmhost-jupyter python3' evaluates them",)


def whole_case(session: str, source: str, wanted: Optional[str], line: int, marks: Marks, before: str = "") -> Case:
    lines = source.rstrip("\n").split("\n")
    return Case(session, marks, tuple(lines), tuple(whole(lines)), line, wanted, before=before)


def own_case(session: str, source: str, wanted: Optional[str], line: int, marks: Marks) -> Case:
    """What the program of another form does around its cases. With "" as what is wanted it goes wrong where it says something."""
    return dataclasses.replace(whole_case(session, source, wanted, line, marks), is_own=True)
