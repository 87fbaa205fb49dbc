"""The worksheet of a kernel: where it is, and how it is opened."""
import os
import time
from typing import List, NamedTuple, Optional, Tuple

from tmhost import Ended, Event, InUse, TmhostError, Worksheet
from tmhost.advice import advised, reason

from .cells import Cells, Names

NOTEBOOK, SHEET, CELLS = ".ipynb", ".tmhost", ".cells"  # ends of names
# Programs that run a whole notebook, which their words name.
RUNNERS = ("jupyter-nbconvert", "jupyter-execute", "jupyter-run", "papermill")
MODULES = ("nbconvert", "papermill")  # which python3 -m runs
IN_USE = 5.0  # seconds in which it is tried again: after a crash the program before may still be ending
PAUSE = 0.1


class Given(NamedTuple):
    """What a kernel was installed for. Without `words` the session has to be there."""

    name: str
    session: str
    words: Tuple[str, ...]
    tab: bool
    sheet: str


class Unusable(Exception):
    """Why there is no worksheet to evaluate in."""


def notebook_of_runner() -> Optional[str]:
    """The notebook that the front end's own words name, where it is a program that runs one."""
    front_end = f"/proc/{os.environ.get('JPY_PARENT_PID') or os.getppid()}"
    try:
        with open(f"{front_end}/cmdline", "rb") as file:
            words = [os.fsdecode(word) for word in file.read().split(b"\0")]
        folder = os.readlink(f"{front_end}/cwd")
    except OSError:
        return None
    is_runner = any(os.path.basename(word) in RUNNERS for word in words[:3]) or words[1:2] == ["-m"] and words[2] in MODULES
    named = [word for before, word in zip(words, words[1:]) if word.endswith(NOTEBOOK) and not word.startswith("-") and before != "--output"]
    paths = [os.path.join(folder, word) for word in named]
    return next((path for path in paths if os.path.isfile(path)), None) if is_runner else None


class Place(NamedTuple):
    """`is_own` says that the worksheet is that of one notebook."""

    path: str
    is_own: bool


def place(given: Given) -> Place:
    """Where the worksheet is: the one that the kernel was installed for, the one that TMHOST_SHEET names, or beside the notebook, where the front end
    says which that is; else one by the kernel's name in the folder of the notebook, which all have that the kernel runs there."""
    named = given.sheet or os.environ.get("TMHOST_SHEET", "")
    if named:
        return Place(named, True)
    notebook = os.environ.get("JPY_SESSION_NAME", "")
    if notebook.endswith(NOTEBOOK):
        folder, name = os.path.split(notebook)
        return Place((notebook if os.path.isdir(folder) else name).removesuffix(NOTEBOOK) + SHEET, True)
    run = notebook_of_runner()
    return Place(run.removesuffix(NOTEBOOK) + SHEET, True) if run else Place(given.name + SHEET, False)


def in_quotes(words: Tuple[str, ...]) -> str:
    return "`" + " ".join(words) + "`"


class Sheet:
    """It is opened when it is needed first, and again where its program has ended or another program had it."""

    def __init__(self, given: Given) -> None:
        self.given = given
        self.path, self.is_own = place(given)
        self.worksheet: Optional[Worksheet] = None
        self.cells: Optional[Cells] = None
        self.has_lost_variables = False  # while nothing was evaluated, so that nobody knows

    def opened(self) -> Cells:
        """Raises Unusable, also once where its program has ended since: nobody shall take an empty interpreter for the one before."""
        ended = self.ended()
        if self.has_lost_variables and ended is None:
            self.has_lost_variables = False
            raise Unusable("the interpreter has ended since the last cell: its variables are gone, and the next cell starts it again")
        if self.cells and ended is None:
            return self.cells
        self.close()
        if ended:
            raise Unusable(f"{advised(ended, self.path)}: the variables are gone, and the next cell opens the worksheet again")
        try:
            self.worksheet = self.tried()
            self.make_session(self.worksheet)
        except InUse:
            raise Unusable(f"another program works on the worksheet {self.path}: close it there, or run the cell again when it has ended") from None
        except (TmhostError, OSError) as error:
            raise Unusable(f"the worksheet {self.path} can't be used: {reason(error, self.path)}") from None
        except Unusable:
            self.close()  # others may open it
            raise
        self.has_lost_variables = False
        self.worksheet.listen(self.note)
        self.cells = Cells(self.worksheet, self.given.session, Names(self.path + CELLS))
        return self.cells

    def note(self, event: Event) -> None:
        """An event of the worksheet. The cell that waits gets it itself."""
        if isinstance(event, Ended) and event.session == self.given.session and not event.lost:
            self.has_lost_variables = True

    def tried(self) -> Worksheet:
        until = time.monotonic() + IN_USE
        while True:
            try:
                return Worksheet(self.path, create=not self.given.sheet)
            except InUse:
                if time.monotonic() > until:
                    raise
                time.sleep(PAUSE)

    def make_session(self, worksheet: Worksheet) -> None:
        name, words = self.given.session, self.given.words
        there = worksheet.sessions.get(name)
        if there is None and words:
            worksheet.session(name, words, self.given.tab)
        elif there is None:
            raise Unusable(f"the worksheet {self.path} has no session {name}, but {', '.join(worksheet.sessions) or 'none'}")
        elif words and there.words != words:
            raise Unusable(
                f"the session {name} of the worksheet {self.path} is started by {in_quotes(there.words)}, and this kernel is for {in_quotes(words)}; "
                f"`tmhost-jupyter-kernel install --sheet {self.path} --session {name}` makes a kernel for that session")

    @property
    def words(self) -> Tuple[str, ...]:
        return self.worksheet.sessions[self.given.session].words if self.worksheet else self.given.words

    @property
    def answers_completions(self) -> bool:
        return self.worksheet is not None and self.worksheet.sessions[self.given.session].tab

    def interrupt(self) -> bool:
        """Whether the interpreter was at work, and was sent a signal."""
        return self.worksheet is not None and self.worksheet.interrupt(self.given.session) == "sent"

    def ended(self) -> Optional[TmhostError]:
        """Why its program has ended, where it has."""
        return self.worksheet.error if self.worksheet else None

    def close(self) -> None:
        if self.worksheet:
            self.worksheet.close()
        self.worksheet = self.cells = None


def sessions_of(path: str) -> List[Tuple[str, Tuple[str, ...]]]:
    """The sessions of a worksheet, each with its words."""
    with Worksheet(path) as worksheet:
        return [(session.name, session.words) for session in worksheet.sessions.values()]
