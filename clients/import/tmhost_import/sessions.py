"""Which interpreter evaluates a cell, and what its session is called."""
import os
import re
import shutil

from tmhost_fences.troubles import Trouble

from . import prose
from .cells import Cell, shown

NAME = re.compile(r"[A-Za-z0-9_-]{1,32}")
LONGEST_NAME = 32
MOST_SESSIONS = 64
MOST_WORDS = 16
LONGEST_WORD = 1024  # bytes
HERE = os.path.dirname(os.path.realpath(__file__))
# The commands of the adapters, where they lie beside this package, in the repository and where it is installed; else they are looked for on PATH.
COMMANDS = os.path.join(HERE, "..", "..", "..", "adapters", "bin")
COMMAND = "tmhost-"
LANGUAGES = (
    "bc", "coqtop", "fricas", "gap", "ghci", "giac", "gnuplot", "gp", "guile", "lua", "M2", "maxima", "node", "ocaml", "octave", "perl", "python", "R", "ruby", "sbcl",
    "sh", "singular", "sqlite3", "swipl", "tcl", "yacas",
)
# Other names that kernels, Org and fences have for them, in lower case.
ALIASES = {
    "bash": "sh",
    "gap-4": "gap",
    "gap 4": "gap",
    "haskell": "ghci",
    "ipython": "python",
    "ir": "R",
    "javascript": "node",
    "js": "node",
    "macaulay2": "M2",
    "pari": "gp",
    "pari-gp": "gp",
    "pari_jupyter": "gp",
    "py": "python",
    "python3": "python",
    "shell": "sh",
    "tclsh": "tcl",
}


def language_of(hint: str) -> str | None:
    """The language of the table that goes by this name, in capitals or not."""
    found = ALIASES.get(hint.lower(), hint)
    return next((language for language in LANGUAGES if language.lower() == found.lower()), None)


def table_words(language: str) -> tuple[str, ...]:
    """The words for a language of the table: the command of its adapter. Never gp's own mode, whose answers go astray."""
    command = COMMAND + language
    if not os.path.isfile(os.path.join(COMMANDS, command)) and not shutil.which(command):
        raise Trouble(f"the adapter of {language} is not where it was installed: say --session {language}=WORDS")
    return (command,)


def word_trouble(word: str) -> str | None:
    """Why no session can be started with a word."""
    try:
        code = word.encode("utf-8")
    except UnicodeEncodeError:
        return "is no UTF-8"
    if len(code) > LONGEST_WORD:
        return f"has more than {LONGEST_WORD} bytes"
    return "has a space or a control character" if any(byte <= 32 for byte in code) else None


def checked(words: tuple[str, ...]) -> tuple[str, ...]:
    if not 1 <= len(words) <= MOST_WORDS:
        raise Trouble(f"a session is started with 1 to {MOST_WORDS} words, not {len(words)}")
    for word in words:
        if reason := word_trouble(word):
            raise Trouble(f"the word {shown(word)} of a session {reason}")
    return words


def given_session(option: str) -> tuple[str, tuple[str, ...]]:
    """The name and the words of an option NAME=WORDS."""
    name, equals, words = option.partition("=")
    if not name or not equals:
        raise Trouble(f"--session {shown(option)} is not of the form NAME=WORDS")
    return name, checked(tuple(word for word in words.split(" ") if word))


class Sessions:
    """The sessions that the cells so far have asked for. `words` has those of each, by its name. Where there is prose, its sessions are known."""

    def __init__(self, given: dict[str, tuple[str, ...]], has_prose: bool = False) -> None:
        self.given, self.has_prose = given, has_prose
        self.words: dict[str, tuple[str, ...]] = {}
        self.names: dict[tuple[str, tuple[str, ...]], str] = {}  # by what the document calls it, and its words

    def choices(self, cell: Cell) -> list[tuple[str, tuple[str, ...]]]:
        """What may evaluate a cell: names, each with its words, the surest first."""
        hints = (cell.session or "", *cell.hints)
        given = [(hint, self.given[hint]) for hint in hints if hint in self.given]
        prosaic = [(hint, prose.WORDS) for hint in hints if self.has_prose and not cell.is_answered and prose.is_prose(hint)]
        return given + prosaic + [(language, table_words(language)) for language in map(language_of, cell.hints) if language]

    def of_cell(self, cell: Cell) -> str | None:
        """The name of a cell's session, which is made where it is the first one of it; none where there is no interpreter for it."""
        if cell.is_prose:
            return self.named(cell.session if cell.session and prose.is_prose(cell.session) else prose.NAME, prose.WORDS)
        choices = self.choices(cell)
        if not choices:
            return None
        name, words = choices[0]
        return self.named(cell.session or name, checked(words))

    def named(self, wanted: str, words: tuple[str, ...]) -> str:
        """The session that a document calls so, with these words. Two that it keeps apart have two names."""
        if (wanted, words) not in self.names:
            if len(self.words) == MOST_SESSIONS:
                raise Trouble(f"a worksheet has at most {MOST_SESSIONS} sessions")
            name = self.free_name(allowed_name(wanted))
            self.names[wanted, words] = name
            self.words[name] = words
        return self.names[wanted, words]

    def free_name(self, name: str) -> str:
        number, free = 1, name
        while free in self.words:
            number += 1
            free = f"{name[: LONGEST_NAME - len(str(number)) - 1]}-{number}"
        return free

    def renamed(self) -> list[str]:
        """What is to be reported of sessions that have another name than in the document."""
        return [f"the session {shown(wanted)} is named {name}" for (wanted, _), name in self.names.items() if wanted != name]


def allowed_name(wanted: str) -> str:
    """The nearest name that a session may have."""
    if NAME.fullmatch(wanted):
        return wanted
    return re.sub(r"[^A-Za-z0-9_-]+", "-", wanted).strip("-")[:LONGEST_NAME] or "session"
