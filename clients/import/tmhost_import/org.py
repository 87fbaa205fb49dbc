"""The source blocks of an Org file.

Of the header arguments those on the line `#+begin_src` are read, and of these `:session` and `:eval`. Those of `#+header:` and `#+property:`
lines and of property drawers are not, and neither references (`<<name>>`) nor variables (`:var`) are put in.
"""
import re

from tmhost_fences.troubles import Trouble

from .cells import Cell, Document, plain

TAB = 8  # columns, as in Emacs
NO_SESSION = ("", "none", "yes", None)  # what `:session` may be where it names none
BEGIN = re.compile(r"[ \t]*#\+begin_src(?:[ \t]+(\S+))?(?:[ \t]+(.*))?", re.IGNORECASE)
END = re.compile(r"[ \t]*#\+end_src[ \t]*", re.IGNORECASE)
# Blocks whose lines are no elements of Org.
VERBATIM = re.compile(r"[ \t]*#\+begin_(comment|example|export|verse)(?:[ \t].*)?", re.IGNORECASE)
HEADLINE = re.compile(r"\*+ .*")
ESCAPED = re.compile(r"([ \t]*,*),(\*|#\+)")
ARGUMENT = re.compile(r"(?:^|[ \t]):(\S+)(.*?)(?=[ \t]:\S|$)")
ELSEWHERE = re.compile(r"[ \t]*(?:#\+headers?:|#\+property:[ \t]*header-args|:header-args).*", re.IGNORECASE)


def arguments(header: str) -> dict[str, str]:
    """The header arguments after a block's language: of one that stands twice the last."""
    return {key.lower(): value.strip(" \t").strip('"') for key, value in ARGUMENT.findall(header)}


def indentation(line: str) -> int:
    """The column of the first character that is no blank."""
    blanks = line[: len(line) - len(line.lstrip(" \t"))]
    return len(blanks.expandtabs(TAB))


def moved_left(line: str, columns: int) -> str:
    """The line with so much less of indentation; of one that has blanks alone nothing is left. A tab that must be cut becomes spaces."""
    text, wanted, at, column = line.lstrip(" \t"), indentation(line) - columns, 0, 0
    while column < wanted and (line[at] == " " or TAB - column % TAB <= wanted - column):
        column += 1 if line[at] == " " else TAB - column % TAB
        at += 1
    return line[:at] + " " * (wanted - column) + text if text else ""


def without_indentation(lines: list[str]) -> list[str]:
    """The lines without the indentation that all have which aren't blank."""
    common = min((indentation(line) for line in lines if line.strip(" \t")), default=TAB)
    return [moved_left(line, common) for line in lines] if common else lines


def block_text(lines: list[str], header: str) -> str:
    """The code of a block: without commas that escape, and, where the switch -i doesn't forbid it, without indentation."""
    switches = re.split(r"(?:^|[ \t]):", header)[0].split()
    plain = [re.sub(ESCAPED, r"\1\2", line, count=1) if ESCAPED.match(line) else line for line in lines]
    return "\n".join(plain if "-i" in switches else without_indentation(plain)).rstrip("\n")


class Reader:
    """Goes through the lines of a file."""

    def __init__(self, text: str) -> None:
        self.lines = text.replace("\r\n", "\n").split("\n")
        self.document = Document()
        self.endless: dict[str, int] = {}  # by the kind of a verbatim block, up to where no such block has an end
        self.elsewhere = 0  # lines with header arguments that aren't read

    def read(self) -> Document:
        at = 0
        while at < len(self.lines):
            at = self.after(at)
        if self.elsewhere:
            self.document.notes.append(f"header arguments beside those of #+begin_src are not read: {self.elsewhere} lines have some")
        return self.document

    def after(self, at: int) -> int:
        """Takes what begins in this line, and gives the place after it."""
        line = self.lines[at]
        if found := BEGIN.fullmatch(line):
            end = self.end_of_block(at)
            self.add_block(at, end, found[1], found[2] or "")
            return end + 1
        if found := VERBATIM.fullmatch(line):
            return self.after_verbatim(at, found[1].lower())
        self.elsewhere += bool(ELSEWHERE.fullmatch(line))
        return at + 1

    def end_of_block(self, begin: int) -> int:
        """Where the block ends that begins here. A headline ends its section, and with it what is open there."""
        for at in range(begin + 1, len(self.lines)):
            if END.fullmatch(self.lines[at]):
                return at
            if HEADLINE.fullmatch(self.lines[at]):
                reason = f" before the headline in line {at + 1} (in code such a line begins with a comma)"
                raise Trouble(f"line {begin + 1}: the block that begins here has no end{reason}")
        raise Trouble(f"line {begin + 1}: the block that begins here has no end")

    def after_verbatim(self, begin: int, kind: str) -> int:
        """The place after the verbatim block that begins here, or after its first line where it has no end."""
        at = max(begin + 1, self.endless.get(kind, 0))
        while at < len(self.lines) and not HEADLINE.fullmatch(self.lines[at]) and begin >= self.endless.get(kind, 0):
            if self.lines[at].strip(" \t").lower() == f"#+end_{kind}":
                return at + 1
            at += 1
        self.endless[kind] = at
        return begin + 1

    def add_block(self, begin: int, end: int, language: str | None, header: str) -> None:
        given = arguments(header)
        if not language:
            self.document.left_out["blocks without a language"] += 1
        elif given.get("eval") in ("no", "never"):
            self.document.left_out["blocks with :eval no"] += 1
        else:
            session = given.get("session")
            place, kind = f"the block in line {begin + 1}", f"blocks of {plain(language)}"
            text = block_text(self.lines[begin + 1 : end], header)
            self.document.cells.append(Cell(place, text, None if session in NO_SESSION else session, (language,), True, kind))


def read(text: str) -> Document:
    return Reader(text).read()
