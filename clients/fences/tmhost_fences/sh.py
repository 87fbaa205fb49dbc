"""Which lines of a shell hold together: here-documents, texts, what stands between brackets or words like them, and those after an operator."""
import bisect
import dataclasses
import re
from typing import Dict, List, Optional, Sequence, Tuple

ESCAPED = r"\\(?:.|\n|\Z)"
BACKQUOTED = r"`(?:\\.|[^`\\])*(?:`|\\?\Z)"
SINGLE = r"'[^']*(?:'|\Z)"
BEGINS = r'\$\(\(|\$\(|\$\{|"'
WORD = r"[^\\ \t\n\"'`$&|;<>()]+"
OLD_ARITHMETIC, SUBSCRIPT = r"\$\[[^]\n]*\]", r"\w+\[[^]\\\"'`$\n]*\]"  # `$[1 << 2]`, `a[1<<2]`
# What is read at once of commands, of a text in double quotes, of `${..}`, of that in such a text, and of arithmetic.
COMMANDS, TEXT, VALUE, VALUE_IN_TEXT, ARITHMETIC = "commands", '"', "${", '"${', "#("
TOKENS = {
    COMMANDS: rf"{ESCAPED}|\$'(?:\\.|[^'\\])*(?:'|\\?\Z)|{SINGLE}|{BACKQUOTED}|{BEGINS}|{OLD_ARITHMETIC}|\$|[ \t]+|\n|<<<|<<-?|[<>]\(|\(\(|&&|\|[|&]?|<&|[<&]?>[>&|]?|[&;<()]|{SUBSCRIPT}|{WORD}",
    TEXT: rf"{ESCAPED}|{BACKQUOTED}|{BEGINS}|\$|[^\\\"`$]+",
    VALUE: rf"{ESCAPED}|{SINGLE}|{BACKQUOTED}|{BEGINS}|\$|\}}|[^\\\"'`$}}]+",
    VALUE_IN_TEXT: rf"{ESCAPED}|{BACKQUOTED}|{BEGINS}|\$|\}}|[^\\\"`$}}]+",
    ARITHMETIC: rf"{ESCAPED}|{SINGLE}|{BACKQUOTED}|{BEGINS}|\$|[()]|[^\\\"'`$()]+",
}
READ = {kind: re.compile(pattern, re.DOTALL) for kind, pattern in TOKENS.items()}
REMARK = re.compile(r"[^\n]*")
CLOSED = re.compile(rf"'[^']*'|\$'(?:\\.|[^'\\])*'|`(?:\\.|[^`\\])*`", re.DOTALL)
NO_NAMES = re.compile(r"\([ \t]*\Z")  # what stands before the second bracket of a function, in at most so many characters
LONGEST_GAP = 80
SUBSTITUTIONS = ("$(", "<(", ">(")
GOES_ON = ("&&", "||", "|", "|&")
ENDS_OF = {"if": "fi", "do": "done", "case": "esac", "{": "}"}  # words that begin what another one ends
BEGINS_OF = {end: begin for begin, end in ENDS_OF.items()}
BEFORE_COMMANDS = ("if", "then", "else", "elif", "while", "until", "do", "{", "!", "time", *BEGINS_OF)  # after these a command begins
PART = re.compile(r"""'([^']*)'|"((?:\\.|[^"\\])*)"|\\(.)""", re.DOTALL)
JOINED = re.compile(r"(?<!\\)(?:\\\\)*\\\Z")  # the end of a line that is one with the next


@dataclasses.dataclass(frozen=True)
class Document:
    """A here-document that is to come: the line that ends it, whether tabs in front count for nothing, and whether it is taken as it is written."""

    end: str
    is_indented: bool
    is_literal: bool


@dataclasses.dataclass
class Open:
    """What is open. Of commands: where the word begins that is read, whether it is the first of its command, and the here-documents whose lines are to come."""

    kind: str
    documents: List[Document] = dataclasses.field(default_factory=list)
    word: int = -1
    is_first: bool = True
    is_named: bool = False  # by this word, as a function
    redirects: Optional[bool] = None  # whether this word is the end of a here-document, and of one that is indented


def document(word: str, is_indented: bool) -> Document:
    end = PART.sub(lambda found: found[1] or re.sub(r'\\([\\"$`])', r"\1", found[2] or "") or found[3] or "", word)
    return Document(end, is_indented, bool(re.search(r"""[\\"']""", word)))


class Reader:
    """Reads a text, and notes where what holds lines together begins and ends."""

    def __init__(self, text: str) -> None:
        self.text, self.at = text, 0
        self.open = [Open("")]
        self.marks: List[Tuple[int, int]] = []  # places, each with 1 where something begins and -1 where it ends
        self.remarks: List[int] = []  # places of remarks that stand alone in their lines
        self._joins = self._is_joined = self._is_cut = False
        while self.at < len(text):
            self._step()
        self._end_word(self.open[-1], len(text))
        if self._is_cut or any(one.kind in (TEXT, VALUE_IN_TEXT) for one in self.open):
            self.marks += [(len(text), -1)] * (len(self.open) - 1)

    def _mark(self, place: int, by: int) -> None:
        self.marks.append((place, by))

    def _push(self, kind: str, place: int, documents: Optional[List[Document]] = None) -> None:
        self._mark(place, 1)
        self.open.append(Open(kind, [] if documents is None else documents))

    def _pop(self, place: int) -> None:
        self._mark(place, -1)
        gone = self.open.pop()
        if gone.kind in SUBSTITUTIONS:
            self._documents().extend(gone.documents)

    def _documents(self) -> List[Document]:
        """Those of the commands in which this stands."""
        return next(one.documents for one in reversed(self.open) if one.kind not in READ)

    def _step(self) -> None:
        top = self.open[-1]
        is_of_commands = top.kind not in READ
        found = READ[COMMANDS if is_of_commands else top.kind].match(self.text, self.at)
        assert found
        token, begin = found[0], self.at
        if is_of_commands and token[0] == "#" and top.word < 0:
            self._remark()
            return
        self.at = found.end()
        if is_of_commands:
            self._command(top, token, begin)
        else:
            self._inner(top, token, begin)

    def _remark(self) -> None:
        if not self.text[self.text.rfind("\n", 0, self.at) + 1 : self.at].strip(" \t"):
            self.remarks.append(self.at)
        found = REMARK.match(self.text, self.at)
        assert found
        self.at = found.end()

    def _inner(self, top: Open, token: str, begin: int) -> None:
        """What stands in a text, in `${..}` or in arithmetic."""
        if (token, top.kind) in ((")", ARITHMETIC), ("}", VALUE), ("}", VALUE_IN_TEXT), ('"', TEXT)):
            self._pop(begin)
        elif token == "(" and top.kind == ARITHMETIC:
            self._push(ARITHMETIC, begin)
        else:
            self._part(token, begin)

    def _part(self, token: str, begin: int) -> None:
        """A part of a word: a text, or something that begins."""
        is_in_text = self.open[-1].kind in (TEXT, VALUE_IN_TEXT)
        if token == "$((":
            self._push(ARITHMETIC, begin)
            self._push(ARITHMETIC, begin)
        elif token in SUBSTITUTIONS:
            self._push(token, begin)
        elif token == "${":
            self._push(VALUE_IN_TEXT if is_in_text else VALUE, begin)
        elif token == '"':
            self._push(TEXT, begin)
        else:
            self._is_cut |= token.startswith("`" if is_in_text else ("'", "$'", "`")) and not CLOSED.fullmatch(token)
            self.marks += [(begin, 1), (self.at, -1)] * ("\n" in token)

    def _command(self, top: Open, token: str, begin: int) -> None:
        if token == "\\\n":
            self.marks += [(begin, 1), (self.at, -1)]
            return
        if token[0] in " \t":
            self._end_word(top, begin)
            return
        is_in_word = token[0] not in "\n&|;<>()" or token in SUBSTITUTIONS
        if not is_in_word:
            self._end_word(top, begin)
            top = self.open[-1]
        if token != "\n" and self._is_joined:
            self._is_joined = False
            self._mark(begin, -1)
        if is_in_word:
            top.word = begin if top.word < 0 else top.word
            self._joins = False
            self._part(token, begin)
        elif token == "\n":
            self._end_line(top, begin)
        else:
            self._operator(top, token, begin)

    def _end_word(self, top: Open, end: int) -> None:
        if top.kind in READ or top.word < 0:
            return
        word, top.word = self.text[top.word : end], -1
        if top.redirects is not None:
            top.documents.append(document(word, top.redirects))
            top.redirects = None
        elif top.is_first and top.kind != "=(":
            self._reserved(top, word, end)

    def _reserved(self, top: Open, word: str, end: int) -> None:
        """The first word of a command, which may begin or end several ones."""
        if word in BEGINS_OF and top.kind == BEGINS_OF[word]:
            self._pop(end - 1)
        elif word in ENDS_OF:
            self._push(word, end - 1, top.documents)
        elif word == "function":
            top.is_named = True
        elif top.is_named:
            top.is_named = False
        else:
            top.is_first = word in BEFORE_COMMANDS

    def _operator(self, top: Open, token: str, begin: int) -> None:
        top.redirects = token == "<<-" if token in ("<<", "<<-") else None
        self._joins = token in GOES_ON
        if token == "((":
            top.is_first = True
            self._push(ARITHMETIC, begin)
            self._push(ARITHMETIC, begin)
        elif token == "(":
            self._push("=(" if self.text[begin - 1 : begin] == "=" else "(", begin, top.documents)
        elif token == ")":
            self._close(begin)
        elif token in (";", "&", *GOES_ON):
            top.is_first = True

    def _close(self, begin: int) -> None:
        """At a bracket that closes: of words that aren't ended before it nothing is open any more. That of a pattern of `case` closes nothing."""
        below = next(one.kind for one in reversed(self.open) if one.kind not in ("if", "do", "{"))
        self._joins = self.open[-1].kind == "(" and bool(NO_NAMES.search(self.text, max(0, begin - LONGEST_GAP), begin))
        while below and self.open[-1].kind in ("if", "do", "{"):
            self._pop(begin)
        if below and below != "case":
            self._pop(begin)
        self.open[-1].is_first = self.open[-1].word < 0

    def _end_line(self, top: Open, begin: int) -> None:
        top.is_first, top.redirects = True, None
        if self._joins and not self._is_joined:
            self._is_joined = True
            self._mark(begin, 1)
        while top.documents:
            self._read(top.documents.pop(0))

    def _read(self, one: Document) -> None:
        """The lines of a here-document."""
        self._mark(self.at - 1, 1)
        begin, is_end = self.at, False
        while begin < len(self.text) and not is_end:
            line, begin = self._line(begin, one.is_literal)
            is_end = (line.lstrip("\t") if one.is_indented else line) == one.end
        self._is_cut |= not is_end
        self.at = begin
        self._mark(begin - 1 if is_end and self.text[begin - 1 : begin] == "\n" else begin, -1)

    def _line(self, begin: int, is_literal: bool) -> Tuple[str, int]:
        """A line of a here-document, and where the next one begins. One that ends in a backslash is one with the next."""
        parts: List[str] = []
        while begin < len(self.text):
            end = self.text.find("\n", begin)
            end = len(self.text) if end < 0 else end
            line, begin = self.text[begin:end], end + 1
            if is_literal or not JOINED.search(line):
                return "".join([*parts, line]), min(begin, len(self.text))
            parts.append(line[:-1])
        return "".join(parts), len(self.text)


def bared(lines: Sequence[str]) -> List[str]:
    """Of each line, in place of its code, the brackets of what it begins and ends; nothing of one that is empty or a remark."""
    text = "\n".join(lines)
    reader = Reader(text)
    begins = [0]
    for line in lines[:-1]:
        begins.append(begins[-1] + len(line) + 1)
    remarks = {bisect.bisect(begins, place) - 1 for place in reader.remarks}
    brackets: Dict[int, List[str]] = {}
    for place, by in reader.marks:
        brackets.setdefault(bisect.bisect(begins, place) - 1, []).append("(" if by > 0 else ")")
    return [("x" if line.strip(" \t") and at not in remarks else "") + "".join(brackets.get(at, ())) for at, line in enumerate(lines)]
