"""The sessions of a document of GNU TeXmacs, as its files (`.tm`) have them, and the text between them.

A file is a tree: `<name|argument|..>`, or over several lines `<\\name>`, `<|name>`, `</name>`. A backslash stands before what else has a meaning, and
`\\ ` is a blank, `\\;` nothing. Letters are those of the Cork encoding, and `\\<alpha\\>` those that it lacks.
"""
import re
import unicodedata

from tmhost_fences.cork import CORK, QUOTES
from tmhost_fences.troubles import Trouble

from .cells import Cell, Document, fenced, plain, prose_cell
from .markup import DISPLAYS, TABLES, NoCode, Prose, Tree, code

TOKEN = re.compile(
    r"<\\([^\s<>|\\]+)(\|?)|<\|([^\s<>|\\]+)(\|?)>|</([^\s<>|\\]+)>|<#[0-9A-F ]*>|<([^\s<>|\\/]+)(\|?)|(\||>)|((?:\\[^\n]|[^<>|\\])+|\\\n?)", re.DOTALL)
ESCAPED = re.compile(r"\\(.)", re.DOTALL)
LETTER = re.compile(r"<(#[0-9A-Fa-f]+|[A-Za-z][\w-]*)>")
IO = {"input", "unfolded-io", "folded-io", "input-math", "unfolded-io-math", "folded-io-math"}
HEADINGS = {"chapter": "#", "chapter*": "#", "section": "##", "section*": "##", "subsection": "###", "subsection*": "###", "doc-title": "#"}
HIDDEN = {"output", "style", "initial", "references", "auxiliary", "label", "hide-preamble"}
SCRIPTS = {"script-input", "script-output"}  # with the language, the session, the input and the output
LISTING = re.compile(r"(?:(\w+)-)?code|verbatim")  # blocks of code that is shown
LANGUAGES = {"r": "R", "shell": "sh", "pari": "gp", "macaulay2": "M2", "sympy": "python"}


def letters(text: str) -> str:
    """A text of TeXmacs, whose bytes are given as characters below U+0100."""
    def one(found: "re.Match[str]") -> str:
        name = found[1]
        if name.startswith("#"):
            return chr(int(name[1:], 16)) if int(name[1:], 16) < 0x110000 else "?"
        return {"less": "<", "gtr": ">"}.get(name) or greek(name) or found[0]

    return LETTER.sub(one, "".join(QUOTES.get(ord(c), c if c < "\x80" else CORK[ord(c) - 0x80]) for c in text))


def greek(name: str) -> str:
    kind = "SMALL" if name[0].islower() else "CAPITAL"
    try:
        return unicodedata.lookup(f"GREEK {kind} LETTER {name.upper().replace('LAMBDA', 'LAMDA')}")
    except KeyError:
        return ""


class Reader:
    """The tree of a file. Within lines of their own `document` stands around paragraphs."""

    def __init__(self, text: str) -> None:
        self.tokens = [found for found in TOKEN.finditer(text)]
        self.at = 0

    def body(self, *ends: str) -> "tuple[list[Tree], str]":
        """Items up to one of the ends, and which that was; the empty one at the end of the file."""
        items: list[Tree] = []
        while self.at < len(self.tokens):
            found = self.tokens[self.at]
            self.at += 1
            mark = found[3] and "|" or found[5] and "/" or found[8] or ""
            if mark in ends:
                return items, mark
            if found[1]:
                items.append(self.block(found[1], bool(found[2])))
            elif found[6]:
                items.append([found[6], *(self.arguments() if found[7] else self.rest())])
            elif found[9]:
                items.append(found[9])
        return items, ""

    def rest(self) -> "list[Tree]":
        """`<name>`: up to its `>`."""
        self.body(">")
        return []

    def arguments(self) -> "list[Tree]":
        """`<name|a|b>`"""
        found: list[Tree] = []
        while True:
            items, end = self.body("|", ">")
            found.append(joined(items))
            if end != "|":
                return found

    def block(self, name: str, has_arguments: bool) -> Tree:
        """`<\\name|a> .. <|name> .. </name>`"""
        tree: list[Tree] = [name, *(self.arguments() if has_arguments else self.rest())]
        while True:
            items, end = self.body("|", "/")
            tree.append(["document", *items])
            if end != "|":
                return tree


def joined(items: "list[Tree]") -> Tree:
    return items[0] if len(items) == 1 else ["concat", *items]


def text_of(tree: Tree) -> str:
    """What stands in a tree: a paragraph on a line."""
    if isinstance(tree, str):
        return " ".join(re.split(r"[ \t]*\n[ \t]*", tree.strip("\n"))) if "\n\n" not in tree else "\n".join(map(text_of, re.split(r"\n\s*\n", tree)))
    if tree and tree[0] in HIDDEN:
        return ""
    return "".join(map(text_of, tree[1:]))


def unescaped(text: str) -> str:
    return ESCAPED.sub(lambda found: "" if found[1] in ";\n" else found[1], text)


def lines_of(tree: Tree, language: str = "", is_mathematics: bool = False) -> str:
    """The input of a field: paragraphs are lines, and escaped blanks those that were typed. NoCode, where it has formulas of which no code is known."""
    lines = [line.strip(" \t") for line in text_of(code(tree, language, is_mathematics)).split("\n")]
    return letters(unescaped("\n".join(lines).strip("\n")))


def fields(tree: Tree) -> "list[list[Tree]]":
    """The inputs below a session."""
    if isinstance(tree, str):
        return []
    if tree and tree[0] in IO:
        return [tree]
    return [one for part in tree[1:] for one in fields(part)]


def is_block(tree: "list[Tree]") -> bool:
    """Whether a tree is no part of a line."""
    is_one = any(tree[0] in names for names in (HEADINGS, HIDDEN, SCRIPTS, DISPLAYS, TABLES)) or tree[0] == "session"
    return is_one or any(isinstance(part, list) and (part[:1] == ["document"] or is_block(part)) for part in tree[1:] if part)


class Taken:
    """What of a document was read so far."""

    def __init__(self) -> None:
        self.document = Document()
        self.text: list[str] = []
        self.words = Prose()
        self.number = 0

    def take(self, tree: Tree) -> None:
        """A document: paragraphs, in which there may be words of their own, sessions and headings."""
        line = ""
        for part in tree[1:] if isinstance(tree, list) else [tree]:
            if isinstance(part, str):
                line += part
            elif is_block(part):
                self.paragraphs(line)
                line = ""
                self.block(part)
            else:
                line += self.words.words(part)
        self.paragraphs(line)

    def paragraphs(self, text: str) -> None:
        self.text += [letters(unescaped(" ".join(one.split()))).strip() for one in re.split(r"\n\s*\n", text)]

    def block(self, tree: "list[Tree]") -> None:
        name = str(tree[0])
        listing = LISTING.fullmatch(name)
        if name == "session" and len(tree) == 4:
            self.session(text_of(tree[1]), text_of(tree[2]), tree[3])
        elif name in SCRIPTS and len(tree) == 5:
            self.session(text_of(tree[1]), text_of(tree[2]), ["document", ["input", "", tree[3], tree[4]]])
        elif name in HEADINGS:
            self.text.append(f"{HEADINGS[name]} {letters(unescaped(''.join(map(self.words.words, tree[1:]))))}")
        elif name in DISPLAYS:
            self.paragraphs(self.words.formulas.display(tree))
        elif name in TABLES:
            self.text.append(letters(unescaped(self.words.table(tree))))
        elif listing:
            self.text.append(fenced(lines_of(["document", *tree[1:]]), listing[1] if listing[1] and listing[1] != "verbatim" else "text"))
        elif name == "document":
            self.take(tree)
        elif tree[0] not in HIDDEN:
            for part in tree[1:]:
                self.take(["document", part])

    def prose(self) -> None:
        text = "\n\n".join(filter(None, self.text))
        self.text = []
        if text:
            self.number += 1
            self.document.cells.append(prose_cell(f"text {self.number}", text))

    def session(self, language: str, name: str, body: Tree) -> None:
        self.prose()
        variant = name.partition(":")[0]
        hint = variant if language == "tmhost" else language
        own = hint if variant in ("default", hint) else variant
        for io in fields(body):
            self.number += 1
            try:
                text = lines_of(io[2], LANGUAGES.get(hint, hint), "math" in str(io[0])) if len(io) > 2 else ""
            except NoCode:
                self.document.left_out["inputs with formulas of which no code is known"] += 1
                continue
            if text and not text.startswith("%tmhost"):
                kind = f"inputs of {plain(hint)}"
                self.document.cells.append(Cell(f"input {self.number}", text, re.sub(r"[^A-Za-z0-9_-]", "-", own)[:32], (LANGUAGES.get(hint, hint),), True, kind))
            if len(io) > 3:
                self.document.left_out["outputs"] += 1


def read(data: bytes, has_prose: bool) -> Document:
    """The inputs of a document, and its text."""
    text = data.decode("latin-1").replace("\r\n", "\n")
    if not text.lstrip().startswith("<TeXmacs|"):
        raise Trouble("it is no document of TeXmacs: it doesn't begin with <TeXmacs|")
    taken = Taken()
    for part in Reader(text).body()[0]:
        if isinstance(part, list) and part[:1] == ["body"]:
            taken.take(["document", *part[1:]])
    taken.prose()
    if taken.words.pictures and has_prose:
        taken.document.left_out["pictures"] += taken.words.pictures
    if taken.words.formulas.unknown and has_prose:
        taken.document.notes.append(f"words of TeXmacs in formulas that stand by their names: {taken.words.formulas.unknown}")
    if not has_prose:
        taken.document.cells = [cell for cell in taken.document.cells if not cell.is_prose]
    return taken.document
