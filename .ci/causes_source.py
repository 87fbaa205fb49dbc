"""What .ci/causes reads of a file of Rust: its code with blanks for all else, its brackets, and its functions.

There is no parser here. All is read by brackets and words, and a type is known only where a function's head says it.
"""

from __future__ import annotations

import re
from bisect import bisect_left
from typing import NamedTuple, Optional

# A comment, a string, a character.
TEXT = re.compile(r"""//[^\n]*|b?"(?:\\.|[^"\\])*"|b?'(?:\\(?:x\w\w|u\{\w+\}|.)|[^'\\\n])'""", re.S)
USE = re.compile(r"^ *(?:pub(?:\(\w+\))? )?use\b[^;]*;", re.M)
BRACKET = re.compile(r"[()\[\]{}]")
# What makes no value: attributes, imports, contracts, ghost code. One that ends in a bracket goes to its other one.
STATED = re.compile(
    r"#!?\["
    r"|\b(?:use\b[^;]*;|ghost use\b[^;]*;|pub\b(?:\([^)]*\))?"
    r"|ensures\b[^{]*\{|requires\b[^{]*\{|ghost [^{]*\{)"
)
# Heads of declarations, and whole ones of types.
DECLARED = re.compile(
    r"\b(?:struct|enum)\b[^{(;]*[{(;]"
    r"|\btype\b[^;]*;"
    r"|\b(?:impl|trait)\b[^{;]*"
    r"|(?<!')\b(?:const|static)\b[^=;]*"
)
# The head of a function up to its parenthesis, and from the other one what it gives, up to its body.
FUNCTION = re.compile(r"\bfn (\w+)[^(;]*(\()")
TYPE = re.compile(r"(?:[^{;\[]|\[[^\]]*\])*")
CALLED = re.compile(r"(?<![.\w])[a-z]\w*$")
# Signs that stand deeper in brackets are written otherwise, so that a pattern over a text sees those of its own depth.
DEEPER = str.maketrans("()[]{},;=&|!", "⟨⟩⟦⟧⦃⦄‚⁏꞊⅋⏐ǃ")
PLAIN = str.maketrans("⟨⟩⟦⟧⦃⦄‚⁏꞊⅋⏐ǃ", "()[]{},;=&|!")
# How far in front of a place a name is looked for.
NEAR = 99


class Function(NamedTuple):
    """A function with a body: what stands in its parentheses, what it gives, and where its body is opened."""

    file: Source
    name: str
    takes: str
    gives: str
    opened: int


def blank(text: str) -> str:
    """Blanks in the place of a text, with its lines."""
    return re.sub(r".+", lambda line: " " * len(line[0]), text)


def words_in(text: str) -> set[str]:
    """The words of a text."""
    return set(re.findall(r"\w+", text))


def pairs_of(code: str) -> dict[int, int]:
    """Reads where the other bracket of each bracket stands. -1 is that of one around the whole file."""
    pair, opened = {-1: len(code)}, list[int]()
    for it in BRACKET.finditer(code):
        if it[0] in ")]}":
            other = opened.pop()
            pair[it.start()], pair[other] = other, it.start()
        else:
            opened.append(it.start())
    return pair


class Source:
    """The code of a file. Blanks stand for all else, so that each place has the offset that it has in the file."""

    def __init__(self, path: str, text: str) -> None:
        """Reads a file of the folder `crates`: `path` begins with the name of a crate."""
        self.path, self.crate = path, path.partition("/")[0]
        self.uses = " ".join(USE.findall(text))
        self.code = TEXT.sub(lambda it: blank(it[0]), text)
        self.pair = pairs_of(self.code)
        self.cut([it.span() for it in STATED.finditer(self.code)])
        heads = self.heads()
        self.functions = [self.function(*head) for head in heads if self.code[head[1].end()] == "{"]
        declared = [it.span() for it in DECLARED.finditer(self.code)]
        self.cut([(it.start(), rest.end()) for it, rest in heads] + declared)
        self.brackets = [at for at in sorted(self.pair) if at < 0 or self.code[at] != " "]

    def cut(self, spans: list[tuple[int, int]]) -> None:
        """Blanks these spans. One that ends in a bracket goes on to its other one."""
        for start, end in spans:
            end = max(end, self.pair.get(end - 1, 0) + 1)
            self.code = self.code[:start] + blank(self.code[start:end]) + self.code[end:]

    def heads(self) -> list[tuple[re.Match[str], re.Match[str]]]:
        """Reads each function's head: up to its first parenthesis, and from its last one to the body or semicolon."""
        found = [(it, TYPE.match(self.code, self.pair[it.start(2)] + 1)) for it in FUNCTION.finditer(self.code)]
        return [(it, rest) for it, rest in found if rest]

    def function(self, it: re.Match[str], rest: re.Match[str]) -> Function:
        """Reads the two parts of a head."""
        gives = re.sub(r"(?s)->|\bwhere\b.*", "", rest[0]).strip()
        return Function(self, it[1], self.code[it.end() : rest.start() - 1], gives, rest.end())

    def body(self, function: Function) -> str:
        """What stands between the brackets of a function of this file."""
        return self.code[function.opened + 1 : self.pair[function.opened]]

    def within(self, at: int) -> Function:
        """The innermost function in which this stands, or one without a name where it stands in none."""
        around = [it for it in self.functions if it.opened < at < self.pair[it.opened]]
        return around[-1] if around else Function(self, "", "", "", -1)

    def place(self, at: int) -> str:
        """The file and the line of a place, as messages name them."""
        return f"crates/{self.path}:{self.code.count(chr(10), 0, at) + 1}"

    def near(self, at: int) -> str:
        """What stands directly in front of a place."""
        return self.code[max(at - NEAR, 0) : at]

    def front(self, at: int) -> tuple[int, str]:
        """Reads in which bracket this stands, and what is in front of it there. What is deeper has other signs."""
        said, place = "", bisect_left(self.brackets, at) - 1
        while self.pair[self.brackets[place]] < self.brackets[place]:
            closed, opened = self.brackets[place], self.pair[self.brackets[place]]
            inside = self.code[opened + 1 : closed].translate(DEEPER)
            said = self.code[opened] + inside + self.code[closed:at] + said
            at, place = opened, bisect_left(self.brackets, opened) - 1
        return self.brackets[place], self.code[self.brackets[place] + 1 : at] + said

    def is_given(self, at: int) -> bool:
        """Whether what stands here is an argument of a function: reads the name in front of its parenthesis."""
        opened = self.front(at)[0]
        return opened >= 0 and self.code[opened] == "(" and bool(CALLED.search(self.near(opened)))

    def type_of(self, function: Function, name: str) -> Optional[str]:
        """The type of an argument of a function, by what stands in its parentheses; None where it has none so named."""
        it = re.search(rf"\b{name}: (.*?)(?:,\s*\w+: |,?\s*$)", function.takes, re.S)
        return it[1] if it else None

    def bound_to(self, function: Function, name: str) -> Optional[str]:
        """What the first `let` of this name from a function on binds; None where there is none."""
        it = re.compile(rf"\blet\b[^=;]*\b{name}\b[^=;]*=([^;]*)").search(self.code, function.opened)
        return it[1] if it else None

    def imported_from(self, name: str) -> list[str]:
        """The crates from which imports of this file have a word."""
        return re.findall(rf"\buse (\w+)::[^;]*\b{name}\b", self.uses)
