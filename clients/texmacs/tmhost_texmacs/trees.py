"""Texts and formulas as a document of TeXmacs has them: a backslash before what has a meaning, letters of the Cork encoding, `\\<#4E2D\\>` for others."""
import re
from typing import Dict, Iterator, List, Optional

from tmhost_fences.cork import CORK, QUOTES

CODES: Dict[str, str] = {
    **{letter: chr(0x80 + at) for at, letter in enumerate(CORK)}, **{letter: chr(at) for at, letter in QUOTES.items() if letter > "\x80"},
    "<": r"\<less\>", ">": r"\<gtr\>", "\\": r"\\", "|": r"\|",
}
NAMES = (
    "alpha beta gamma delta epsilon varepsilon zeta eta theta vartheta iota kappa lambda mu nu xi pi varpi rho sigma varsigma tau upsilon phi varphi chi psi omega Gamma Delta Theta "
    "Lambda Xi Pi Sigma Upsilon Phi Psi Omega infty partial nabla cdot times pm mp leq geq neq approx equiv sim in notin subset cup cap to mapsto rightarrow int sum prod ell hbar forall exists emptyset"
).split()
SYMBOLS = {**{name: rf"\<{name}\>" for name in NAMES}, "le": r"\<leq\>", "ge": r"\<geq\>", "ne": r"\<neq\>", "bmod": r"\<space\>mod\<space\>", "ldots": "...", "dots": "...", "cdots": r"\<cdots\>"}
OPERATORS = frozenset("sin cos tan cot sec csc arcsin arccos arctan sinh cosh tanh exp log ln det gcd lim max min dim ker deg".split())
SPACES = frozenset([",", ";", ":", "!", " ", "quad", "qquad", "displaystyle", "limits"])
TOKEN = re.compile(r"\\([A-Za-z]+|.)|([{}^_&])|(\s+)|(.)", re.DOTALL)
MATRICES = {"matrix": "tabular*", "pmatrix": "matrix", "bmatrix": "bmatrix", "vmatrix": "det", "array": "tabular*"}  # with their brackets


def letter(character: str) -> str:
    """A character of a text; one that the Cork encoding lacks by its number."""
    if character in CODES:
        return CODES[character]
    return character if " " <= character < "\x7f" else rf"\<#{ord(character):X}\>"


def tree_text(text: str) -> str:
    """A text as the string of a tree, which has no backslash of a document."""
    return re.sub(r"\\(.)", r"\1", "".join(map(letter, text)))


def line(text: str) -> str:
    """A line of an input or of an answer. Blanks at its ends, and the second one of two, stand with a backslash, since others may be joined."""
    reported = re.sub(r"^ | $|(?<= ) ", "\x00", text)
    written = "".join(r"\ " if character == "\x00" else letter(character) for character in reported)
    return written + r"\;" if not written or written.endswith(" ") else written


def paragraphs(text: str) -> List[str]:
    """The paragraphs of a text, one for each line."""
    return [line(one) for one in text.split("\n")]


class Unknown(Exception):
    """A formula has what isn't known here."""


class Formula:
    """Reads a formula of LaTeX as interpreters write it."""

    def __init__(self, text: str) -> None:
        self.tokens: List["re.Match[str]"] = list(TOKEN.finditer(text))
        self.at = 0

    def peek(self) -> Optional["re.Match[str]"]:
        while self.at < len(self.tokens) and self.tokens[self.at][3]:
            self.at += 1
        return self.tokens[self.at] if self.at < len(self.tokens) else None

    def take(self) -> "re.Match[str]":
        found = self.peek()
        if found is None:
            raise Unknown
        self.at += 1
        return found

    def items(self, *ends: str) -> Iterator[str]:
        """Items up to one of these marks, which stays; to the end where there is none."""
        while (found := self.peek()) and (found[0] not in ends):
            yield self.item()
        if found is None and ends:
            raise Unknown

    def item(self) -> str:
        found = self.take()
        if found[2] == "{":
            inner = "".join(self.items("}"))
            self.take()
            return inner
        if found[2] in ("^", "_"):
            return f"<{'rsup' if found[2] == '^' else 'rsub'}|{self.item()}>"
        if found[1]:
            return self.command(found[1])
        if found[4]:
            return letter(found[4])
        raise Unknown

    def command(self, name: str) -> str:
        if name in SYMBOLS:
            return SYMBOLS[name]
        if name in OPERATORS or name in "{}%$&#_":
            return rf"{name} " if name in OPERATORS else name
        if name in SPACES:
            return r"\ " if name in (" ", "quad", "qquad") else ""
        if name in ("frac", "sqrt", "binom"):
            return f"<{name}|" + "|".join(self.item() for _ in range(1 if name == "sqrt" else 2)) + ">"
        if name == "left":
            return self.around()
        if name in ("mathrm", "mathit", "mathbf", "text", "operatorname"):
            return f"<math-up|{self.item()}>"
        if name == "begin":
            return self.matrix()
        raise Unknown

    def bracket(self) -> str:
        found = self.take()
        reported = found[4] or (found[1] if found[1] in ("{", "}", "|") else None)
        if reported is None:
            raise Unknown
        return r"\<nobracket\>" if reported == "." else letter(reported)

    def around(self) -> str:
        """What stands between brackets that grow with it."""
        left = self.bracket()
        inner = "".join(self.items(r"\right"))
        self.take()
        return f"<around*|{left}|{inner}|{self.bracket()}>"

    def word(self) -> str:
        if self.take()[0] != "{":
            raise Unknown
        word = ""
        while (found := self.take())[0] != "}":
            word += found[0]
        return word

    def matrix(self) -> str:
        name = self.word()
        if name not in MATRICES:
            raise Unknown
        if name == "array":
            self.word()
        rows = [[""]]
        while (found := self.peek()) is not None:
            if found[0] == r"\end":
                break
            if found[0] in ("&", r"\\"):
                self.take()
                rows += [[""]] if found[0] != "&" else []
                if found[0] == "&":
                    rows[-1].append("")
                continue
            rows[-1][-1] += self.item()
        self.take()
        if self.word() != name:
            raise Unknown
        reported = "|".join("<row|" + "|".join(f"<cell|{cell}>" for cell in row) + ">" for row in rows if row != [""])
        return f"<{MATRICES[name]}|<tformat|<table|{reported}>>>"


def formula(text: str) -> Optional[str]:
    """The tree of a formula between dollars; None where it has what isn't known here."""
    found = re.fullmatch(r"\s*(\$\$?)([^$]+)\1\s*", text)
    if not found:
        return None
    try:
        return f"<math|{''.join(Formula(found[2]).items())}>"
    except Unknown:
        return None
