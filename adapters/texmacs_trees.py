"""Trees of Scheme, as plugins of TeXmacs write their values (`(with "mode" "math" (frac "1" "2"))`), as LaTeX or as text."""
import re
from typing import Callable, Dict, List, Optional, Union

Tree = Union[str, List["Tree"]]

TOKEN = re.compile(r'\s*(?:(?P<open>\()|(?P<close>\))|"(?P<text>(?:[^"\\]|\\.)*)"|(?P<name>[^\s()"]+))', re.DOTALL)
DEEPEST = 200
NAMED = re.compile(r"<(#[0-9A-Fa-f]+|[A-Za-z][A-Za-z0-9-]*)>")  # a letter of TeXmacs
# Those whose names aren't LaTeX's own.
LETTERS = {
    "less": "<", "gtr": ">", "leqslant": "\\leqslant", "geqslant": "\\geqslant", "mathi": "i", "mathe": "e", "mathd": "d", "mathpi": "\\pi", "matheuler": "\\gamma",
    "times": "\\times", "cdot": "\\cdot", "nosymbol": "", "ldots": "\\ldots", "mid": "|", "longminus": "-", "upl": "+", "um": "-", "upm": "\\pm", "assign": ":=",
    "longequal": "=", "rightarrow": "\\rightarrow", "infty": "\\infty", "minus": "-", "noplus": "", "comma": ",", "point": ".", "row": "", "hbar": "\\hbar",
    "bbb-N": "\\mathbb{N}", "bbb-Z": "\\mathbb{Z}", "bbb-Q": "\\mathbb{Q}", "bbb-R": "\\mathbb{R}", "bbb-C": "\\mathbb{C}", "backslash": "\\backslash",
}
SPECIAL = re.compile(r"[#$%&_{}]")
BRACKETS = {"{": "\\{", "}": "\\}", "<langle>": "\\langle", "<rangle>": "\\rangle", "<nobracket>": ".", ".": ".", "<lfloor>": "\\lfloor", "<rfloor>": "\\rfloor",
            "<lceil>": "\\lceil", "<rceil>": "\\rceil", "<||>": "\\|"}
WRITTEN = {  # LaTeX of a tree by its arguments
    "frac": r"\frac{%s}{%s}", "tfrac": r"\tfrac{%s}{%s}", "dfrac": r"\dfrac{%s}{%s}", "cfrac": r"\cfrac{%s}{%s}", "rsup": "^{%s}", "rsub": "_{%s}",
    "rprime": "%s", "binom": r"\binom{%s}{%s}", "matrix": r"\begin{pmatrix}%s\end{pmatrix}", "bmatrix": r"\begin{bmatrix}%s\end{bmatrix}",
    "det": r"\begin{vmatrix}%s\end{vmatrix}", "tabular*": r"\begin{matrix}%s\end{matrix}", "tabular": r"\begin{matrix}%s\end{matrix}",
    "choice": r"\begin{cases}%s\end{cases}", "stack": r"\begin{matrix}%s\end{matrix}", "op": "%s", "math": "%s", "math-up": r"\mathrm{%s}", "math-ss": r"\mathsf{%s}",
    "cell": "%s", "lsup": "{}^{%s}", "lsub": "{}_{%s}", "strong": r"\mathbf{%s}", "around": "%s", "above": r"\overset{%s}{}", "equation*": "%s", "equation": "%s",
}


class NoTree(ValueError):
    """What isn't one tree, or has a part that there is no LaTeX for."""


def read(text: str) -> Tree:
    """The tree that a text is. A name by itself, or a number, is a string."""
    tree, at = _read(text, 0, 0)
    if text[at:].strip():
        raise NoTree(text)
    return tree


def _read(text: str, at: int, depth: int) -> "tuple[Tree, int]":
    found = TOKEN.match(text, at)
    if not found or found["close"] or depth > DEEPEST:
        raise NoTree(text)
    if not found["open"]:
        return _string(found), found.end()
    items: List[Tree] = []
    at = found.end()
    while True:
        found = TOKEN.match(text, at)
        if not found:
            raise NoTree(text)
        if found["close"]:
            return items, found.end()
        item, at = _read(text, at, depth + 1)
        items.append(item)


def _string(found: "re.Match[str]") -> str:
    return found["name"] if found["name"] is not None else re.sub(r"\\(.)", r"\1", found["text"], flags=re.DOTALL)


# ---- LaTeX


def latex(tree: Tree) -> str:
    """A value in a formula, without dollars."""
    if isinstance(tree, str):
        return letters(tree)
    name, *parts = tree
    if not isinstance(name, str):
        raise NoTree(str(tree))
    if name in SPECIALS:
        return SPECIALS[name](parts)
    pattern = WRITTEN.get(name)
    if pattern is None or pattern.count("%s") != len(parts):
        raise NoTree(name)
    return pattern % tuple(latex(part) for part in parts)


def letters(text: str) -> str:
    """A string of a formula. Two letters or more are a name, as TeXmacs sets them."""
    shown = ""
    for word in re.split(r"(<[^<>\s]+>)", text):
        found = NAMED.fullmatch(word)
        if found:
            shown += letter(found[1])
        else:
            plain = SPECIAL.sub(lambda one: "\\" + one[0], word.replace("\\", "\x00").replace("~", "\\sim ").replace("^", "\\hat{}"))
            shown += re.sub(r"([A-Za-z]{2,})", r"\\mathrm{\1}", plain).replace("\x00", "\\backslash ")
    return shown


def letter(name: str) -> str:
    if name.startswith("#"):
        return chr(int(name[1:], 16)) if 31 < int(name[1:], 16) < 0x110000 else ""
    found = LETTERS.get(name)
    return ("\\" + name if found is None else found) + (" " if found is None or found.startswith("\\") else "")


def joined(parts: List[Tree]) -> str:
    return "".join(map(latex, parts))


def with_values(parts: List[Tree]) -> str:
    """`(with NAME VALUE .. BODY)`: colours and sizes go."""
    return latex(parts[-1]) if parts else ""


def root(parts: List[Tree]) -> str:
    if len(parts) == 2:
        return r"\sqrt[%s]{%s}" % (latex(parts[1]), latex(parts[0]))
    return r"\sqrt{%s}" % joined(parts)


def bracket(side: str) -> Callable[[List[Tree]], str]:
    def one(parts: List[Tree]) -> str:
        text = parts[0] if parts and isinstance(parts[0], str) else ""
        return f"\\{side}{BRACKETS.get(text, text)}" if text else f"\\{side}."
    return one


def around(parts: List[Tree]) -> str:
    if len(parts) != 3:
        raise NoTree("around*")
    return f"{bracket('left')(parts[:1])}{latex(parts[1])}{bracket('right')(parts[2:])}"


def big(parts: List[Tree]) -> str:
    names = {"sum": "\\sum ", "int": "\\int ", "prod": "\\prod ", "intlim": "\\int ", ".": ""}
    return names.get(parts[0], "\\" + parts[0] + " ") if parts and isinstance(parts[0], str) else ""


def wide(parts: List[Tree]) -> str:
    names = {"^": "\\widehat", "~": "\\widetilde", "<bar>": "\\overline", "<vect>": "\\vec", "<dot>": "\\dot", "<ddot>": "\\ddot"}
    if len(parts) != 2 or parts[1] not in names:
        raise NoTree("wide")
    return "%s{%s}" % (names[str(parts[1])], latex(parts[0]))


def prime(parts: List[Tree]) -> str:
    return "'" * (len(parts[0]) if parts and isinstance(parts[0], str) else 1)


def with_body(parts: List[Tree]) -> str:
    """`(tformat (cwith ..) .. (table ..))`"""
    return latex(parts[-1]) if parts else ""


SPECIALS: Dict[str, Callable[[List[Tree]], str]] = {
    "with": with_values, "concat": joined, "document": joined, "sqrt": root, "left": bracket("left"), "right": bracket("right"), "mid": bracket("middle"),
    "around*": around, "around": around, "big": big, "bigop": big, "wide": wide, "wide*": wide, "rprime": prime, "tformat": with_body,
    "table": lambda parts: r"\\ ".join(map(latex, parts)), "row": lambda parts: "&".join(map(latex, parts)), "math-it": joined, "text": lambda parts: r"\text{%s}" % plain(["concat", *parts]),
    "verbatim": lambda parts: r"\mathtt{%s}" % joined(parts), "hspace": lambda parts: "\\;", "space": lambda parts: "\\;", "syntax": lambda parts: latex(parts[0]) if parts else "",
    "neg": lambda parts: "\\not " + joined(parts), "errput": joined, "nbsp": lambda parts: "\\;", "next-line": lambda parts: " ",
}


# ---- text


def plain(tree: Tree) -> str:
    """A tree as a text: what stands in it, line below line where it is a document."""
    if isinstance(tree, str):
        return NAMED.sub(lambda found: unnamed(found[1]), tree)
    name, *parts = tree
    if name == "with" and parts:
        return plain(parts[-1])
    return ("\n" if name == "document" else "").join(map(plain, parts))


def unnamed(name: str) -> str:
    if name.startswith("#"):
        return chr(int(name[1:], 16)) if int(name[1:], 16) < 0x110000 else "?"
    return LETTERS[name] if name in LETTERS and not LETTERS[name].startswith("\\") else name


def is_formula(tree: Tree) -> bool:
    """Whether something in a tree is set as a formula."""
    if isinstance(tree, str):
        return False
    if tree[:3] == ["with", "mode", "math"] or tree and tree[0] in ("math", "equation*", "equation"):
        return True
    return any(map(is_formula, tree[1:]))


def formula(text: str) -> Optional[str]:
    """What a tree is in LaTeX, between dollars; None where it is no formula, or none that LaTeX has."""
    try:
        tree = read(text)
        return f"${' '.join(latex(tree).split())}$" if is_formula(tree) else None
    except (NoTree, RecursionError, IndexError):
        return None


def as_text(text: str) -> str:
    """A tree that is no formula as a text; as it stands where it is no tree."""
    try:
        return plain(read(text))
    except (NoTree, RecursionError):
        return text
