"""What stands in a tree of GNU TeXmacs: as Markdown, with its formulas as LaTeX, and as the code that an input in mathematics is.

All is written as the strings of a document are, a backslash before what has a meaning: `texmacs.py` takes these away.
"""
import re
from collections.abc import Iterator
from typing import Union

Tree = Union[str, "list[Tree]"]

NOT_SEEN = {"output", "style", "initial", "references", "auxiliary", "label", "hide-preamble", "eq-number", "no-number", "page-break", "vspace", "vspace*"}
PICTURES = {"image", "draw-over", "graphics", "postscript"}
MATHS = {"math"}
DISPLAYS = {"equation", "equation*", "eqnarray", "eqnarray*", "align", "align*", "gather", "gather*", "multline", "multline*", "displaymath"}
TABLES = {"tabular", "tabular*", "block", "block*", "table"}
MARKED = {"em": "*", "strong": "**", "verbatim": "`", "code*": "`", "tt": "`", "samp": "`", "kbd": "`", "math-tt": "`"}
LOGOS = {"TeXmacs", "LaTeX", "TeX"}
BLANKS = {"nbsp", "space", "hspace", "next-line", "new-line", "line-break"}

RAW = re.compile(r"\\<(?P<name>[^<>\\]+)\\>|\\(?P<escaped>.)|(?P<word>[A-Za-z]{2,})|(?P<special>[%#&$_{}~^])|(?P<other>.)", re.DOTALL)
OPERATORS = frozenset("sin cos tan cot sec csc arcsin arccos arctan sinh cosh tanh exp log ln det gcd lim limsup liminf max min sup inf dim ker deg arg Pr hom".split())
FAMILIES = {"bbb": "mathbb", "cal": "mathcal", "frak": "mathfrak", "b": "mathbf"}
LETTERS = {
    "less": r"\<less\>", "gtr": r"\<gtr\>", "mathe": "e", "mathi": "i", "mathd": "d", "mathpi": r"\\pi ", "assign": ":=", "backslash": r"\\backslash ", "comma": ",",
    "upl": "+", "um": "-", "space": r"\\ ", "nobracket": "", "nocomma": "", "nosymbol": "", "of": ":", "ast": r"\\ast ", "point": ".", "longequal": "=",
    "leqslant": r"\\leqslant ", "geqslant": r"\\geqslant ", "rightarrow": r"\\rightarrow ", "cdots": r"\\cdots ", "ldots": r"\\ldots ",
}
FRACTIONS = {"frac": "frac", "dfrac": "dfrac", "tfrac": "tfrac", "cfrac": "cfrac", "frac*": "frac", "binom": "binom"}
FACES = {"math-up": "mathrm", "math-bf": "mathbf", "math-it": "mathit", "math-ss": "mathsf", "text": "text", "mbox": "text"}
SCRIPTS = {"rsup": "^{{{}}}", "rsub": "_{{{}}}", "lsup": "{{}}^{{{}}}", "lsub": "{{}}_{{{}}}"}
HATS = {"^": "widehat", "~": "widetilde", r"\<bar\>": "overline", r"\<vect\>": "vec", r"\<dot\>": "dot", r"\<ddot\>": "ddot", r"\<check\>": "check", r"\<breve\>": "breve"}
MATRICES = {"matrix": "pmatrix", "bmatrix": "bmatrix", "det": "vmatrix", "choice": "cases", "stack": "matrix"}
BRACKETS = {"{": r"\\{", "}": r"\\}", r"\<langle\>": r"\\langle ", r"\<rangle\>": r"\\rangle ", r"\<nobracket\>": ".", "": "."}

# Of code: what letters are in it.
SIGNS = {"less": r"\<less\>", "gtr": r"\<gtr\>", "leq": r"\<less\>=", "leqslant": r"\<less\>=", "geq": r"\<gtr\>=", "geqslant": r"\<gtr\>=", "times": "*", "cdot": "*", "ast": "*", "assign": ":=",
         "upl": "+", "um": "-", "comma": ",", "nobracket": "", "nocomma": "", "nosymbol": ""}
CODE_LETTER = re.compile(r"\\<([^<>\\]+)\\>")
OF_PYTHON = ("python", "sympy")


class NoCode(Exception):
    """An input in mathematics has what no interpreter is given here."""


def is_named(tree: Tree, names: "set[str]") -> bool:
    return isinstance(tree, list) and bool(tree) and tree[0] in names


def flat(tree: Tree) -> str:
    """A string that stands alone in a tree, as a bracket or the name of a sign."""
    return tree.strip() if isinstance(tree, str) else "".join(map(flat, tree[1:]))


def rows(tree: Tree) -> "Iterator[list[Tree]]":
    """The cells of each row of a table, wherever it stands in a tree."""
    if isinstance(tree, str):
        return
    if tree and tree[0] == "row":
        yield [one[1] if len(one) > 1 else "" for one in tree[1:] if isinstance(one, list) and one[:1] == ["cell"]]
    else:
        for part in tree[1:]:
            yield from rows(part)


# ---- formulas


class Formulas:
    """Formulas as LaTeX. What isn't known stands in it with its name, as `\\mathrm{name}(a, b)`, and is counted."""

    def __init__(self) -> None:
        self.unknown = 0

    def latex(self, tree: Tree) -> str:
        if isinstance(tree, str):
            return RAW.sub(letter, tree)
        name, parts = str(tree[0]) if tree else "", tree[1:]
        if name in ("concat", "document", "para", "math", "op", "with", "active*", "tformat", "shrink-inline"):
            return self.latex(parts[-1]) if name == "with" and parts else "".join(map(self.latex, parts))
        if name in NOT_SEEN:
            return ""
        if name in BLANKS:
            return r"\\ "
        if name in MATRICES:
            return self.matrix(MATRICES[name], tree)
        if name in TABLES or is_named(parts[0] if parts else "", {"table"}):
            return self.matrix("matrix", tree)
        return self.word(name, parts)

    def word(self, name: str, parts: "list[Tree]") -> str:
        """A tree of a formula that has a name."""
        reported = [self.latex(part) for part in parts]
        if name in FRACTIONS and len(reported) == 2:
            return rf"\\{FRACTIONS[name]}{{{reported[0]}}}{{{reported[1]}}}"
        if name == "sqrt" and reported:
            return rf"\\sqrt[{reported[1]}]{{{reported[0]}}}" if len(reported) > 1 else rf"\\sqrt{{{reported[0]}}}"
        if name in SCRIPTS and reported:
            return SCRIPTS[name].format(reported[0])
        if name == "rprime" and reported:
            return "^{" + reported[0].replace("'", r"\\prime ").replace(r"\<dag\>", r"\\dag ") + "}"
        if name in FACES and reported:
            return rf"\\{FACES[name]}{{{reported[0] if FACES[name] != 'text' else without_marks(parts[0])}}}"
        if name in ("around", "around*") and len(reported) == 3:
            return rf"\\left{bracket(parts[0])}{reported[1]}\\right{bracket(parts[2])}"
        if name in ("left", "right", "mid", "left*", "right*") and reported:
            found = bracket(parts[0])
            return "" if found == "." else found
        if name in ("big", "big-around") and reported:
            sign = flat(parts[0]).removeprefix(r"\<").removesuffix(r"\>").removeprefix("big")
            return (rf"\\{sign} " if re.fullmatch("[A-Za-z]+", sign) else "") + "".join(reported[1:])
        if name in ("wide", "wide*") and len(reported) == 2:
            hat = HATS.get(flat(parts[1]), "overline")
            return rf"\\{hat if name == 'wide' else 'underline'}{{{reported[0]}}}"
        if name in ("above", "below") and len(reported) == 2:
            return rf"\\{'overset' if name == 'above' else 'underset'}{{{reported[1]}}}{{{reported[0]}}}"
        self.unknown += 1
        return rf"\\mathrm{{{name}}}({', '.join(reported)})"

    def matrix(self, name: str, tree: Tree) -> str:
        lines = r" \\\\ ".join(" & ".join(map(self.latex, row)) for row in rows(tree))
        return rf"\\begin{{{name}}}{lines}\\end{{{name}}}"

    def inline(self, tree: Tree) -> str:
        """A formula between dollars."""
        text = " ".join(self.latex(tree).split())
        return f"${text}$" if text else ""

    def display(self, tree: "list[Tree]") -> str:
        """One with a paragraph for itself; several lines of it stand one below the other."""
        lines = [[self.latex(cell).strip() for cell in row] for row in rows(tree)] if not any(is_named(part, set(MATRICES)) for part in tree[1:]) and is_aligned(tree) else []
        reported = r" \\\\ ".join(row[0] + " & " + " ".join(row[1:]) for row in lines)
        text = rf"\\begin{{aligned}}{reported}\\end{{aligned}}" if lines else self.latex(["document", *tree[1:]])
        text = " ".join(text.split())
        return f"$${text}$$" if text else ""


def is_aligned(tree: "list[Tree]") -> bool:
    return str(tree[0]).startswith(("eqnarray", "align"))


def letter(found: "re.Match[str]") -> str:
    """A letter of a formula, or a word, as LaTeX has it."""
    name, escaped, word, special, other = found.group("name", "escaped", "word", "special", "other")
    if name:
        family, _, rest = name.partition("-")
        if family in FAMILIES and rest:
            return rf"\\{FAMILIES[family]}{{{rest}}}"
        return LETTERS.get(name) or ("" if name in LETTERS else rf"\\{name} " if name.isalpha() else found[0])
    if escaped:
        return {" ": r"\\ ", ";": "", "\\": r"\\backslash ", "\n": ""}.get(escaped, found[0])
    if word:
        return rf"\\{word} " if word in OPERATORS else rf"\\mathrm{{{word}}}"
    if special:
        return r"\\" + special if special not in "~^" else rf"\\{special}{{}}"
    return " " if other == "*" else other


def bracket(tree: Tree) -> str:
    reported = flat(tree)
    return BRACKETS.get(reported, reported)


def without_marks(tree: Tree) -> str:
    """The words within a formula, in which LaTeX gives signs a meaning."""
    return re.sub(r"[%#&$_{}~^]", lambda found: r"\\" + found[0], flat_words(tree))


def flat_words(tree: Tree) -> str:
    return tree if isinstance(tree, str) else "".join(map(flat_words, tree[-1:] if is_named(tree, {"with"}) else tree[1:]))


# ---- code


def code(tree: Tree, language: str, is_mathematics: bool) -> str:
    """The code of an input. One in mathematics is written on a line, as `(1)/(2)`; NoCode, where that isn't known of what it has."""
    if isinstance(tree, str):
        return CODE_LETTER.sub(code_letter, tree.replace("^", "**") if language in OF_PYTHON else tree) if is_mathematics else tree
    name, parts = str(tree[0]) if tree else "", tree[1:]
    if name in ("concat", "document", "para"):
        return "".join(code(part, language, is_mathematics) for part in parts)
    if name in ("with", "math", "math-up", "op") and parts:
        return code(parts[-1], language, is_mathematics or name == "math")
    reported = [code(part, language, True) for part in parts]
    if name == "frac" and len(reported) == 2:
        return f"({reported[0]})/({reported[1]})"
    if name == "sqrt" and len(reported) == 1:
        return f"sqrt({reported[0]})"
    if name == "rsup" and len(reported) == 1:
        return f"{'**' if language in OF_PYTHON else '^'}({reported[0]})"
    if name in ("around", "around*") and len(reported) == 3:
        return "".join(reported)
    raise NoCode(name)


def code_letter(found: "re.Match[str]") -> str:
    name = found[1]
    if name in SIGNS:
        return SIGNS[name]
    if name.isalpha() and name not in ("mathe", "mathi", "mathd", "infty", "partial"):
        return name
    raise NoCode(name)


# ---- prose


class Prose:
    """Text between sessions, as Markdown."""

    def __init__(self) -> None:
        self.formulas = Formulas()
        self.pictures = 0

    def words(self, tree: Tree) -> str:
        """What stands in a line."""
        if isinstance(tree, str):
            return tree
        name, parts = str(tree[0]) if tree else "", tree[1:]
        if name in NOT_SEEN or not name:
            return ""
        if name in PICTURES:
            self.pictures += 1
            return ""
        if name in LOGOS and not parts:
            return name
        if name in BLANKS:
            return " "
        if name in MATHS:
            return self.formulas.inline(["concat", *parts])
        if name == "item":
            return "- "
        if name == "with":
            reported = dict(zip(map(flat, parts[:-1:2]), map(flat, parts[1:-1:2])))
            inner = parts[-1] if parts else ""
            return self.formulas.inline(inner) if reported.get("mode") == "math" else marked(self.words(inner), "**" if reported.get("font-series") == "bold" else "")
        if name == "item*":
            return "- " + marked("".join(map(self.words, parts)), "**") + " "
        if name in ("hlink", "href") and len(parts) in (1, 2):
            return f"[{self.words(parts[0])}]({flat(parts[-1])})" if len(parts) == 2 else flat(parts[0])
        if name in ("cite", "reference", "eqref", "pageref"):
            return f"[{', '.join(map(flat, parts))}]"
        if name == "footnote":
            return f" ({''.join(map(self.words, parts))})"
        return marked("".join(map(self.words, parts)), MARKED.get(name, ""))

    def table(self, tree: Tree) -> str:
        """A table, whose first row is its head."""
        lines = ["| " + " | ".join(" ".join(self.words(cell).split()) for cell in row) + " |" for row in rows(tree)]
        columns = max((line.count("|") - 1 for line in lines[:1]), default=0)
        return "\n".join([*lines[:1], "|---" * columns + "|", *lines[1:]]) if lines else ""


def marked(text: str, mark: str) -> str:
    """A text between marks of Markdown, where it has something that they may stand at."""
    inner = text.strip()
    if not mark or not inner or mark in inner or "\n\n" in inner:
        return text
    before, after = text[: len(text) - len(text.lstrip())], text[len(text.rstrip()) :]
    return f"{before}{mark}{inner}{mark}{after}"
