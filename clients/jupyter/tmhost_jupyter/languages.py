"""The adapters that a kernel is installed for by one word, and what front ends get to know of their languages."""
import os
from typing import Any, Dict, NamedTuple, Sequence, Tuple


class Language(NamedTuple):
    """`words` start its adapter, `tab` says that this answers completions; `code` is what front ends and nbconvert colour its code by."""

    title: str
    words: Tuple[str, ...]
    tab: bool = False
    code: str = ""
    mime: str = "text/plain"
    ending: str = ".txt"


LANGUAGES: Dict[str, Language] = {
    "bc": Language("bc", ("tmhost-bc",), ending=".bc"),
    "coqtop": Language("Coq", ("tmhost-coqtop",), code="coq", ending=".v"),
    "fricas": Language("FriCAS", ("tmhost-fricas",), ending=".input"),
    "gap": Language("GAP", ("tmhost-gap",), code="gap", ending=".g"),
    "ghci": Language("Haskell", ("tmhost-ghci",), code="haskell", mime="text/x-haskell", ending=".hs"),
    "giac": Language("giac", ("tmhost-giac", "--latex")),
    "gnuplot": Language("gnuplot", ("tmhost-gnuplot",), code="gnuplot", ending=".gp"),
    "gp": Language("PARI/GP", ("tmhost-gp", "--no-numbers"), True, ending=".gp"),
    "guile": Language("Guile", ("tmhost-guile",), code="scheme", mime="text/x-scheme", ending=".scm"),
    "lua": Language("Lua", ("tmhost-lua",), True, "lua", "text/x-lua", ".lua"),
    "M2": Language("Macaulay2", ("tmhost-M2", "--latex"), code="macaulay2", ending=".m2"),
    "maxima": Language("Maxima", ("tmhost-maxima", "--latex"), True, "maxima", ending=".mac"),
    "node": Language("Node", ("tmhost-node",), code="javascript", mime="text/javascript", ending=".js"),
    "ocaml": Language("OCaml", ("tmhost-ocaml",), code="ocaml", mime="text/x-ocaml", ending=".ml"),
    "octave": Language("Octave", ("tmhost-octave",), True, "octave", "text/x-octave", ".m"),
    "perl": Language("Perl", ("tmhost-perl",), code="perl", mime="text/x-perl", ending=".pl"),
    "python": Language("Python", ("tmhost-python",), True, "python", "text/x-python", ".py"),
    "R": Language("R", ("tmhost-R",), True, "r", "text/x-rsrc", ".r"),
    "ruby": Language("Ruby", ("tmhost-ruby",), code="ruby", mime="text/x-ruby", ending=".rb"),
    "sbcl": Language("SBCL", ("tmhost-sbcl",), code="common-lisp", mime="text/x-common-lisp", ending=".lisp"),
    "sh": Language("sh", ("tmhost-sh",), code="bash", mime="text/x-sh", ending=".sh"),
    "singular": Language("Singular", ("tmhost-singular",), ending=".sing"),
    "sqlite3": Language("SQLite", ("tmhost-sqlite3",), code="sql", mime="text/x-sql", ending=".sql"),
    "swipl": Language("SWI-Prolog", ("tmhost-swipl",), code="prolog", mime="text/x-prolog", ending=".pl"),
    "tcl": Language("Tcl", ("tmhost-tcl",), True, "tcl", "text/x-tcl", ".tcl"),
    "yacas": Language("yacas", ("tmhost-yacas",), ending=".ys"),
}
PREFIX = "tmhost-"
BY_A_NAME = ("jupyter", "prompted.py")  # adapters whose next word says what they adapt
KERNELS = {"ir": "R", "python3": "python", "xpython": "python"}


def language_of(words: Sequence[str]) -> str:
    """The language that an interpreter with these words is likely to have."""
    names = [os.path.basename(word).removeprefix(PREFIX) for word in words if not word.startswith("-")]
    for name, next_name in zip(names, [*names[1:], ""]):
        if name in BY_A_NAME:
            return KERNELS.get(next_name, next_name)
        if name in LANGUAGES:
            return name
    return names[0] if names else ""


def reported_of(name: str) -> Dict[str, Any]:
    """What a front end gets to know of a language."""
    known = LANGUAGES.get(name, Language(name, ()))
    colours = {"codemirror_mode": known.code, "pygments_lexer": known.code} if known.code else {}
    return {"name": name or "text", "mimetype": known.mime, "file_extension": known.ending, **colours}
