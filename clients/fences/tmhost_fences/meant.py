"""What a word at a fence is most likely a misspelling of: a session, the language of one, a flag or an option."""
import os
from typing import Dict, List, Optional

from tmhost.near import near
from tmhost.starting import ADAPTERS, COMMAND, adapter_meant

from .fields import language_in
from .front import Sessions

BY_KERNEL = "tmhost-jupyter"
# Other names that fences have for the languages of adapters, in lower case.
ALIASES = {
    "bash": "sh", "coq": "coqtop", "haskell": "ghci", "ipython": "python", "ir": "R", "javascript": "node", "js": "node", "lisp": "sbcl", "macaulay2": "M2",
    "nodejs": "node", "pari": "gp", "pari-gp": "gp", "perl5": "perl", "prolog": "swipl", "py": "python", "python3": "python", "rb": "ruby", "scheme": "guile",
    "shell": "sh", "sql": "sqlite3", "sqlite": "sqlite3", "tclsh": "tcl",
}
# Words of other fences, which are no misspellings, though they may be near to the name of a session.
OTHERS = frozenset(
    "ada asm awk bash bat bibtex c clojure cmake console cpp cs csh csharp css csv cxx d dart diff docker dockerfile elixir elm erlang fish fortran go graphql groovy "
    "haskell html http ini java javascript js json json5 jsonc jsx julia kotlin ksh latex less lisp lua m4 make makefile markdown matlab md mermaid mk nim nix objc ocaml "
    "octave output pascal patch perl php plain ps1 powershell prolog protobuf puml pycon python r rb rest rmd rst ruby rust sage sass scala scheme scss sed sh shell sml "
    "sql svg swift tcl tex text toml ts tsv tsx txt vb vim vue wasm xml yaml yml zig zsh".split()
)


def known(name: str) -> str:
    """The name that a language has among the adapters, in lower case."""
    return ALIASES.get(name.lower(), name).lower()


def languages(words: List[str]) -> List[str]:
    """The languages that an interpreter with these words evaluates, as far as they say."""
    names = [os.path.basename(word) for word in words]
    kernels = [word.rstrip("0123456789.-") for word in words[1:] if not word.startswith("-")] if BY_KERNEL in names else []
    adapters = [name[len(COMMAND) :] for name in names if name.startswith(COMMAND) and name != BY_KERNEL]
    return [language for language in [*adapters, *kernels, language_in(words)] if language]


def without_command(name: str) -> str:
    """The language of an adapter's name, also where that is misspelt; another name as it is."""
    adapter = name if name in ADAPTERS else adapter_meant(name) if name.startswith(COMMAND) else None
    return adapter.split()[0][len(COMMAND) :] if adapter else name


def session_meant(name: str, sessions: Sessions) -> Optional[str]:
    """The session that a fence with this name is most likely meant for: one whose interpreter has this language, or one whose name or language is a letter
    or two away."""
    if without_command(name) != name:
        name = without_command(name)
        if name in sessions:
            return name
    by_language: Dict[str, str] = {}
    for session, words in sessions.items():
        for language in languages(list(words)):
            by_language.setdefault(known(language), session)
    if known(name) in by_language:
        return by_language[known(name)]
    if not name or name.lower() in OTHERS:
        return None
    found = near(name, [*sessions, *by_language])
    return by_language.get(found, found) if found and found not in sessions else found
