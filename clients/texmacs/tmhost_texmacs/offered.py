"""The sessions that are offered: those of a worksheet, and one for each interpreter that is here."""

from typing import Dict, List, Optional, Tuple

from tmhost import Session, Worksheet
from tmhost_notebook.suggested import suggestions

Words = Tuple[str, bool]  # what starts an interpreter, and whether it answers completions


def adapters() -> Dict[str, Words]:
    """By the names of the sessions."""
    return {str(one["name"]): (str(one["words"]), bool(one["tab"])) for one in suggestions()}


def ensured(sheet: Worksheet, name: str) -> Optional[Session]:
    """The session with this name, which is made where there is an adapter for it."""
    found = sheet.sessions.get(name)
    if found is None and name in adapters():
        words, tab = adapters()[name]
        found = sheet.session(name, words, tab)
    return found


def none_of(sheet: Worksheet, name: str) -> str:
    """Says that there is no such session, and which there are."""
    names: List[str] = list(dict.fromkeys([*sheet.sessions, *adapters()]))
    return f"there is no session {name} in {sheet.path}, and no interpreter of that name; there are: {', '.join(names) or 'none'}"
