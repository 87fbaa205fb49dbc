"""Lists of Scheme in a line: what TeXmacs asks, and what it is asked to do."""

import re
from typing import List, Sequence, Tuple, Union

Form = Union[str, "Name", List["Form"]]  # a string, a name or a number as it stands there, a list

TOKEN = re.compile(r'\s*(?:(?P<open>[(\[])|(?P<close>[)\]])|"(?P<text>(?:[^"\\]|\\.)*)"|(?P<name>[^\s()"\[\]]+))', re.DOTALL)
# A backslash before another letter stands for itself, as in a request of completions (docs/use/PROTOCOL.md).
ESCAPED = re.compile(r'\\(["\\])')


class Name(str):
    """A word that isn't between quotes."""


class NoForm(ValueError):
    """A text that isn't one list of Scheme."""


def read(text: str) -> List[Form]:
    """The list that a text is."""
    form, end = _read_list(text, 0, 0)
    if text[end:].strip():
        raise NoForm(text)
    return form


def _read_list(text: str, at: int, depth: int) -> Tuple[List[Form], int]:
    found = TOKEN.match(text, at)
    if not found or not found["open"] or depth > 100:
        raise NoForm(text)
    items: List[Form] = []
    while True:
        at = found.end()
        found = TOKEN.match(text, at)
        if not found:
            raise NoForm(text)
        if found["close"]:
            return items, found.end()
        if found["open"]:
            inner, end = _read_list(text, at, depth + 1)
            items.append(inner)
            found = re.compile("").match(text, end)
            assert found
        elif found["name"]:
            items.append(Name(found["name"]))
        else:
            items.append(ESCAPED.sub(r"\1", found["text"]))


def written(form: Union[Form, Sequence[Form]]) -> str:
    """A list as Scheme reads it."""
    if isinstance(form, Name):
        return str(form)
    if isinstance(form, str):
        return '"' + re.sub(r'(["\\])', r"\\\1", form) + '"'
    return "(" + " ".join(written(item) for item in form) + ")"


def strings(form: Form) -> List[str]:
    """The strings of a list."""
    return [item for item in form if isinstance(item, str) and not isinstance(item, Name)] if isinstance(form, list) else []
