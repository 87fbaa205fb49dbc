"""Which lines of Python are only a part of a statement, so that more is asked for. By the same rules the lines of a fence are one field."""

import re
from typing import Iterator, List

from tmhost import Session
from tmhost_fences.fields import DECORATOR, TEXTS, bared, language_in, opened

PYTHON = "python"
# Texts that may have several lines, from end to end.
CLOSED = (re.compile(r'"""(?:\\.|[^\\])*?"""', re.DOTALL), re.compile(r"'''(?:\\.|[^\\])*?'''", re.DOTALL))
LONG_QUOTES = ('"""', "'''")


def is_of_python(session: Session) -> bool:
    return language_in(session.words) == PYTHON


def depths(bare: List[str]) -> Iterator[int]:
    """How many brackets are open after each line."""
    depth = 0
    for line in bare:
        depth += opened(line)
        yield depth


def has_open_text(lines: List[str]) -> bool:
    texts = (found[0] for found in TEXTS[PYTHON].finditer("\n".join(lines)))
    return any(text.startswith(LONG_QUOTES) and not any(closed.fullmatch(text) for closed in CLOSED) for text in texts)


def is_open(lines: List[str]) -> bool:
    """Whether these lines want another one: within a text or brackets, after a backslash or a decorator, and in a block up to an empty line."""
    if lines[0].startswith("%"):
        return False  # for this program, or IPython's own
    if has_open_text(lines):
        return True
    if not lines[-1].strip():
        return False
    bare = bared(lines, PYTHON)
    depth = list(depths(bare))
    is_block = any(line.rstrip().endswith(":") and after <= 0 for line, after in zip(bare, depth))
    return is_block or depth[-1] > 0 or lines[-1].endswith("\\") or DECORATOR.match(lines[-1]) is not None
