"""Cells of prose.

Each field of a worksheet has a session, so prose has one, too: it is named `prose` (or `prose-2` and so on, where another one has that
name), and its only word is `true`. The notebook never evaluates its fields, so `true` isn't started; if another client evaluates one,
it ends at once and does nothing. A field without an answer is passed over by `tmhost check`, and every export shows it as its text.
"""

import itertools
import re
from typing import Iterable, List, Mapping

from tmhost import Session
from tmhost.commands import MakeSession

NAME = "prose"
WORDS = ("true",)
NAMES = re.compile(r"prose(-\d{1,6})?")


def is_prose(session: Session) -> bool:
    return session.words == WORDS and NAMES.fullmatch(session.name) is not None


def free_name(taken: Iterable[str]) -> str:
    names = set(taken)
    further = (f"{NAME}-{number}" for number in itertools.count(2))
    return next(name for name in itertools.chain([NAME], further) if name not in names)


def name_in(sessions: Mapping[str, Session]) -> str:
    """The name of the worksheet's session of prose, or the one that it gets where there is none."""
    return next((name for name, session in sessions.items() if is_prose(session)), "") or free_name(sessions)


def missing_in(sessions: Mapping[str, Session]) -> List[MakeSession]:
    """What makes the session of prose, where there is none."""
    name = name_in(sessions)
    return [] if name in sessions else [MakeSession(name, WORDS, False)]
