"""Whether the interpreter of a session can be started, which is looked at before a cell of it is asked: its old answer would go for an evaluation that
never begins."""

import functools
import time
from typing import Optional, Tuple

from tmhost import Session
from tmhost.starting import missing_program


LOOKED_AGAIN_AFTER = 2.0  # seconds


def why_not(session: Session) -> Optional[str]:
    """Why a session can't be started: its program isn't here, or that which its adapter starts. None where it can."""
    missing = missing_program(session.words)
    if missing is None:
        return None
    return f"session {session.name} can't be started: {missing[1]}. Its words are: {' '.join(session.words)}"


def missing(session: Session) -> Optional[str]:
    """The program for which a session can't be started, as far as was looked a moment ago: pages get it often."""
    return _missed(session.words[:1], int(time.monotonic() / LOOKED_AGAIN_AFTER))


@functools.lru_cache(maxsize=256)
def _missed(words: Tuple[str, ...], moment: int) -> Optional[str]:
    found = missing_program(words)
    return found[0] if found else None
