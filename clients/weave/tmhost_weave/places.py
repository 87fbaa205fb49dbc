"""Where interpreters start: in the folder of this program, which is another one for a while."""
import contextlib
import os
from typing import Iterator, Optional


def fix_program() -> None:
    """Has TMHOST name the same program from any folder."""
    named = os.environ.get("TMHOST", "")
    if "/" in named:
        os.environ["TMHOST"] = os.path.abspath(named)


@contextlib.contextmanager
def within(folder: Optional[str]) -> Iterator[None]:
    """Has all that is started meanwhile start there. None is where this program is."""
    if folder is None:
        yield
        return
    before = os.open(".", os.O_RDONLY)
    try:
        os.chdir(folder)
        yield
    finally:
        os.fchdir(before)
        os.close(before)
