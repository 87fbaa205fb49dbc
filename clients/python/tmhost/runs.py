"""A script that `tmhost run --json` does: what it tells of each line, and of interpreters."""

import os
import tempfile
from typing import Generator, Iterator, List, Optional, Union

from .events import Event
from .program import Child, Program, path_word, words_of_program
from .reading import Reply, read
from .reports import reported_by


def words_of_run(program: Program, path: str, timeout: Optional[int]) -> List[str]:
    words = [*words_of_program(program), "run", "--json"]
    if timeout is not None:
        words.append(f"--timeout={timeout}")
    return [*words, path]


def run(
    path: "Union[str, os.PathLike[str]]",
    script: str,
    timeout: Optional[int] = None,
    program: Program = None,
) -> "Generator[Union[Reply, Event], None, None]":
    """Does the lines of a script (docs/use/SCRIPT.md) on a worksheet, with interpreters of its own, which are stopped at its end.

    Gives a `Reply` for each line, in their order and as soon as it is done, and an `Event` for what comes of an interpreter during a
    `wait`; what they say is on the disk. A `wait` may take `timeout` seconds; then interpreters are interrupted (each is a `Warned`), and
    stopped two seconds later. Raises InUse, NoWorksheet (a FileNotFoundError), or Died for another fault or a death of the program. To stop early, close the iterator: the program is ended then.
    """
    with tempfile.TemporaryFile() as given:
        given.write(script.encode("utf-8"))
        given.seek(0)
        child = Child(words_of_run(program, path_word(path), timeout), given)
    reported: "Iterator[Union[Reply, Event]]" = reported_by(child, read)
    try:
        yield from reported
    finally:
        child.close()
