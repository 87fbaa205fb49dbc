"""A check of a worksheet by `tmhost check --json`: its fields, evaluated on a copy, and the counts."""

import dataclasses
import os
from typing import Any, Generator, Iterator, List, Optional, Sequence, Union

from .program import Child, Program, path_word, words_of_program
from .reading import OTHERS, End, Fault, Hello, Members, answer, data_of, string
from .reports import reported_by
from .values import LINE_END, Answer


@dataclasses.dataclass(frozen=True)
class Took:
    """What the evaluation of a field took: milliseconds, and whether an interpreter was started for it."""

    millis: int
    started: bool


@dataclasses.dataclass(frozen=True)
class Checked:
    """A field that was evaluated.

    `verdict` is "same", "differs", "unanswered", "new" or "left_out". Of "differs" there are `input`, the answer that the field `shows` and
    the one that `came`; of "unanswered" `input`, `shows` where the field shows one, and the `reason`, None where it shows none (its time was
    over); of "new" `input` and `came`. What it `took` is known where fields go one after another.
    """

    id: int
    session: str
    verdict: str
    input: Optional[str] = None
    shows: Optional[Answer] = None
    came: Optional[Answer] = None
    reason: Optional[str] = None
    took: Optional[Took] = None


@dataclasses.dataclass(frozen=True)
class Compared:
    """How many fields came to what; the last thing that a check tells."""

    same: int
    differ: int
    unanswered: int
    left_out: int
    errors: int = 0
    new: int = 0

    @property
    def is_same(self) -> bool:
        """No output that is compared differs, and none is missing."""
        return self.differ == 0 and self.unanswered == 0


def answer_in(value: Any) -> Answer:
    return answer(Members(value))


def took_in(value: Any) -> Took:
    reported = Members(value)
    return Took(reported.number("millis"), reported.boolean("started"))


def checked(reported: Members) -> Checked:
    verdict = reported.one_of("verdict", "same", "differs", "unanswered", "new", "left_out")
    return Checked(
        reported.number("id"),
        reported.string("session"),
        verdict,
        reported.string("input").replace("\n", LINE_END) if verdict in ("differs", "unanswered", "new") else None,
        reported.or_none("shows", answer_in) if verdict in ("differs", "unanswered") else None,
        answer_in(reported.get("came")) if verdict in ("differs", "new") else None,
        reported.or_none("reason", string) if verdict == "unanswered" else None,
        reported.or_none("took", took_in),
    )


def read(line: bytes) -> "Union[Checked, Compared, Hello, Fault, End, None]":
    """What a line tells; None where it is of a type that isn't known."""
    reported = data_of(line)
    kind = reported.string("type")
    if kind == "checked":
        return checked(reported)
    if kind == "compared":
        return Compared(*(reported.number(name) for name in ("same", "differ", "unanswered", "left_out", "errors", "new")))
    return OTHERS[kind](reported) if kind in OTHERS else None


@dataclasses.dataclass(frozen=True)
class CheckWords:
    """What a check is asked for.

    `only` names the one session whose fields are evaluated; the outputs of fields with the numbers `leave_out` aren't compared, or of those with
    the numbers `compare` alone are; a field may take `timeout` seconds. Fields of up to `jobs` sessions (at most 64) are evaluated side by side. With `all` also those that show no
    answer are evaluated.
    """

    only: Optional[str] = None
    leave_out: Sequence[int] = ()
    timeout: Optional[int] = None
    jobs: int = 1
    all: bool = False
    compare: Sequence[int] = ()


def words_of_check(program: Program, path: str, asked: CheckWords) -> List[str]:
    words = [*words_of_program(program), "check", "--json"]
    if asked.only is not None:
        words.append(f"--only={asked.only}")
    if asked.leave_out:
        words.append("--leave-out=" + ",".join(str(id) for id in asked.leave_out))
    if asked.compare:
        words.append("--compare=" + ",".join(str(id) for id in asked.compare))
    if asked.timeout is not None:
        words.append(f"--timeout={asked.timeout}")
    if asked.all:
        words.append("--all")
    return [*words, f"--jobs={asked.jobs}", path]


def came_of(words: List[str]) -> "Generator[Union[Checked, Compared], None, None]":
    """What the program with these words reports, which is started when the first of it is asked for."""
    child = Child(words)
    reported: "Iterator[Union[Checked, Compared]]" = reported_by(child, read)
    try:
        yield from reported
    finally:
        child.close()


def check(
    path: "Union[str, os.PathLike[str]]", words: Optional[CheckWords] = None, program: Program = None, **more: Any
) -> "Generator[Union[Checked, Compared], None, None]":
    """Evaluates each field of a worksheet that shows an answer again, on a copy, with interpreters of its own; the worksheet stays as it is.

    What is asked for is said by `words`, or by their names alone: `check(path, only="a", jobs=8)` is `check(path, CheckWords(only="a", jobs=8))`.
    Where both are given, a name counts.

    Gives a `Checked` for each field, in order and as soon as it is known, and at last a `Compared`. With more `jobs` than one, all are given
    when the last is known. Raises InUse, NoWorksheet (a FileNotFoundError), or Died for another fault, also where no field has a number of
    `leave_out` or of `compare`, or a death of the program. To stop early, close the iterator: the program is ended then.
    """
    if not isinstance(words, (CheckWords, type(None))):
        raise TypeError("what a check is asked for is a CheckWords, or has a name, as only=")
    asked = dataclasses.replace(words or CheckWords(), **more)
    return came_of(words_of_check(program, path_word(path), asked))
