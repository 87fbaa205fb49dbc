"""What a suite is: sessions, rules of comparison, and cases in the order of its text."""
import dataclasses
import hashlib
import json
import re
from decimal import Decimal
from typing import Dict, FrozenSet, List, Optional, Tuple

from tmhost_fences.fields import Group, language_in

from .rules import Normal, Rules

# What stands before the code of a command of cram, and of a block of Octave's tests, where --convert wrote it.
AROUND = re.compile(r'tmhost_skips \|\| \{|\{|lastwarn \(""\); lasterr \(""\); try|function (?:\[.*\] = )?tmhost_test \(.*\)')


@dataclasses.dataclass(frozen=True)
class Marks:
    """What a fence says of its case. `timeout` is in seconds; `flaky` is how often a case that differs is evaluated again."""

    is_setup: bool = False
    is_teardown: bool = False
    is_whole: bool = False
    is_independent: bool = False  # it needs no case before it but those that set up, and none after it needs it
    xfail: Optional[str] = None
    may_fail: Optional[str] = None
    skip: Optional[str] = None
    skip_if: Optional[str] = None  # a pattern: where what comes has it, the case is skipped
    timeout: Optional[float] = None
    tags: FrozenSet[str] = frozenset()
    name: Optional[str] = None  # in place of its first line
    flaky: int = 0
    any_spaces: bool = False
    tolerance: Optional[Tuple[Decimal, Decimal]] = None  # relative and absolute, in place of those of the suite
    normal: Tuple[Normal, ...] = ()  # after those of the suite


@dataclasses.dataclass(frozen=True)
class Case:
    """`line` is that of its fence, from 1. `wanted` and `errors` are None where the text has no answer after it, and no errors apart. `before`
    is the prose in front of it, of a suite of another form; `is_own` says that it stands in no such suite, but does what the program of that form does
    around it: it is no case that is counted. `own_line` is its first line in such a suite, where its code here has others around it."""

    session: str
    marks: Marks
    lines: Tuple[str, ...]
    fields: Tuple[Group, ...]
    line: int
    wanted: Optional[str]
    errors: Optional[str] = None
    before: str = ""
    is_own: bool = False
    own_line: str = ""

    @property
    def title(self) -> str:
        """Its name, or its first line that has anything, in at most 60 characters; of a converted test of cram or Octave not what was put around it."""
        if self.marks.name is not None:
            return self.marks.name
        lines = [line.strip() for line in self.lines if line.strip()]
        first = self.own_line or next((line for line in lines if not AROUND.fullmatch(line)), "".join(lines[:1]))
        return first if len(first) <= 60 else first[:57] + "..."

    @property
    def digest(self) -> str:
        """The same for the same code in the same session, wherever it stands."""
        return hashlib.sha256(json.dumps([self.session, self.lines]).encode("utf-8", "surrogatepass")).hexdigest()[:16]


@dataclasses.dataclass(frozen=True)
class Suite:
    path: str
    sessions: Dict[str, Tuple[str, ...]]
    rules: Rules
    timeout: Optional[float]
    cases: Tuple[Case, ...]
    after: str = ""  # the prose after the last case, of a suite of another form
    left_out: Tuple[str, ...] = ()  # what such a suite has besides, which its text form doesn't get, in words
    doubts: Tuple[str, ...] = ()  # what may not be meant as it stands
    folder: Optional[str] = None  # in which its interpreters are started; None: where tmhost-suite was
    has_independent_cases: bool = False  # it says so of all its cases

    @property
    def count(self) -> int:
        """How many cases it has that are counted."""
        return sum(not case.is_own for case in self.cases)

    def is_independent(self, case: Case) -> bool:
        return self.has_independent_cases or case.marks.is_independent

    def rules_of(self, case: Case) -> Rules:
        own = case.marks
        any_spaces, apart = self.rules.any_spaces or own.any_spaces, self.rules.apart or case.errors is not None
        relative, absolute = own.tolerance or (self.rules.relative, self.rules.absolute)
        normal = self.rules.normal + own.normal
        any_field = language_in(self.sessions[case.session]) == "python"
        return dataclasses.replace(self.rules, normal=normal, relative=relative, absolute=absolute, any_spaces=any_spaces, apart=apart, any_field=any_field)

    @property
    def digest(self) -> str:
        """The same for the same sessions and cases, whatever is wanted of them."""
        whole = [sorted(self.sessions.items()), [[case.digest, case.marks.is_setup, case.marks.is_whole] for case in self.cases]]
        return hashlib.sha256(json.dumps(whole).encode("utf-8", "surrogatepass")).hexdigest()

    def of(self, session: str) -> List[int]:
        """The places of a session's cases, from 0, in the order in which they are evaluated: what takes down comes last."""
        own = [at for at, case in enumerate(self.cases) if case.session == session]
        return sorted(own, key=lambda at: self.cases[at].marks.is_teardown)
