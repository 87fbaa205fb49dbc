"""Which cases of a suite are run, by the words of the command line, and what there is where none is."""
import argparse
import difflib
import fnmatch
import re
import shlex
from typing import Callable, FrozenSet, List, Optional, Sequence

from tmhost.starting import never_answers
from tmhost_fences.troubles import Trouble

from . import kept as worksheets
from .agenda import is_fixed
from .cases import Case, Suite

MOST = 20  # cases that are listed


def tags_of(given: argparse.Namespace) -> Optional[FrozenSet[str]]:
    return frozenset(re.split(r"[\s,]+", given.tags)) if given.tags else None


def is_named(given: argparse.Namespace, case: Case) -> bool:
    """Whether a case is one of those of `--only`."""
    return given.only is None or any(fnmatch.fnmatchcase(name, given.only) for name in (str(case.line), case.title))


def chooser(given: argparse.Namespace, path: str) -> Callable[[int, Case], bool]:
    """Which cases of a suite are run."""
    tags = tags_of(given)
    last = worksheets.last_failed(worksheets.sheet_path(path, given.runs)) if given.rerun else None
    failed = None if last is None else frozenset(last)

    def is_chosen(at: int, case: Case) -> bool:
        return not case.is_own and is_named(given, case) and (tags is None or bool(tags & case.marks.tags)) and (failed is None or case.digest in failed)

    return is_chosen


def refuse_bare_sessions(suite: Suite, is_chosen: Callable[[int, Case], bool]) -> None:
    """A session that certainly never answers isn't waited for, where it has a case that is to be evaluated."""
    meant = {case.session for at, case in enumerate(suite.cases) if case.marks.skip is None and (is_fixed(case) or is_chosen(at, case))}
    bare = [(name, never_answers(words)) for name, words in suite.sessions.items() if name in meant]
    reasons = [f"the session {name}: {why}" for name, why in bare if why]
    if reasons:
        raise Trouble(*reasons)


def why_none(given: argparse.Namespace, suites: Sequence[Suite]) -> str:
    """What is said where no case is to be run: which word names none, and what there is."""
    none = "no case is one of those that are to be run"
    cases = [(suite, case) for suite in suites for case in suite.cases if not case.is_own]
    named = [case for _, case in cases if is_named(given, case)]
    if cases and not named:
        names = [f"{suite.path}:{case.line} {case.title}" for suite, case in cases]
        part = f"*{given.only}*"
        count = sum(fnmatch.fnmatchcase(case.title, part) for _, case in cases)
        meant = f", and {shlex.quote(part)} chooses {count}" if count else ""
        return "\n".join([f"{none}: none has the line, the name or the first line {given.only}{meant}; there are", *listed(names, given.only)])
    tags = sorted({tag for case in named for tag in case.marks.tags})
    return f"{none}: --tags {given.tags}; {'their tags are ' + ', '.join(tags) if tags else 'they have no tags'}" if named and given.tags else none


def listed(names: List[str], wanted: str) -> List[str]:
    """The names in their order; of many those that are nearest to what was wanted, and how many others there are."""
    near = frozenset(difflib.get_close_matches(wanted, names, MOST, 0)) if len(names) > MOST else names
    more = len(names) - MOST
    return [f"  {name}" for name in names if name in near] + ([f"  and {more:,} other{'s' * (more > 1)}"] if more > 0 else [])
