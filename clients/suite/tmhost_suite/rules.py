"""How what came is compared with what is wanted: exactly, but for what a suite's rules say."""
import dataclasses
import decimal
import fnmatch
import re
from decimal import Decimal, InvalidOperation
from typing import FrozenSet, List, Optional, Sequence, Set, Tuple

# A number that was rounded: it has a point or an exponent, which gp writes after a space. An integer is exact, and has no tolerance.
NUMBER = re.compile(r"(?<![\w.])[-+]?(?:(?:[0-9]+\.[0-9]*|\.[0-9]+)(?: ?[eE][-+]?[0-9]+)?|[0-9]+ ?[eE][-+]?[0-9]+)(?!\w)")
GOES_ON = re.compile(" ?([eE][-+]?)?")  # stands after a number that may go on in the next line
OUT_OF_BOUNDS = [decimal.InvalidOperation, decimal.Overflow, decimal.Underflow]
# What a traceback of `tmhost-python` calls a field: itself, or one before it. Before it counted what its interpreter had got.
FIELD_OF_PYTHON = re.compile(r'(?<=File ")<(?:input|earlier input|line [0-9]+)>(?=")')
ANY_LINES = "..."
BY_PATTERN, BY_GLOB = " (re)", " (glob)"
PICTURES, FORMULAS = "pictures", "formulas"  # what can be left out


def allowance(word: str) -> Decimal:
    """How far numbers may be apart. Raises ValueError where the word is no number from 0 on."""
    try:
        value = Decimal(word)
    except InvalidOperation:
        raise ValueError from None
    if not value.is_finite() or value < 0:
        raise ValueError
    return value


@dataclasses.dataclass(frozen=True)
class Normal:
    """Each place of this pattern is replaced by this text before texts are compared."""

    pattern: "re.Pattern[str]"
    put: str


def normal_of(pattern: str, put: str) -> Normal:
    """The rule of these. Raises ValueError, with what is wrong, where the one is no pattern, or the other names a group that isn't in it."""
    try:
        found = re.compile(pattern, re.MULTILINE)
        found.sub(put, "")  # reads the text
    except (re.error, IndexError) as error:
        raise ValueError(str(error)) from None
    return Normal(found, put)


@dataclasses.dataclass(frozen=True)
class Rules:
    """`relative` and `absolute` are how far numbers may be apart that stand in equal text: the greater of the two allowances. With
    `any_spaces` blanks are compared as one, and those at the ends of lines, and lines without anything else, not at all. What comes is cut
    into lines of `columns` characters, where what is wanted was written by an interpreter that does so. `without` is what is left out of it,
    and `apart` says that errors are compared for themselves. With `any_field` which field a traceback of Python names isn't compared."""

    normal: Tuple[Normal, ...] = ()
    relative: Decimal = Decimal(0)
    absolute: Decimal = Decimal(0)
    any_spaces: bool = False
    columns: Optional[int] = None
    without: FrozenSet[str] = frozenset()
    apart: bool = False
    any_field: bool = False

    def normalised(self, text: str, applied: Set[int]) -> str:
        """The text after each rule in turn; the places of those that found something are put into `applied`. A rule may name fields by number."""
        text = FIELD_OF_PYTHON.sub("<line 1>", text) if self.any_field else text
        for at, normal in enumerate(self.normal):
            text, found = normal.pattern.subn(normal.put, text)
            if found:
                applied.add(at)
        return text

    def is_wanted(self, wanted: Optional[str], got: str, applied: Set[int]) -> bool:
        """Where nothing stands after a case, it is wanted to say nothing."""
        return not got if wanted is None else self.are_alike(wanted, got, applied)

    def are_alike(self, wanted: str, got: str, applied: Set[int]) -> bool:
        # What matches as it is, as a pattern that has such a number, still does.
        ways = [dataclasses.replace(self, any_field=False), self] if self.any_field else [self]
        return any(rules._are_alike(wanted, got, applied) for rules in ways)

    def _are_alike(self, wanted: str, got: str, applied: Set[int]) -> bool:
        wanted, got = self.normalised(wanted, applied), self.normalised(got, applied)
        if wanted == got:
            return True
        return match(*self.laid_out(wanted, got), self)

    def laid_out(self, wanted: str, got: str) -> Tuple[List[str], List[str]]:
        """The lines that are compared with each other."""
        lines, others = wanted.split("\n"), got.split("\n")
        if self.columns is not None:
            others = wrapped(others, self.columns, lines)
        return (bare(lines), bare(others)) if self.any_spaces else (lines, others)


class Cut(str):
    """A part of a line that goes on in the next one. A number at its end may do so, too."""


def wrapped(lines: Sequence[str], columns: int, wanted: Sequence[str]) -> List[str]:
    """The lines in parts of so many characters, but those that are wanted as they are: gp cuts no messages."""
    whole = frozenset(line for line in wanted if len(line) > columns)
    found: List[str] = []
    for line in lines:
        parts = [line] if line in whole else [line[at : at + columns] for at in range(0, max(1, len(line)), columns)]
        found += [*map(Cut, parts[:-1]), parts[-1]]
    return found


def bare(lines: Sequence[str]) -> List[str]:
    """The lines with one blank in place of several, and without those that have nothing else."""
    return [type(line)(" ".join(line.split())) for line in lines if line.strip()]


def value(text: str) -> Decimal:
    return Decimal(text.replace(" ", ""))


def near(wanted: str, got: str, rules: Rules) -> bool:
    """Whether they are as near as they may be. Where that can't be known, as of numbers that are out of all bounds, they aren't. What doesn't fit
    into the digits makes the difference greater and the allowance smaller, so no two numbers are near that may not be."""
    digits = 28 + len(wanted) + len(got) + len(rules.relative.as_tuple().digits)
    bounds = decimal.Context(digits, decimal.ROUND_CEILING, decimal.MIN_EMIN, decimal.MAX_EMAX, traps=OUT_OF_BOUNDS)
    try:
        with decimal.localcontext(bounds) as context:
            one, other = value(wanted), value(got)
            apart = max(one, other) - min(one, other)
            context.rounding = decimal.ROUND_FLOOR
            return apart <= max(rules.absolute, rules.relative * abs(one))
    except decimal.DecimalException:
        return False


def line_matches(wanted: str, got: str, rules: Rules) -> bool:
    if wanted == got:
        return True
    if wanted.endswith(BY_PATTERN):
        try:
            return re.fullmatch(wanted[: -len(BY_PATTERN)], got) is not None
        except re.error:
            return False  # it is no pattern, so it matches nothing, as cram has it
    if wanted.endswith(BY_GLOB):
        return fnmatch.fnmatchcase(got, wanted[: -len(BY_GLOB)])
    if not rules.relative and not rules.absolute:
        return False
    between, numbers, others = NUMBER.split(got), NUMBER.findall(wanted), NUMBER.findall(got)
    if NUMBER.split(wanted) != between:
        return False
    if isinstance(got, Cut) and others and GOES_ON.fullmatch(between[-1]) and numbers[-1] != others[-1]:
        return False
    return all(near(*pair, rules) for pair in zip(numbers, others))


def wrong_patterns(wanted: str, any_spaces: bool) -> List[str]:
    """Why lines of an answer that look like patterns are none, each with its number."""
    found: List[str] = []
    for number, line in enumerate(wanted.split("\n"), 1):
        bare = line.rstrip()
        if line != bare and is_pattern(bare) and not any_spaces:
            found.append(f"line {number} of what is wanted ends in a blank, so it is no pattern")
        elif line.endswith(BY_PATTERN):
            try:
                re.compile(line[: -len(BY_PATTERN)])
            except re.error as error:
                found.append(f"line {number} of what is wanted is no pattern: {error}")
    return found


def is_pattern(line: str) -> bool:
    """Whether a line of an answer stands for others than itself."""
    return line == ANY_LINES or line.endswith((BY_PATTERN, BY_GLOB))


def match(wanted: Sequence[str], got: Sequence[str], rules: Rules) -> bool:
    """Line by line, where a line `...` stands for any lines. After such a line the first place that goes on is tried, then the next one."""
    at = other = 0
    back: Optional[Tuple[int, int]] = None
    while other < len(got):
        if at < len(wanted) and wanted[at] == ANY_LINES:
            at, back = at + 1, (at + 1, other)
        elif at < len(wanted) and line_matches(wanted[at], got[other], rules):
            at, other = at + 1, other + 1
        elif back is not None:
            back = back[0], back[1] + 1
            at, other = back
        else:
            return False
    return all(line == ANY_LINES for line in wanted[at:])


def exactly(text: str) -> str:
    """A pattern of this text alone, in which what means nothing in a pattern stands as it is, as blanks do: people read it."""
    return re.sub(r"\\([ \-#&~])", r"\1", re.escape(text))


def as_wanted(text: str) -> List[str]:
    """The lines of an answer, as they are wanted exactly. What would be read as a pattern is written as one that matches itself alone."""
    return [exactly(line) + BY_PATTERN if is_pattern(line) else line for line in text.split("\n")]
