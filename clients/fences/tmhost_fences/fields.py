"""The fields of a fence: its lines, in groups of those that go on from one another."""
import dataclasses
import itertools
import os
import re
import sys
from typing import Callable, Dict, Iterator, List, Optional, Sequence, Set, Tuple

from . import maxima, octave, r, sh

LINE_END = "\u2028"  # stands in an input for the end of a line, since an input has none
LONGEST_INPUT = 4095  # bytes
CONTROL = re.compile(r"[\x00-\x08\x0a-\x1f]")
SURROGATE = re.compile(r"[\ud800-\udfff]")
# Words of several languages that close what an earlier line began, or begin a further branch of it.
CLOSING = "elif|else|elseif|except|finally|end|endif|endfor|endwhile|endfunction|endswitch|end_try_catch|end_unwind_protect|do|done|then|fi|esac|od"
GOES_ON = re.compile(rf"[ \t)\]}}]|(?:{CLOSING})\b")
GOES_ON_IN = {
    "octave": re.compile(rf"[ \t)\]}}]|(?:{'|'.join([*octave.WITHIN, *octave.ENDS])})\b"),
    "lua": re.compile(rf"{GOES_ON.pattern}|until\b"),  # elsewhere, as in a shell, it begins a loop
    "R": re.compile(r"[ \t)\]}]|else\b"),  # the others are names
    "sh": re.compile(r"[ \t)}]|(?:elif|else|do|done|then|fi|esac)(?=[ \t;&|<>)]|\Z)"),
}
SHELL, SHELLS = "sh", ("sh", "bash", "dash")
DECORATOR = re.compile(r"@\w")
# What has no brackets that count: texts, and remarks.
TEXT = re.compile(r"""\"(?:\\.|[^\"\\])*\"|'[^']*'|(?:\A|(?<=\s))#\s.*""")
# The same where one may have several lines. In gp ' begins no text.
TEXTS = {
    "gp": re.compile(r'"(?:\\.|[^"\\\n])*"|/\*.*?(?:\*/|\Z)|\\\\[^\n]*', re.DOTALL),
    "lua": re.compile(
        r"""--\[(=*)\[.*?(?:\]\1\]|\Z)|--[^\n]*|\[(=*)\[.*?(?:\]\2\]|\Z)|"(?:\\.|[^"\\\n])*"|'(?:\\.|[^'\\\n])*'""", re.DOTALL
    ),
    "python": re.compile(
        r'"""(?:\\.|[^\\])*?(?:"""|\Z)|\'\'\'(?:\\.|[^\\])*?(?:\'\'\'|\Z)|"(?:\\.|[^"\\\n])*"|\'(?:\\.|[^\'\\\n])*\'|#[^\n]*', re.DOTALL
    ),
    # A text of R in brackets of its own, as r"(a)", and a name in backquotes are texts too.
    "R": re.compile(
        r"""(?<![\w.])[rR](["'])(-*)(?:\(.*?\)|\[.*?\]|\{.*?\})\2\1|"(?:\\.|[^"\\])*(?:"|\Z)|'(?:\\.|[^'\\])*(?:'|\Z)|`(?:\\.|[^`\\\n])*`|#[^\n]*""", re.DOTALL
    ),
    "sqlite3": re.compile(r"""--[^\n]*|/\*.*?(?:\*/|\Z)|'[^']*(?:'|\Z)|"[^"]*(?:"|\Z)""", re.DOTALL),
}
# Languages of which a module reads what has no brackets that count.
BARED: Dict[str, Callable[[List[str]], List[str]]] = {SHELL: sh.bared, "octave": octave.bared, "maxima": maxima.bared}
KNOWN = frozenset([*TEXTS, *BARED])  # languages of which it is known what is a text
REMARKS = ("#", "--", "/*", "//", "%", "\\\\")  # how they begin
HOLDS = re.compile(r"[\\=]\s*\Z")  # at the end of a line


@dataclasses.dataclass(frozen=True)
class Group:
    """The input of a field, and at which line of its fence it begins, from 0."""

    at: int
    input: str

    @property
    def misfit(self) -> Optional[str]:
        """Why no field can have it as its input, and what to do where it is too long."""
        if SURROGATE.search(self.input):
            return "refused: it has bytes that are no UTF-8"
        if CONTROL.search(self.input):
            return "refused: it has a control character"
        length = len(self.input.encode("utf-8"))
        counted = " (each end of a line counts three)" if LINE_END in self.input else ""
        why = f"refused: it has {length:,} bytes{counted}, and a field has at most {LONGEST_INPUT:,}: cut it into several, or load it from a file"
        return why if length > LONGEST_INPUT else None


def group(at: int, lines: List[str]) -> Iterator[Group]:
    if any(line.strip(" \t") for line in lines):
        yield Group(at, LINE_END.join(lines))


def language_in(words: Sequence[str]) -> str:
    """The language of which more is known here than of others, by the words of a session: that of an adapter, which has its name."""
    names = [os.path.basename(word).removeprefix("tmhost-") for word in words]
    found = next((name for name in names if name in KNOWN and name != SHELL), "")
    return found or (SHELL if any(is_shell(words[at:]) for at in range(len(words))) else "")


def is_shell(words: Sequence[str]) -> bool:
    """Whether the first of these words is a shell's. One that is given a script evaluates that alone: which language the script's lines have isn't known."""
    name = os.path.basename(words[0])
    is_adapter = name.startswith("tmhost-")
    return name.removeprefix("tmhost-") in SHELLS and (is_adapter or all(word.startswith("-") for word in words[1:]))


def left_of(found: "re.Match[str]") -> str:
    """What stands in place of a text or a remark: of one of several lines brackets, which hold these together."""
    line_ends = found[0].count("\n")
    return "(" + "\n" * line_ends + ")" if line_ends else "" if found[0].startswith(REMARKS) else '""'


def without_texts(lines: List[str], language: str) -> List[str]:
    """The lines without texts and remarks."""
    return TEXTS[language].sub(left_of, "\n".join(lines)).split("\n")


def opened(line: str) -> int:
    """How many brackets a line without texts leaves open; below 0 it closes some of others."""
    return sum(line.count(it) for it in "([{") - sum(line.count(it) for it in ")]}")


def closings(lines: List[str]) -> Dict[int, int]:
    """The line that closes the brackets that a line leaves open, by that one, where there is such a line. The lines are without texts."""
    closed: Dict[int, int] = {}
    waiting: List[Tuple[int, int]] = []  # lines whose brackets are open, each with the depth before it
    depth = 0
    for at, line in enumerate(lines):
        before, depth = depth, depth + opened(line)
        while waiting and depth <= waiting[-1][1]:
            closed[waiting.pop()[0]] = at
        if depth > before:
            waiting.append((at, before))
    return closed


def statements(lines: List[str], language: str) -> Dict[int, int]:
    """The line that ends the statement of a line, where a language has an end for each, as SQL. A command of the shell of SQLite is a line."""
    found: Dict[int, int] = {}
    end = -1
    for at in reversed(range(len(lines)) if language == "sqlite3" else ()):
        line = lines[at].strip()
        end = at if line.endswith(";") else -1 if line.startswith(".") else end
        if end >= 0:
            found[at] = end
    return found


def continued(lines: List[str], language: str) -> Dict[int, int]:
    """The line in which a line goes on by what stands at its end, by that one: of R as R reads it, of Maxima after remarks, else the next one after a
    backslash or an equals sign. In a shell that is seen to with its brackets."""
    if language == SHELL:
        return {}
    own = {"R": r.continued, "maxima": maxima.continued}.get(language)
    return own(lines) if own else {at: at + 1 for at, line in enumerate(lines) if HOLDS.search(line)}


def bared(lines: List[str], language: str) -> List[str]:
    """The lines without what has no brackets that count: texts and remarks."""
    if language in BARED:
        return BARED[language](lines)
    return without_texts(lines, language) if language in TEXTS else [TEXT.sub("", line) for line in lines]


def remarks_within(lines: List[str], language: str) -> Set[int]:
    """The remarks at the left edge before a line that goes on, with nothing but remarks and empty lines between: a block goes on over them."""
    goes_on = GOES_ON_IN.get(language, GOES_ON)
    bare = bared(lines, language)
    within: Set[int] = set()
    is_before = False
    for at in reversed(range(len(lines))):
        if bare[at].strip(" \t"):
            is_before = bool(goes_on.match(lines[at]))
        elif is_before and lines[at].startswith(REMARKS):
            within.add(at)
    return within


def holds(lines: List[str], language: str, most: int) -> Iterator[int]:
    """Of each line the last one that it holds: that which closes its brackets or ends its statement; that in which it goes on by its end; else
    itself. In a language whose texts aren't known a bracket may stand in one, so that these have at most so many characters."""
    most = sys.maxsize if language in KNOWN else most
    ends = list(itertools.accumulate((1 + len(line) for line in lines), initial=0))
    without = bared(lines, language)
    bare = without if language in KNOWN else lines
    closed = closings(without)
    ended, following = statements(bare, language), continued(bare, language)
    for at in range(len(lines)):
        last = max(closed.get(at, at), ended.get(at, at))
        yield last if last > at and ends[last + 1] - ends[at] <= most else following.get(at, at)


def groups(lines: List[str], language: str, most: int = LONGEST_INPUT) -> Iterator[Group]:
    """Each line with those that go on from it. Empty lines stand in a group only where it goes on after them. Remarks of Maxima after all code are none."""
    if language == "maxima":
        bare = maxima.bared(lines)
        lines = lines[: 1 + max((at for at, line in enumerate(bare) if maxima.is_code(line)), default=-1)]
    goes_on = GOES_ON_IN.get(language, GOES_ON)
    within = remarks_within(lines, language)
    taken: List[str] = []
    blanks: List[str] = []
    begin, held = 0, -1
    for at, (line, last) in enumerate(zip(lines, holds(lines, language, most))):
        if not line.strip(" \t"):
            blanks.append(line)
            continue
        if taken and (at <= held or at in within or goes_on.match(line) or DECORATOR.match(taken[-1])):
            taken += [*blanks, line]
        else:
            yield from group(begin, taken)
            taken, begin = [line], at
        blanks, held = [], max(held, last)
    yield from group(begin, taken)


def whole(lines: List[str]) -> Iterator[Group]:
    """All lines as one field."""
    yield from group(0, lines)
