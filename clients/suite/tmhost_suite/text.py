"""The text form of a suite: CommonMark, whose fences of sessions are cases, each with a fence `answer` after it for what is wanted, and one
`error` where errors are compared apart."""
import dataclasses
import os
import re
from decimal import Decimal
from typing import Any, Dict, FrozenSet, List, Optional, Sequence, Tuple

from tmhost.near import near
from tmhost_fences.blocks import LINE, Block, blocks_of, cut
from tmhost_fences.fields import groups, language_in, whole
from tmhost_fences.front import KEY_OF_MAPPING, SESSIONS, Sessions, front_of, matter_end, refuse_misspelt, sessions_meant, why_misspelt
from tmhost_fences.info import ATTRIBUTES, LITERAL, info_of
from tmhost_fences.meant import OTHERS, session_meant
from tmhost_fences.troubles import Trouble, needed

from .cases import Case, Suite
from .marks import has_marks, is_text, read_marks, refuse_marks, seconds, session_in
from .rules import FORMULAS, PICTURES, Normal, Rules, allowance, normal_of

ANSWER, ERROR = "answer", "error"
KEYS = ("sessions", "normal", "tolerance", "timeout", "spaces", "columns", "without", "errors", "folder", "fences", "independent")
NO_SESSIONS = "the text names no sessions: its first lines must be as `---`, `sessions: {py: [tmhost-python]}`, `---`"
RUN = re.compile("`+")
COLUMNS = re.compile(r"[1-9][0-9]{0,5}", re.ASCII)


@dataclasses.dataclass(frozen=True)
class Span:
    """Where an answer stands, or is to stand: `begin` and `end` are lines, from 0, the same where there is none; `prefix` is what stands
    in front of each line, of the quotes and lists in which the case is."""

    begin: int
    end: int
    prefix: str


def decimal_in(word: str) -> Decimal:
    try:
        return allowance(word)
    except ValueError:
        raise Trouble(f"the tolerance {ascii(word)} is no number from 0 on") from None


def normals_in(value: Any) -> Tuple[Normal, ...]:
    """The rules `normal`: a mapping from patterns to texts, or a list of pairs where one is to be applied before another."""
    pairs = list(value.items()) if isinstance(value, dict) else value
    if not isinstance(pairs, list) or not all(len(pair) == 2 and all(isinstance(it, str) for it in pair) for pair in pairs):
        raise Trouble("`normal` is no mapping from patterns to texts, and no list of pairs of them")
    return tuple(normal_in(*pair) for pair in pairs)


def normal_in(pattern: str, put: str) -> Normal:
    try:
        return normal_of(pattern, put)
    except ValueError as error:
        raise Trouble(f"`normal` has the pattern {ascii(pattern)} with {ascii(put)}, which is no rule: {error}") from None


def rules_in(front: Dict[str, Any]) -> Rules:
    tolerance = front.get("tolerance") or {}
    if isinstance(tolerance, str):
        tolerance = {"relative": tolerance}
    if not isinstance(tolerance, dict) or not set(tolerance) <= {"relative", "absolute"}:
        raise Trouble("`tolerance` is a number, or has `relative` and `absolute`")
    return Rules(
        normals_in(front.get("normal") or {}),
        decimal_in(tolerance.get("relative", "0")),
        decimal_in(tolerance.get("absolute", "0")),
        spaces_in(front),
        columns_in(front),
        without_in(front),
        apart_in(front),
    )


def spaces_in(front: Dict[str, Any]) -> bool:
    if front.get("spaces", "any") != "any":
        raise Trouble("`spaces` can only be `any`")
    return "spaces" in front


def columns_in(front: Dict[str, Any]) -> Optional[int]:
    word = front.get("columns")
    if word is None:
        return None
    if not isinstance(word, str) or not COLUMNS.fullmatch(word):
        raise Trouble("`columns` is no number of characters")
    return int(word)


def without_in(front: Dict[str, Any]) -> FrozenSet[str]:
    names = front.get("without") or []
    found = frozenset([names] if isinstance(names, str) else names)
    if not found <= {PICTURES, FORMULAS}:
        raise Trouble(f"`without` can have {PICTURES} and {FORMULAS}")
    return found


def apart_in(front: Dict[str, Any]) -> bool:
    if front.get("errors", "apart") != "apart":
        raise Trouble("`errors` can only be `apart`")
    return "errors" in front


def timeout_in(front: Dict[str, Any]) -> Optional[float]:
    if "timeout" not in front:
        return None
    try:
        return seconds(front["timeout"])
    except (TypeError, ValueError):
        raise Trouble("`timeout` is no number of seconds") from None


def front_in(lines: Sequence[str]) -> Dict[str, Any]:
    """What the front matter of these lines says. One whose keys look misspelt is refused, since its cases would be compared by other rules."""
    yaml = needed("yaml", "python3-yaml")
    try:
        # The line in front stands for `---`, so that an error has the line of the file.
        front: Dict[str, Any] = yaml.load("\n".join(["---", *lines]), Loader=yaml.BaseLoader)
    except yaml.YAMLError as error:
        raise Trouble(f"the front matter is no YAML: {' '.join(str(error).split())}") from error
    refuse_misspelt(map(str, front), KEYS)
    return front


def folder_in(front: Dict[str, Any], path: str) -> Optional[str]:
    """Where the interpreters are started: a folder that is named from that of the text."""
    name = front.get("folder")
    if name is None:
        return None
    if not isinstance(name, str) or not name:
        raise Trouble("`folder` is no name of a folder")
    found = os.path.abspath(os.path.join(os.path.dirname(path), name))
    if not os.path.isdir(found):
        raise Trouble(f"`folder` is {found}, which is no folder")
    return found


def independent_in(front: Dict[str, Any]) -> bool:
    word = front.get("independent", "false")
    if word not in ("true", "false"):
        raise Trouble("`independent` can only be `true` or `false`")
    return bool(word == "true")


def is_after(block: Block, other: Block, lines: Sequence[str]) -> bool:
    """Whether there is nothing but empty lines between the fences."""
    return not any(line.strip(" \t>") for line in lines[block.end : other.begin])


def misplaced(info: str, known: Sequence[str]) -> Optional[str]:
    """Why a fence is no case, nor what is wanted of one, though its word stands there: it does so at another place."""
    first = (info.split() or [""])[0]
    word = first.partition("{")[0]
    if word != first and word in known:
        return f"{ascii(first)}: write a blank before the braces"
    classes = [one[1:] for found in ATTRIBUTES.findall(info)[:1] for one in found.split() if one.startswith(".")]
    if info.startswith("{#") and classes[:1] and classes[0] in known:
        return f"{ascii(first)}: .{classes[0]} comes first in its braces"
    return None


def misspelling(info: str, sessions: Sessions) -> Optional[str]:
    """Why a fence may be meant for a case or what is wanted of one, though its word says that it is neither. None where that is as it should be."""
    name = session_in(info) or info_of(info).name
    known = (*sessions, ANSWER, ERROR)
    if is_text(info):
        return None
    place = misplaced(info, known)
    if place or not name:
        return place
    if name in sessions and session_in(info) is None:
        return f"`{{{name}}}` is a chunk of another program, and no fence of a session: is `{{.{name}}}` meant?"
    if name in known:
        return None
    wanted = None if name.lower() in OTHERS else near(name, (ANSWER, ERROR))
    if wanted:
        return f"{ascii(name)}: is {wanted} meant?"
    meant = session_meant(name, sessions)
    if meant or has_marks(info):
        return f"{ascii(name)} is no session ({', '.join(sessions)})" + (f": is {meant} meant?" if meant else "")
    return None


def misspellings(blocks: Sequence[Block], sessions: Sessions) -> List[Tuple[Block, str]]:
    found = ((block, misspelling(block.info_text, sessions)) for block in blocks)
    return [(block, why) for block, why in found if why]


def names_sessions(text: str) -> bool:
    """Whether the front matter of a text names sessions."""
    return bool(front_of(contents_of(text)).sessions)


def contents_of(text: str) -> List[str]:
    """The lines of a text without their ends."""
    return [cut(line)[0] for line in LINE.findall(text)]


def looks_like_a_suite(text: str) -> bool:
    """The same, and whether it most likely was to name them: it has a mapping by a name as `session`."""
    return names_sessions(text) or sessions_meant(contents_of(text), KEY_OF_MAPPING) is not None


class Text:
    """A suite in this form. What is accepted is put into it, and every other byte stays."""

    def __init__(self, path: str, text: str) -> None:
        self.lines: List[str] = LINE.findall(text)
        contents = contents_of(text)
        found = front_of(contents)
        self.sessions, self.is_whole = found.sessions, found.is_whole
        meant = sessions_meant(contents)
        if not self.sessions:
            raise Trouble(why_misspelt(meant, SESSIONS) if meant else NO_SESSIONS)
        first = matter_end(contents)
        front = front_in(contents[1 : first - 1])
        self.path = path
        self.cases: List[Case] = []
        self.spans: List[Dict[str, Span]] = []
        self._read(contents, blocks_of(contents, first))
        rules, folder, is_independent = rules_in(front), folder_in(front, path), independent_in(front)
        self.suite = Suite(path, self.sessions, rules, timeout_in(front), tuple(self.cases), folder=folder, has_independent_cases=is_independent)

    def _read(self, lines: List[str], blocks: List[Block]) -> None:
        # Before anything else, since a word that is misspelt has others at the wrong place.
        doubts = [f"line {block.begin + 1}: {why}" for block, why in misspellings(blocks, self.sessions)]
        if doubts:
            raise Trouble(*doubts, f"{{{LITERAL}}} after the word of a fence says that it is text")
        at = 0
        while at < len(blocks):
            block = blocks[at]
            at += 1
            name = session_in(block.info_text)
            if is_text(block.info_text):
                continue
            if name in (ANSWER, ERROR) and name not in self.sessions:
                raise Trouble(f"line {block.begin + 1}: an {name} stands after no case")
            if name is None or name not in self.sessions:
                continue
            found: Dict[str, Block] = {}
            while at < len(blocks) and is_after(blocks[at - 1], blocks[at], lines):
                kind = "" if is_text(blocks[at].info_text) else session_in(blocks[at].info_text) or ""
                if kind not in (ANSWER, ERROR) or kind in found or kind in self.sessions:
                    break
                found[kind] = blocks[at]
                at += 1
            self._add(name, block, found)

    def _add(self, session: str, block: Block, found: Dict[str, Block]) -> None:
        line = block.begin + 1
        marks = read_marks(block.info_text, line)
        same = next((case.line for case in self.cases if marks.name is not None and case.marks.name == marks.name), None)
        if same is not None:
            raise Trouble(f"line {line}: the case in line {same} has the name {ascii(marks.name)}, too")
        for kind, one in found.items():
            refuse_marks(one.info_text, one.begin + 1, kind)
        for one in (block, *found.values()):
            if not one.is_closed:
                raise Trouble(f"the fence in line {one.begin + 1} isn't closed")
        lines = list(block.content)
        fields = tuple(whole(lines) if self.is_whole or marks.is_whole else groups(lines, language_in(self.sessions[session])))
        if not fields:
            raise Trouble(f"line {line}: the case has no code")
        wanted, errors = ("\n".join(found[kind].content) if kind in found else None for kind in (ANSWER, ERROR))
        self.cases.append(Case(session, marks, block.content, fields, line, wanted, errors))
        after = found[ANSWER].end if ANSWER in found else block.end
        places = {ANSWER: block.end, ERROR: after}
        places_of = {kind: (found[kind].begin, found[kind].end) if kind in found else (places[kind],) * 2 for kind in (ANSWER, ERROR)}
        self.spans.append({kind: Span(*place, block.before_end) for kind, place in places_of.items()})

    def accepted(self, answers: Dict[int, str], errors: Dict[int, str]) -> str:
        """The text with these answers and errors, by the place of their case, in place of those that stand there."""
        lines = list(self.lines)
        given = [(self.spans[at][kind], kind, text) for kind, texts in ((ANSWER, answers), (ERROR, errors)) for at, text in texts.items()]
        # From the last one on, so that the places of the others stay; of two at one place the answer comes first.
        for span, kind, text in sorted(given, key=lambda one: (one[0].begin, one[1]), reverse=True):
            line_end = cut(self.lines[0])[1] or "\n"
            mark = "`" * max(3, 1 + max((len(run) for run in RUN.findall(text)), default=0))
            block = [mark + kind, *text.split("\n"), mark]
            put = [(span.prefix + line).rstrip() if not line else span.prefix + line for line in block]
            if span.begin == span.end:
                # The fence may be the last line of the text, without an end.
                lines[span.begin - 1] = cut(lines[span.begin - 1])[0] + line_end
                put.insert(0, span.prefix.rstrip())
            lines[span.begin : span.end] = [line + line_end for line in put]
        return "".join(lines)

    def checked(self, answers: Dict[int, str], errors: Optional[Dict[int, str]] = None) -> str:
        """The same, where it reads as the same cases with these answers and errors and nothing else."""
        errors = errors or {}
        text = self.accepted(answers, errors)
        again = Text(self.suite.path, text)
        same = [(case.session, case.lines, case.marks) for case in again.cases] == [(case.session, case.lines, case.marks) for case in self.cases]
        wanted = [(answers.get(at, case.wanted), errors.get(at, case.errors)) for at, case in enumerate(self.cases)]
        if not same or [(case.wanted, case.errors) for case in again.cases] != wanted:
            raise Trouble("these answers can't stand in the text as they are; it stays as it is")
        return text
