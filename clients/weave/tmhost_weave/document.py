"""A text with fences of sessions: what each has, where it ends, and what an earlier weave put after it."""
import collections
import dataclasses
import re
from typing import Counter, Dict, FrozenSet, Iterator, List, Optional, Sequence, Tuple

from tmhost.near import near
from tmhost_fences.blocks import FENCE, LINE, Block, block_of, cut, tokens_of
from tmhost_fences.fields import SURROGATE, Group, groups, language_in, whole
from tmhost_fences.front import SESSIONS, Sessions, front_of, sessions_meant, why_misspelt
from tmhost_fences.info import ATTRIBUTES, LITERAL, NO, OBEYED, is_hidden, is_without_text, wants_errors
from tmhost_fences.meant import session_meant
from tmhost_fences.troubles import Trouble

from .answers import Finder, Shown, is_of_an_answer, lines_of
from .knitr import R, Setting, groups_without, settings_in, uses_knitr

BARE_WORD = re.compile(r"[A-Za-z][A-Za-z-]*")
TAB = 4  # columns
HIDE, FOLD, PURE, WHOLE, ENDS = "hide", "fold", "pure", "whole", "ends"
ECHO = "echo"
FLAGS = (HIDE, FOLD, PURE, WHOLE, ENDS)
WORDS = (*FLAGS, LITERAL)
TEXTLESS = "textless"  # no text of an answer is shown, as by `results='hide'`
ERRORS_WANTED, ERRORS_FAIL = "errors wanted", "errors fail"  # by `error=TRUE` and `error=FALSE`
LONGEST_NAME = 40  # characters of what isn't a session's, in a message


@dataclasses.dataclass
class Fence:
    """`begin`, `end` and `until` are lines, from 0: where it begins, the one after it, and the one after the answers that stand there."""

    session: str
    flags: FrozenSet[str]
    content: Tuple[str, ...]
    begin: int
    end: int
    until: int
    prefix: str  # of each line after it: the marks of the quotes and lists in which it stands
    is_in_container: bool
    language: str
    old: Shown
    loads_knitr: bool = False  # whether `library(knitr)` is code like any other, since code of its text needs it

    @property
    def is_pure(self) -> bool:
        return PURE in self.flags

    @property
    def ends(self) -> bool:
        """Whether its code is meant to end its interpreter."""
        return ENDS in self.flags

    @property
    def settings(self) -> List[Setting]:
        """Those of knitr that its code has, which are left out."""
        return list(settings_in(self.content, self.loads_knitr)) if self.language == R else []

    @property
    def groups(self) -> List[Group]:
        lines, is_whole, settings = list(self.content), bool(self.flags & {PURE, WHOLE}), self.settings
        if settings:
            return groups_without(lines, settings, is_whole)
        return list(whole(lines) if is_whole else groups(lines, self.language))

    @property
    def code(self) -> Tuple[str, FrozenSet[str], Tuple[str, ...]]:
        """What doesn't depend on the place at which it stands."""
        return self.session, self.flags, self.content


def named_in(block: Block, sessions: Sessions) -> Optional[Tuple[str, FrozenSet[str]]]:
    """The session that a fence names, and the flags that it has: `py {hide}` or `{.py .hide}`; a chunk has none, but options, as
    `{py plot, include=FALSE}`. One with `eval=FALSE` is text."""
    info = block.info
    if info.name not in sessions or not block.is_evaluated:
        return None
    for word in info.words:
        if BARE_WORD.fullmatch(word) and word not in FLAGS:
            meant = near(word, WORDS)
            is_meant = f": is {meant} meant?" if meant else ""
            raise Trouble(f"line {block.begin + 1}: {ascii(word)} is none of the words that a fence can have: {', '.join(WORDS)}{is_meant}")
    by_error = {True: [ERRORS_WANTED], False: [ERRORS_FAIL]}
    wanted = wants_errors(block.options)
    by_options = [HIDE] * is_hidden(block.options) + [TEXTLESS] * is_without_text(block.options) + ([] if wanted is None else by_error[wanted])
    return info.name, info.flags(FLAGS) | frozenset(by_options)


def option_meant(name: str) -> Optional[str]:
    """The option that is obeyed of which another one is a misspelling."""
    return None if name in OBEYED else near(name, [one for one in OBEYED if one != ECHO])


def misspelt(block: Block) -> Iterator[str]:
    """What is said of the words and options of a session's fence that change nothing, and are most likely meant to."""
    info = block.info
    bare = [] if info.is_chunk else ATTRIBUTES.sub(" ", block.info_text).split()[1:]
    for word in bare:
        if word in WORDS:
            yield f"{word!r} changes nothing without braces: {{{word}}}"
    for word in [*bare, *(word[1:] for word in info.words if word.startswith("."))]:
        meant = near(word, WORDS) if BARE_WORD.fullmatch(word) else None
        if meant:
            yield f"{word!r} changes nothing: is {{{meant}}} meant?"
    for name in block.options:
        meant = option_meant(name)
        if meant:
            yield f"the option {name!r} changes nothing: is {meant} meant?"


def why_unevaluated(block: Block, sessions: Sessions) -> Optional[str]:
    """Why a fence that is no session's isn't evaluated, where it looks like one that is meant to be: a chunk (`{r}`), one with a flag, and one whose name
    is the language of a session, or nearly the name of one."""
    info = block.info
    if not block.is_evaluated:
        return None
    meant = session_meant(info.name, sessions)
    if not (meant or info.is_chunk or info.flags(FLAGS)):
        return None
    name = ascii(info.name[:LONGEST_NAME])[1:-1]
    if not name:
        return "no session is named here, so this fence isn't evaluated"
    text = f"{{{name}, eval=FALSE}}" if info.is_chunk else f"{name} {{{LITERAL}}}"
    return f"no session is called {name}, so this fence isn't evaluated" + (f": is {meant} meant? (As text it is `{text}`)" if meant else "")


class Document:
    def __init__(self, text: str) -> None:
        self.lines: List[str] = LINE.findall(text)
        contents = [cut(line)[0] for line in self.lines]
        front = front_of(contents)
        meant = sessions_meant(contents)
        if meant:
            raise Trouble(why_misspelt(meant, SESSIONS))
        self.sessions = front.sessions
        self.always: FrozenSet[str] = frozenset([WHOLE] if front.is_whole else [])  # flags that each fence has
        self.fences: List[Fence] = []
        self.strays: List[int] = []  # lines, from 1, at which an answer begins that belongs to no fence
        self.others: Counter[str] = collections.Counter()  # fences of no session, by what stands at them
        self.doubts: List[Tuple[int, str]] = []  # what isn't done that is most likely meant: the line, from 1, of a fence, and what is said of it
        self.has_texts = False  # whether a fence of a session is text since it says so
        self.ignored: Dict[str, int] = {}  # options of fences of sessions that are, each with the line, from 1, of the first one
        self.of_pages: Dict[str, int] = {}  # the same of options that only pages obey
        self.first, self.body = front.lines, contents[front.lines :]  # the first line after the front matter, and the lines from there on, without their ends
        self._read(self.body, self.first)
        loads_knitr = uses_knitr([fence.content for fence in self.fences if fence.language == R])
        for fence in self.fences:
            fence.loads_knitr = loads_knitr
        self._note_other_bytes()

    def _read(self, body: List[str], first: int) -> None:
        tokens = tokens_of(body)
        at = 0
        while at < len(tokens):
            token = tokens[at]
            at += 1
            if token.type != FENCE:
                continue
            block = block_of(token, body, first)
            named = named_in(block, self.sessions)
            if named:
                finder = Finder(tokens, at, token.map[1], body, first)
                self.fences.append(self._fence(block, named, finder, first))
                self.doubts += [(block.begin + 1, why) for why in misspelt(block)]
                if self.fences[-1].ends and not self.fences[-1].groups:
                    self.doubts.append((block.begin + 1, f"no code is here that could end its interpreter, as {{{ENDS}}} says"))
                self._note_ignored(block)
                at = finder.at
            elif is_of_an_answer(block.info_text):
                self.strays.append(block.begin + 1)
            else:
                self.others[block.info_text] += 1
                self.has_texts |= block.info.name in self.sessions
                why = why_unevaluated(block, self.sessions)
                self.doubts += [(block.begin + 1, why)] if why else []

    def _note_other_bytes(self) -> None:
        """Notes where bytes are no UTF-8, which stand as surrogates here. What stands as an answer is made again."""
        answers = {line for fence in self.fences for line in range(fence.end, fence.until)}
        lines = [at + 1 for at, line in enumerate(self.lines) if at not in answers and SURROGATE.search(line)]
        if lines:
            more = f" (and so has line {lines[1]})" if len(lines) == 2 else f" (and so have {len(lines) - 1} more lines)" if lines[2:] else ""
            self.doubts.append((lines[0], f"it has bytes that are no UTF-8, which stay as they are: save the text as UTF-8{more}"))

    def _note_ignored(self, block: Block) -> None:
        for name in block.ignored:
            is_of_page = name == ECHO and block.options[name].lower() in NO
            if not option_meant(name):
                (self.of_pages if is_of_page else self.ignored).setdefault(name, block.begin + 1)

    @property
    def settings(self) -> Dict[str, int]:
        """The settings of knitr that are left out, each with the line, from 1, of the first one."""
        found: Dict[str, int] = {}
        for fence in self.fences:
            for setting in fence.settings:
                found.setdefault(setting.name, fence.begin + 2 + setting.begin)
        return found

    @property
    def has_ends(self) -> bool:
        """Whether code of it is meant to end its interpreter."""
        return any(fence.ends for fence in self.fences)

    @property
    def is_doubtful(self) -> bool:
        """Whether something is most likely not meant as it stands: a fence that isn't evaluated, all that sessions are named for, or bytes that are no text."""
        return bool(self.doubts) or bool(self.sessions) and not self.fences and not self.has_texts

    def _fence(self, block: Block, named: Tuple[str, FrozenSet[str]], finder: Finder, first: int) -> Fence:
        if not block.is_closed:
            raise Trouble(f"the fence in line {block.begin + 1} isn't closed")
        old = finder.shown()
        # Readers differ in what they make of a part of a tab. The quote's optional space, since else it would take the first one of a line.
        prefix = block.before_end.expandtabs(TAB) + (" " if block.before_end.endswith(">") else "")
        language = language_in(self.sessions[named[0]])
        return Fence(named[0], named[1] | self.always, block.content, block.begin, block.end, finder.end + first, prefix, block.is_in_container, language, old)

    def woven(self, shown: Sequence[Shown]) -> str:
        """The text with these answers after its fences, in place of those that stand there."""
        parts: List[str] = []
        at = 0
        for fence, one in zip(self.fences, shown):
            if one.is_left:
                parts += self.lines[at : fence.until]
                at = fence.until
                continue
            closing = cut(self.lines[fence.end - 1])[0]
            line_end = cut(self.lines[fence.begin])[1]
            parts += self.lines[at : fence.end - 1]
            parts.append(closing + "".join(line_end + line for line in lines_of(one, fence.prefix, fence.is_in_container)))
            parts.append(cut(self.lines[fence.until - 1])[1])
            at = fence.until
        return "".join(parts + self.lines[at:])

    @property
    def counts(self) -> List[int]:
        """How many lines stand after each fence that are answers."""
        return [fence.until - fence.end for fence in self.fences]

    def counts_with(self, shown: Sequence[Shown]) -> List[int]:
        """The same in the text with these answers."""
        of = zip(self.fences, shown, self.counts)
        return [count if one.is_left else len(lines_of(one, fence.prefix, fence.is_in_container)) for fence, one, count in of]

    def moved(self, shown: Sequence[Shown]) -> Dict[int, int]:
        """How many lines further down each fence stands in the text with these answers, by its first line."""
        found: Dict[int, int] = {}
        further = 0
        for fence, old, new in zip(self.fences, self.counts, self.counts_with(shown)):
            found[fence.begin] = further
            further += new - old
        return found

    @property
    def bare(self) -> str:
        """The text without answers."""
        return self.woven([Shown()] * len(self.fences))

    def checked(self, shown: Sequence[Shown]) -> str:
        """The woven text, which reads as this text with these answers and nothing else."""
        text = self.woven(shown)
        again = Document(text)
        is_same = [fence.code for fence in again.fences] == [fence.code for fence in self.fences] and again.bare == self.bare
        for at, fence in enumerate(self.fences):
            if not is_same or again.fences[at].old != shown[at]:
                raise Trouble(f"the answers to the fence in line {fence.begin + 1} can't stand there as they are; the text stays as it is")
        return text
