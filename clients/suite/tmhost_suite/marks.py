"""What the info string of a fence says of its case: `gp {setup}`, `py {setup timeout 5} {xfail slow machines}`, `{.py .setup timeout=5}`."""
import re
import shlex
from decimal import Decimal
from typing import Callable, Dict, Iterator, List, NamedTuple, Optional, Tuple

from tmhost.near import near
from tmhost_fences.info import LITERAL, NO, OPTION
from tmhost_fences.troubles import Trouble

from .cases import Marks
from .rules import Normal, allowance, normal_of

BRACES = re.compile(r"\{([^{}]*)\}")
WORD = re.compile(r"[\s,]*([^\s,]+),?\s*")
SESSION = re.compile(r"\s*\S+\s*")
BARE_WORD = re.compile(r"[A-Za-z][A-Za-z_]*")
QUOTED = re.compile(r"""(["']).*?\1(?=[\s,])""")
MOST_SECONDS = 1_000_000
MOST_TRIES = 100

Mark = Tuple[str, str]  # its name, and what stands after it


def session_in(info: str) -> Optional[str]:
    """The first word or class of an info string."""
    info = info.strip()
    first = (info.split() or [""])[0]
    if first.startswith("{"):
        classes = [word for found in BRACES.findall(info)[:1] for word in found.split()]
        return classes[0][1:] if classes and classes[0].startswith(".") else None
    return first or None


# ---- how many words of its braces belong to a word


def cut_word(text: str) -> Mark:
    """The first word, and what stands after it. Commas are as good as blanks, as to tmhost-weave."""
    found = WORD.match(text)
    return (found[1], text[found.end() :].strip()) if found else ("", "")


def nothing(rest: str) -> Mark:
    return "", rest


def all_of_it(rest: str) -> Mark:
    return rest, ""


def reason(rest: str) -> Mark:
    """All of it. Where it stands in quotes, it ends with them if a word of a case comes after that."""
    quoted = QUOTED.match(rest)
    return (quoted[0], rest[quoted.end() :]) if quoted and is_known(cut_word(rest[quoted.end() :])[0]) else (rest, "")


def up_to_a_word(rest: str) -> Mark:
    """What stands in front of the next word of a case."""
    given: List[str] = []
    while rest and not is_known(cut_word(rest)[0]):
        word, rest = cut_word(rest)
        given.append(word)
    return " ".join(given), rest


def two_texts(rest: str) -> Mark:
    """Two texts, each of which may stand in quotes. Where there are no two, all of it."""
    lexer = shlex.shlex(rest, posix=True)
    lexer.whitespace_split, lexer.commenters = True, ""
    try:
        second = [lexer.get_token(), lexer.get_token()][1]
    except ValueError:
        second = None
    left = "" if second is None else lexer.instream.read()
    return rest[: len(rest) - len(left)], left


# ---- what a word says


def is_said(rest: str) -> bool:
    """Of a word that has nothing after it."""
    if rest:
        raise ValueError
    return True


def seconds(word: str) -> float:
    value = float(word)
    if not 0 < value <= MOST_SECONDS:
        raise ValueError
    return value


def any_spaces(word: str) -> bool:
    if word != "any":
        raise ValueError
    return True


def unquoted(word: str) -> str:
    """A text that may stand in quotes, as those of `normal` do."""
    return word[1:-1] if len(word) > 1 and word[0] == word[-1] and word[0] in "\"'" else word


def name(word: str) -> str:
    found = unquoted(word).strip()
    if not found:
        raise ValueError
    return found


def pattern(word: str) -> str:
    found = unquoted(word)
    try:
        re.compile(found)
    except re.error:
        raise ValueError from None
    return found


def tolerance(word: str) -> Tuple[Decimal, Decimal]:
    """The relative one, and the absolute one where it is there."""
    first, *more = map(allowance, word.split())
    (second,) = more or [Decimal(0)]
    return first, second


def normal(word: str) -> Tuple[Normal, ...]:
    """A pattern and a text, each in quotes where it has blanks."""
    found, put = shlex.split(word)
    return (normal_of(found, put),)


def tries(word: str) -> int:
    value = int(word or "1")
    if not 1 <= value <= MOST_TRIES:
        raise ValueError
    return value


class Reader(NamedTuple):
    """The member of Marks that a word sets, what it takes of the words after it, and how that is read."""

    member: str
    take: Callable[[str], Mark]
    read: Callable[[str], object]


READERS: Dict[str, Reader] = {
    "setup": Reader("is_setup", nothing, is_said),
    "teardown": Reader("is_teardown", nothing, is_said),
    "whole": Reader("is_whole", nothing, is_said),
    "independent": Reader("is_independent", nothing, is_said),
    "pure": Reader("is_independent", nothing, is_said),  # the word of tmhost-weave
    "xfail": Reader("xfail", reason, unquoted),
    "may_fail": Reader("may_fail", reason, unquoted),
    "skip": Reader("skip", reason, unquoted),
    "skip_if": Reader("skip_if", reason, pattern),
    "timeout": Reader("timeout", up_to_a_word, seconds),
    "tags": Reader("tags", all_of_it, lambda rest: frozenset(re.split(r"[\s,]+", rest)) - {""}),
    "name": Reader("name", reason, name),
    "flaky": Reader("flaky", up_to_a_word, tries),
    "spaces": Reader("any_spaces", up_to_a_word, any_spaces),
    "tolerance": Reader("tolerance", up_to_a_word, tolerance),
    "normal": Reader("normal", two_texts, normal),
}
# Words of tmhost-weave that change nothing of a case, so that a text may be woven and tested.
IDLE = ("hide", "fold")
KNOWN = (*READERS, *IDLE, LITERAL)
SEVERAL = "normal"  # of these a case may have several


def is_known(word: str) -> bool:
    return word in READERS or word in IDLE


# ---- info strings


def of_pandoc(found: str) -> Iterator[Mark]:
    """The classes and pairs after the first class: `.setup`, `timeout=5`, `xfail="a reason"`."""
    for word in shlex.split(found)[1:]:
        name, _, rest = word.lstrip(".").partition("=")
        yield name, rest


def of_braces(found: str) -> Iterator[Mark]:
    """The words in a pair of braces, one after another."""
    rest = found.strip()
    while cut_word(rest)[0]:
        name, rest = cut_word(rest)
        given, rest = READERS[name].take(rest) if name in READERS else nothing(rest)
        yield name, given.strip()


def marks_in(info: str) -> Iterator[Mark]:
    for at, found in enumerate(BRACES.findall(info)):
        yield from of_pandoc(found) if at == 0 and info.startswith("{") else of_braces(found)


def has_marks(info: str) -> bool:
    """Whether an info string has a word that is meant for a case. In braces without classes it is the first one: others may be those of a title."""
    try:
        for at, found in enumerate(BRACES.findall(info)):
            names = [name for name, _ in of_pandoc(found)] if at == 0 and info.strip().startswith("{") else [cut_word(found)[0]]
            if not READERS.keys().isdisjoint(names):
                return True
    except ValueError:
        pass
    return False


def is_text(info: str) -> bool:
    """Whether an info string says, as to tmhost-weave, that its fence is text, whatever its word is. A reason of a case may have any words."""
    for found in BRACES.findall(info):
        try:
            words = [word.strip(",") for word in shlex.split(found)]
        except ValueError:
            continue
        # Those after a word that has something after it may be of that.
        first = next((at for at, word in enumerate(words) if word in READERS and READERS[word].take is not nothing), len(words))
        options = {name: value.lower() for name, _, value in (word.partition("=") for word in words[:first])}
        if options.get("eval") in NO or not options.keys().isdisjoint((LITERAL, "." + LITERAL)):
            return True
    return False


def outside(info: str) -> Tuple[List[str], List[Mark]]:
    """The words of an info string in no braces, without its session, and the options there, as `title="a text"`."""
    bare = BRACES.sub(" ", info)
    bare = bare if info.startswith("{") else SESSION.sub("", bare, count=1)
    return OPTION.sub(" ", bare).split(), [(found[1], found[2]) for found in OPTION.finditer(bare)]


def why_bare(info: str) -> Optional[str]:
    """What is said of words in no braces, which change nothing, where they are most likely meant to. Others are those of other programs."""
    words, options = outside(info)
    for name, value in options:
        if name in READERS:
            return f"{name!r} changes nothing without braces: {{{name} {value}}}"
    for at, word in enumerate(words):
        if "{" in word or "}" in word:
            return f"{ascii(word)}: a pair of braces isn't closed, or has others in it"
        if word in KNOWN:
            return f"{word!r} changes nothing without braces: {{{meant_by(words[at:])}}}"
        meant = near(word, KNOWN) if BARE_WORD.fullmatch(word) else None
        if meant:
            return f"{word!r} changes nothing: is {{{meant}}} meant?"
    return None


def meant_by(words: List[str]) -> str:
    """What is to stand in braces: all of these words, where a case can have that, or else the first one."""
    text = " ".join(words)
    try:
        read_marks(f"session {{{text}}}", 0)
    except Trouble:
        return words[0]
    return text


def refuse_marks(info: str, line: int, kind: str) -> None:
    """Refuses words of a case at what is wanted of it, where they would change nothing."""
    if has_marks(info) or why_bare(info.strip()):
        raise Trouble(f"line {line}: the words of a case change nothing at the fence {kind}: they stand at that of its code")


def value_of(name: str, rest: str, line: int) -> object:
    if name not in READERS:
        meant = near(name, tuple(READERS))
        raise Trouble(f"line {line}: {ascii(name)} is none of the words that a case can have: {f'is {meant} meant?' if meant else ', '.join(READERS)}")
    try:
        return READERS[name].read(rest)
    except ValueError:
        raise Trouble(f"line {line}: {ascii(rest)} is nothing that {name} can have") from None


def read_marks(info: str, line: int) -> Marks:
    """What an info string says. What of it isn't obeyed is refused, since its author would hear nothing of that."""
    info = info.strip()
    why = why_bare(info)
    if why:
        raise Trouble(f"line {line}: {why}")
    try:
        marks = list(marks_in(info))
    except ValueError:
        raise Trouble(f"line {line}: the quotes in {ascii(info)} aren't closed") from None
    found: Dict[str, object] = {}
    for name, rest in marks:
        if name in IDLE and not rest:
            continue
        value = value_of(name, rest, line)
        member = READERS[name].member
        if member in found and name != SEVERAL and value is not True:
            raise Trouble(f"line {line}: {name} stands there twice")
        found[member] = found.get(member, ()) + value if name == SEVERAL else value  # type: ignore[operator]
    return Marks(**found)  # type: ignore[arg-type]
