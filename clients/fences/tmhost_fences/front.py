"""The front matter of a text: YAML between two lines of `---`, in which the sessions stand, and `fences: whole` where each fence is one field."""
import dataclasses
import re
from typing import Any, Dict, Iterable, List, Optional, Sequence, Tuple

from tmhost.near import near

from .troubles import Trouble, needed

NAME = re.compile(r"[A-Za-z0-9_]{1,20}", re.ASCII)  # without a hyphen: names of the worksheet's own have one
WORD = re.compile(r"[^\x00-\x20\ud800-\udfff]+")
MOST_WORDS = 16
LONGEST_WORD = 1024  # bytes
WHOLE = "whole"
SESSIONS, FENCES = "sessions", "fences"
# Keys of other programs, as pandoc, Quarto and Jekyll, that are a letter or two away from one of ours.
FOREIGN = frozenset("border faces filter footer format formal order pages places sections".split())
KEY = re.compile(r"^[\"']?(\w+)[\"']?[ \t]*:", re.MULTILINE)
KEY_OF_MAPPING = re.compile(r"^[\"']?(\w+)[\"']?[ \t]*:[ \t]*(?:\{|(?:#.*)?\n[ \t]+\S+[ \t]*:)", re.MULTILINE)
NAMES_SESSIONS = re.compile(r"^[ \t]*[\"']?sessions[\"']?[ \t]*:", re.MULTILINE)

OF_TEXT = '"<unicode string>", '  # in what is said of YAML, before a line

Sessions = Dict[str, Tuple[str, ...]]


@dataclasses.dataclass(frozen=True)
class Front:
    """How many lines it has, the words of each session, and whether each fence is one field."""

    lines: int
    sessions: Sessions
    is_whole: bool = False


def matter_end(lines: Sequence[str]) -> int:
    """How many of a text's first lines, which have no ends, are front matter."""
    if not lines or lines[0].lstrip("\ufeff").rstrip(" \t") != "---":
        return 0
    return next((at + 1 for at, line in enumerate(lines) if at and line.rstrip(" \t") in ("---", "...")), 0)


def front_of(lines: Sequence[str]) -> Front:
    """The front matter of a text of these lines. What names no sessions is a part of the text like any other."""
    end = matter_end(lines)
    text = "\n".join(lines[1 : max(1, end - 1)])
    return Front(end, *read_in(text)) if NAMES_SESSIONS.search(text) else Front(0, {})


def sessions_meant(lines: Sequence[str], key: "re.Pattern[str]" = KEY) -> Optional[str]:
    """The key of a front matter without sessions that most likely is a misspelt `sessions`."""
    text = "\n".join(lines[1 : max(1, matter_end(lines) - 1)])
    return None if NAMES_SESSIONS.search(text) else next((name for name in key.findall(text) if key_meant(name, [SESSIONS])), None)


def key_meant(key: str, known: Sequence[str]) -> Optional[str]:
    """The known key that is meant by another one."""
    return None if key in FOREIGN else near(key, known)


def why_misspelt(key: str, meant: str) -> str:
    return f"the front matter has {ascii(key)}: is {meant} meant?"


def refuse_misspelt(keys: Iterable[str], known: Sequence[str]) -> None:
    """Refuses keys of a front matter that most likely are misspelt. Where the one that would be meant is there, too, it is another one."""
    found = list(keys)
    meant = [(key, key_meant(key, known)) for key in found]
    reasons = [why_misspelt(key, name) for key, name in meant if name and name not in found]
    if reasons:
        raise Trouble(*reasons)


def read_in(text: str) -> Tuple[Sessions, bool]:
    """The sessions, and whether each fence is one field."""
    yaml = needed("yaml", "python3-yaml")
    try:
        # The base loader takes each scalar as it is written, so a session `no` or a word `010` is what it looks like. Lines are counted from the file's first one.
        root = yaml.compose(f"---\n{text}\n", Loader=yaml.BaseLoader)
    except (yaml.YAMLError, RecursionError) as error:
        raise Trouble(f"the front matter is no YAML: {' '.join(str(error).replace(OF_TEXT, '').split())}") from error
    found: Sessions = {}
    is_whole = False
    found_pairs = pairs(yaml, root, "the front matter")
    refuse_misspelt((key for key, _ in found_pairs), [FENCES])
    for key, value in found_pairs:
        if key == FENCES:
            is_whole = isinstance(value, yaml.ScalarNode) and value.value == WHOLE
            if not is_whole:
                raise Trouble(f"`fences` can only be `{WHOLE}`")
        if key == SESSIONS:
            for name, words in pairs(yaml, value, "`sessions`") if not is_nothing(yaml, value) else []:
                add(found, name, words_in(yaml, name, words))
    return found, is_whole


def add(found: Sessions, name: str, words: Tuple[str, ...]) -> None:
    if not NAME.fullmatch(name):
        raise Trouble(f"a session can't have the name {ascii(name)}: it is 1 to 20 ASCII letters, digits and _")
    if name in found:
        raise Trouble(f"the front matter names the session {name} twice")
    found[name] = words


def is_nothing(yaml: Any, node: Any) -> bool:
    return isinstance(node, yaml.ScalarNode) and not node.value


def pairs(yaml: Any, node: Any, what: str) -> List[Tuple[str, Any]]:
    """The keys and values of a mapping."""
    if not isinstance(node, yaml.MappingNode):
        raise Trouble(f"{what} is no mapping of names, as in `sessions: {{py: [tmhost-python]}}`")
    return [(str(key.value), value) for key, value in node.value]


def words_in(yaml: Any, name: str, node: Any) -> Tuple[str, ...]:
    """The words of a session: a list of them, or a text that is cut at its spaces."""
    if isinstance(node, yaml.SequenceNode) and all(isinstance(item, yaml.ScalarNode) for item in node.value):
        words = tuple(str(item.value) for item in node.value)
    elif isinstance(node, yaml.ScalarNode):
        words = tuple(str(node.value).split())
    else:
        raise Trouble(f"the words of the session {name} are no list of words")
    if not 1 <= len(words) <= MOST_WORDS:
        raise Trouble(f"the session {name} has {len(words)} words: it must be 1 to {MOST_WORDS}")
    for word in words:
        if word.split() != [word] and WORD.fullmatch("".join(word.split())):
            raise Trouble(f"the session {name} has a word with a space, {ascii(word)[:80]}: write [{', '.join(word.split())[:80]}]")
        if not WORD.fullmatch(word) or len(word.encode("utf-8")) > LONGEST_WORD:
            raise Trouble(f"the session {name} can't have the word {ascii(word)[:80]}: it has 1 to 1,024 bytes and no space")
    return words
