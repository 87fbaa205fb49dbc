"""What the info string of a fence says: its name, the words after it, and whether its code is to be evaluated."""
import dataclasses
import re
from typing import Dict, FrozenSet, List, Optional, Sequence, Tuple

ATTRIBUTES = re.compile(r"\{([^{}]*)\}")
CHUNK = re.compile(r"\{\s*([^\s,{}.#=]+)(?=[\s,}])")  # `{r, echo=FALSE}` of knitr, Quarto and MyST
OPTION = re.compile(r"""([\w.-]+)\s*=\s*("[^"]*"|'[^']*'|[^\s,{}]+)""")
# Options of knitr and Quarto that stand in the code, as remarks in front of it.
REMARK = re.compile(r"\s*(?:#|//|--|%%)\|\s*([\w.-]+)\s*:\s*(.*)")
NO = ("false", "f", "no", "never")
YES = ("true", "t", "yes")
HIDDEN = ("hide", *NO)  # values of `results`
NOTEBOOK = "ipynb"
LITERAL = "literal"  # of a fence whose code is a text
# Options that change what is done, each with the values that say what is done in any case, or what can be.
OBEYED: Dict[str, Sequence[str]] = {"eval": NO + YES, "include": NO + YES, "output": NO + YES, "results": (*HIDDEN, "markup"), "echo": YES, "error": NO + YES}


@dataclasses.dataclass(frozen=True)
class Info:
    """`name` is the first word or class (`py`, `{.py .hide}`), or the language of a chunk (`{r, echo=FALSE}`)."""

    name: str
    words: Tuple[str, ...]  # those in braces after it
    options: Dict[str, str]
    is_chunk: bool

    def flags(self, known: Sequence[str]) -> FrozenSet[str]:
        return frozenset(word.lstrip(".") for word in self.words) & frozenset(known)


def info_of(text: str) -> Info:
    found = CHUNK.match(text)
    options = {key.lower(): value.strip("\"'") for key, value in OPTION.findall(text)}
    attributes = [word for part in ATTRIBUTES.findall(text) for word in re.split(r"[\s,]+", part) if word]
    if found:
        return Info(found[1], (), options, True)
    first = (text.split() or [""])[0]
    if first.startswith("{"):
        first, attributes = (attributes[0] if attributes else ""), attributes[1:]
        first = first[1:] if first.startswith(".") else ""
    return Info(first, tuple(attributes), options, False)


def options_in(code: Sequence[str]) -> Dict[str, str]:
    """The options that stand in remarks in front of the code."""
    found: Dict[str, str] = {}
    for line in code:
        option = REMARK.match(line)
        if not option:
            break
        found[option[1].lower()] = option[2].strip().strip("\"'")
    return found


def is_evaluated(options: Dict[str, str], code: Sequence[str]) -> bool:
    """Whether the author wants the code evaluated: by `eval` of knitr and Quarto, by `active` of jupytext, which names the kinds of files in
    which a cell is code. An `eval` that isn't a constant is one that may be."""
    given = {**options, **options_in(code)}
    active: List[str] = re.split(r"[\s,]+", given.get("active", NOTEBOOK))
    return given.get("eval", "").lower() not in NO and NOTEBOOK in active


def is_hidden(options: Dict[str, str]) -> bool:
    """Whether the author wants nothing of what comes to be seen: by `include` of knitr, by `output` of Quarto."""
    return any(options.get(name, "").lower() in NO for name in ("include", "output"))


def is_without_text(options: Dict[str, str]) -> bool:
    """Whether the author wants errors and figures alone."""
    return options.get("results", "").lower() in HIDDEN


def wants_errors(options: Dict[str, str]) -> Optional[bool]:
    """Whether an error is what the author wants to show, or mustn't be; None where the options don't say."""
    said = options.get("error", "").lower()
    return True if said in YES else False if said in NO else None


def ignored(options: Dict[str, str]) -> List[str]:
    """The options that say something else than what is done. A label says nothing that could be."""
    return [name for name, value in options.items() if name not in ("active", "label") and value.lower() not in OBEYED.get(name, ())]
