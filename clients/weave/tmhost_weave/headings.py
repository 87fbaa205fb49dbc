"""The headings of a page: each has a name, as pandoc gives it, so that `[above](#counting-words)` leads there."""
import re
from typing import Any, List, Set

ATTRIBUTES = re.compile(r"[ \t]+\{([^{}]*)\}\Z")  # as `{#sum .unnumbered}`, which pandoc takes for attributes
NAMED = re.compile(r"#([^\s#.{}=]+)")
NO_LETTERS = re.compile(r"[^\w\s.-]")
WHOLE = "section"


def text_of(tokens: List[Any]) -> str:
    return "".join(" " if token.type in ("softbreak", "hardbreak") else token.content for token in tokens)


def name_of(text: str) -> str:
    """The name of a heading: its letters and digits from the first letter on, with hyphens for its blanks."""
    words = "-".join(NO_LETTERS.sub("", text).lower().split())
    return re.sub(r"\A[\W\d_]+", "", words) or WHOLE


def own_name(inline: Any) -> str:
    """The name that stands in braces at a heading, which are taken out."""
    last = inline.children[-1] if inline.children else None
    found = ATTRIBUTES.search(last.content) if last and last.type == "text" else None
    if not found:
        return ""
    last.content = last.content[: found.start()]
    named = NAMED.search(found[1])
    return named[1] if named else ""


def free(name: str, taken: Set[str]) -> str:
    found, number = name, 0
    while found in taken:
        number += 1
        found = f"{name}-{number}"
    taken.add(found)
    return found


def add_names(tokens: List[Any]) -> None:
    taken: Set[str] = set()
    for at, token in enumerate(tokens):
        if token.type == "heading_open":
            own = own_name(tokens[at + 1])
            token.attrSet("id", free(own or name_of(text_of(tokens[at + 1].children)), taken))


def first_heading(tokens: List[Any]) -> str:
    found = (tokens[at + 1].children for at, token in enumerate(tokens) if token.type == "heading_open")
    return next(filter(None, (text_of(children).strip() for children in found)), "")
