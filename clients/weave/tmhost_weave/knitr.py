"""Settings of knitr in code of R, which change nothing here: they are left out, so that they are no error where R has no knitr."""
import re
from typing import Iterator, List, NamedTuple, Optional, Sequence, Tuple

from tmhost_fences.fields import LINE_END, Group, bared, groups, whole

R = "R"
SETTING = re.compile(r"\s*(?:knitr\s*::\s*)?(opts_chunk|opts_knit)\s*\$\s*set\s*(?=\()")
LIBRARY = re.compile(r"\s*(?:library|require)\s*\(\s*([\"']?)knitr\1\s*\)\s*;?\s*(?:#.*)?")
BRACKET = re.compile(r"[][(){}]")
# What code takes from knitr, which it has to load then.
USE = re.compile(r"(?<![\w.:])(?:kables?|include_(?:graphics|url|app)|combine_words|asis_output|raw_(?:html|latex|block|output)|knit\w*|is_(?:html|latex)_output|purl|spin|stitch)\s*\(")


class Setting(NamedTuple):
    """Which lines of a fence it has, from 0, and what it is called."""

    begin: int
    end: int
    name: str


def name_of(lines: Sequence[str], keeps_library: bool) -> Optional[str]:
    """What a statement is called where it is a setting and nothing else."""
    if len(lines) == 1 and LIBRARY.fullmatch(lines[0]):
        return None if keeps_library else "library(knitr)"
    bare = "\n".join(bared(list(lines), R))
    found = SETTING.match(bare)
    return f"knitr::{found[1]}$set" if found and not bare[end_of_call(bare, found.end()) :].strip("; \t\n") else None


def end_of_call(bare: str, begin: int) -> int:
    """Where the brackets close that open there; 0 where they don't."""
    depth = 0
    for bracket in BRACKET.finditer(bare, begin):
        depth += 1 if bracket[0] in "([{" else -1
        if depth == 0:
            return bracket.end()
    return 0


def settings_in(lines: Sequence[str], keeps_library: bool) -> Iterator[Setting]:
    for group in groups(list(lines), R):
        end = group.at + group.input.count(LINE_END) + 1
        name = name_of(lines[group.at : end], keeps_library)
        if name:
            yield Setting(group.at, end, name)


def uses_knitr(codes: Sequence[Sequence[str]]) -> bool:
    """Whether code needs the functions of knitr, by names of their own."""
    return any(USE.search(line) for lines in codes for line in bared(list(lines), R))


def groups_without(lines: Sequence[str], settings: Sequence[Setting], is_whole: bool) -> List[Group]:
    """The fields of a fence without its settings."""
    left_out = {at for one in settings for at in range(one.begin, one.end)}
    if not is_whole:
        return [group for group in groups(list(lines), R) if group.at not in left_out]
    kept: List[Tuple[int, str]] = [(at, line) for at, line in enumerate(lines) if at not in left_out]
    first = next((at for at, line in kept if line.strip(" \t")), 0)
    return [Group(first, group.input) for group in whole([line for at, line in kept if at >= first])]
