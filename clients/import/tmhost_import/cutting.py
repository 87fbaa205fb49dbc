"""Cuts code that no field can hold into pieces of whole statements.

Python's own parser says where statements end. Of other languages a cut is made only where it is plain that one ends: outside of brackets,
texts, remarks and blocks, in front of a line that begins at the left edge, and at an empty line rather than at another one.
"""
import ast
import re
from collections.abc import Iterator

from tmhost_fences.fields import DECORATOR, GOES_ON, LONGEST_INPUT, TEXTS, left_of

from .prose import size_of

OTHER_TEXTS = re.compile(r'"(?:\\.|[^"\\])*"|/\*.*?(?:\*/|\Z)|(?:(?<=\s)|^)(?:#|//|--)\s[^\n]*', re.DOTALL | re.MULTILINE)
TEXTS_OF = {
    **TEXTS,
    "julia": re.compile(r'"""(?:\\.|[^\\])*?"""|"(?:\\.|[^"\\])*"|#=.*?=#|#[^\n]*', re.DOTALL),
    "maxima": re.compile(r'"(?:\\.|[^"\\])*"|/\*.*?(?:\*/|\Z)', re.DOTALL),
    # A ' after a name, a bracket or another ' transposes.
    "octave": re.compile(
        r"^[ \t]*[%#]\{[ \t]*\n.*?^[ \t]*[%#]\}[ \t]*$|\"(?:\\.|[^\"\\\n])*\"|(?<![\w)\]}'.])'(?:''|[^'\n])*'|[%#][^\n]*", re.DOTALL | re.MULTILINE
    ),
    "sh": re.compile(
        r"<<-?[ \t]*(['\"]?)(\w+)\1[^\n]*\n.*?^[ \t]*\2$|\"(?:\\.|[^\"\\])*\"|'[^']*'|\\.|(?:(?<=\s)|^)#[^\n]*", re.DOTALL | re.MULTILINE
    ),
}
# Words that begin and end blocks.
BLOCKS = {
    "gap": (re.compile(r"\b(?:if|do|repeat|function)\b"), re.compile(r"\b(?:fi|od|until|end)\b")),
    "julia": (
        re.compile(r"\b(?:if|for|while|function|macro|module|baremodule|struct|abstract\s+type|primitive\s+type|begin|let|try|quote|do)\b"),
        re.compile(r"\bend\b"),
    ),
    "lua": (re.compile(r"\b(?:function|if|do|repeat)\b"), re.compile(r"\b(?:end|until)\b")),
    "octave": (
        re.compile(r"\b(?:if|for|parfor|while|switch|function|try|do|unwind_protect|classdef)\b"),
        re.compile(r"\b(?:end\w*|until)\b"),
    ),
    "sh": (
        re.compile(r"(?:^|[;&|]|\b(?:do|then|else)\b)[ \t]*(?:if|for|while|until|case|select)\b"),
        re.compile(r"(?:^|[;&|])[ \t]*(?:fi|done|esac)\b"),
    ),
}
# How a line ends that ends a statement, in languages where each one has such an end.
ENDS = {"gap": ";", "maxima": ";$", "singular": ";}", "sqlite3": ";", "yacas": ";"}
GOES_ON_BELOW = re.compile(r"(?:[\\=,+*/&|<>~^:-]|%\S*%|\.\.\.)\s*\Z")
BEGINS_WITH_OPERATOR = re.compile(r"[|&.,+*/=<>-]")
OPENS, CLOSES = "([{", ")]}"


def cut(code: str, language: str) -> list[str] | None:
    """The code in pieces that fields can hold, each with as many statements as it holds; none where a statement is longer than that."""
    return packed(statements_of_python(code) if language == "python" else list(parts_of_lines(code, language)))


def packed(parts: list[str]) -> list[str] | None:
    pieces: list[str] = []
    for part in parts:
        joined = f"{pieces[-1]}\n{part}" if pieces else part
        if pieces and size_of(joined.strip("\n")) <= LONGEST_INPUT:
            pieces[-1] = joined
        elif size_of(part.strip("\n")) <= LONGEST_INPUT:
            pieces.append(part)
        else:
            return None
    return [piece.strip("\n") for piece in pieces if piece.strip()]


def statements_of_python(code: str) -> list[str]:
    """The lines of each statement, with the remarks in front of it. Statements that share a line stay together."""
    try:
        body = ast.parse(code).body
    except (SyntaxError, ValueError, RecursionError, MemoryError):
        return list(parts_of_lines(code, "python"))
    lines, parts, taken = code.split("\n"), list[str](), 0
    firsts = [min([one.lineno, *(it.lineno for it in getattr(one, "decorator_list", []))]) for one in body]
    for one, following in zip(body, [*firsts[1:], len(lines) + 1]):
        end = one.end_lineno or one.lineno
        if following > end:
            parts.append("\n".join(lines[taken:end]))
            taken = end
    return [*parts, "\n".join(lines[taken:])]


def without_texts(code: str, language: str) -> str:
    """The code without texts and remarks."""
    return TEXTS_OF.get(language, OTHER_TEXTS).sub(left_of, code)


def outside_of_brackets(bare: str) -> Iterator[tuple[int, str]]:
    """Of each line how many brackets are open before it, and what of it stands outside of all."""
    depth = 0
    for line in bare.split("\n"):
        before, kept = depth, list[str]()
        for character in line:
            depth = depth + 1 if character in OPENS else max(0, depth - 1) if character in CLOSES else depth
            kept.append(character if not depth or character in OPENS + CLOSES else " ")
        yield before, "".join(kept)


def edges(code: str, language: str) -> Iterator[int]:
    """The lines, from 0, in front of which a statement has ended."""
    lines, blocks, depth, last = code.split("\n"), BLOCKS.get(language), 0, ""
    for at, (is_within, bare) in enumerate(outside_of_brackets(without_texts(code, language))):
        line = lines[at]
        is_open = is_within or depth or GOES_ON.match(line) or BEGINS_WITH_OPERATOR.match(line)
        has_ended = bool(last) and not GOES_ON_BELOW.search(last) and last.endswith(tuple(ENDS.get(language, "")) or "")
        if line.strip() and not is_open and has_ended and not DECORATOR.match(last):
            yield at
        depth += len(blocks[0].findall(bare)) - len(blocks[1].findall(bare)) if blocks else 0
        last = bare.rstrip() or last


def parts_of_lines(code: str, language: str) -> Iterator[str]:
    """The code, cut at the edges after empty lines, and what no field can hold of that at other ones."""
    lines, found = code.split("\n"), [*edges(code, language), len(code.split("\n"))]
    begin = 0
    for last in [at for at in found if at == len(lines) or not lines[at - 1].strip()]:
        is_long = size_of("\n".join(lines[begin:last]).strip("\n")) > LONGEST_INPUT
        for at in [at for at in found if begin < at <= last and (is_long or at == last)]:
            yield "\n".join(lines[begin:at])
            begin = at
