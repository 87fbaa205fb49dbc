"""Code within a paragraph, as `r 1+1` of knitr and `{python} 2` of Quarto, which no weave evaluates."""
import re
from typing import Any, Collection, Iterator, List, NamedTuple, Optional, Sequence

from tmhost_fences.troubles import needed

from .document import Document

BARE = ("r",)  # what knitr evaluates without braces; of another word, as `python a.py`, it may be a command that is spoken of
IN_BRACES = ("r", "python", "julia", "ojs")  # what Quarto does
OPENING = re.compile(r"(\{?)([A-Za-z0-9_]+)(\}?)(?=[ \t\r\n])")
MARK = re.compile("`[ \t]*" + OPENING.pattern)
SURROGATE = re.compile("[\ud800-\udfff]")
LONGEST = 40  # characters of the code, in a message


class Code(NamedTuple):
    line: int  # of the text, from 1
    text: str


def is_code(found: "Optional[re.Match[str]]", sessions: Collection[str]) -> bool:
    """Whether the beginning of a text in backquotes says that it is code: of a session, where it stands in braces, or of what is evaluated elsewhere."""
    if not found or bool(found[1]) != bool(found[3]):
        return False
    return found[2] in sessions or found[2] in IN_BRACES if found[1] else found[2] in BARE


def spans_in(inline: Any, lines: Sequence[str]) -> Iterator[Code]:
    """The texts in backquotes of a paragraph, each with its line. These lines are those that were parsed."""
    at, end = inline.map
    for token in inline.children:
        if token.type == "code_inline":
            opening = re.compile("`[ \t]*" + re.escape(token.content.split(None, 1)[0] if token.content.strip() else ""))
            at = next((line for line in range(at, end) if opening.search(lines[line])), at)
            yield Code(at, token.content)
        at = min(at + (token.type in ("softbreak", "hardbreak")), end - 1)


def codes_in(document: Document) -> List[Code]:
    """Those of a text, but in what stands as an answer."""
    lines = document.body
    if not any(is_code(found, document.sessions) for line in lines for found in MARK.finditer(line + "\n")):
        return []
    answers = {line for fence in document.fences for line in range(fence.end, fence.until)}
    parser = needed("markdown_it", "python3-markdown-it").MarkdownIt("commonmark")
    # Bytes that are no UTF-8 stand in a text as surrogates, which the address of a link can't have.
    tokens = parser.parse(SURROGATE.sub("?", "".join(line + "\n" for line in lines)))
    spans = [span for token in tokens if token.type == "inline" for span in spans_in(token, lines)]
    codes = [Code(span.line + document.first, span.text) for span in spans if is_code(OPENING.match(span.text), document.sessions)]
    return [Code(code.line + 1, code.text) for code in codes if code.line not in answers]


def why_unevaluated(codes: Sequence[Code]) -> str:
    """What is said of them: where the first one is, and how many there are."""
    text = ascii(codes[0].text[:LONGEST])[1:-1] + ".." * (len(codes[0].text) > LONGEST)
    return f"line {codes[0].line}: code within a paragraph isn't evaluated: {text}" + (f" (and {len(codes) - 1} more)" if len(codes) > 1 else "")
