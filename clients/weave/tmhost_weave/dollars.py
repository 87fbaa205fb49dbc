"""Formulas in prose, between dollars, as tmhost-notebook and tmhost-typeset find them (clients/notebook/page/markdown.js)."""
import re
from typing import Any, Optional, Tuple

TEX = "tex"  # a token of a parser
DISPLAY = "$$"
LONGEST = 2_000  # characters
CODE = 4  # columns in front of it
FORMULAS = (
    re.compile(r"(\$\$)((?:[^$\\]|\\.)+?)\$\$", re.DOTALL),
    re.compile(r"(\$)(?!\s)((?:[^$\\]|\\.)+?)(?<!\s)\$(?!\d)", re.DOTALL),  # no blank within beside the dollars, and no digit after
)
WHOLE = re.compile(r"\$\$((?:[^$\\]|\\.)+)\$\$", re.DOTALL)
ENDS = ["paragraph", "reference", "blockquote", "list"]  # blocks that such a formula may end


def inline(state: Any, silent: bool) -> bool:
    """A rule of the parser: a formula within a line, or over several."""
    if state.src[state.pos] != "$":
        return False
    text = state.src[state.pos : min(state.pos + LONGEST, state.posMax)]
    found = FORMULAS[0].match(text) or FORMULAS[1].match(text)
    if not found:
        return False
    if not silent:
        token = state.push(TEX, "", 0)
        token.content, token.markup = found[2], found[1]
    state.pos += len(found[0])
    return True


def displayed(state: Any, start: int, end: int) -> Optional[Tuple[str, int]]:
    """The formula that begins in a line with two dollars, and the line after it. No line of it is a list or a heading, whatever it begins with."""
    for line in range(start, end):
        if state.isEmpty(line) or state.sCount[line] < state.blkIndent:
            return None
        text = state.getLines(start, line + 1, state.blkIndent, False).strip()
        found = WHOLE.fullmatch(text) if len(text) <= LONGEST else None
        if found:
            return found[1], line + 1
        if len(text) > LONGEST or DISPLAY in text[2:]:
            return None
    return None


def block(state: Any, start: int, end: int, silent: bool) -> bool:
    """A rule of the parser: a formula that has its lines for itself."""
    begin = state.bMarks[start] + state.tShift[start]
    if state.sCount[start] - state.blkIndent >= CODE or not state.src.startswith(DISPLAY, begin):
        return False
    found = displayed(state, start, end)
    if not found:
        return False
    if not silent:
        state.line = found[1]
        token = state.push(TEX, "", 0)
        token.content, token.markup, token.block, token.map = found[0], DISPLAY, True, [start, found[1]]
    return True


def add_to(parser: Any) -> None:
    parser.inline.ruler.before("escape", TEX, inline)
    parser.block.ruler.before("fence", TEX, block, {"alt": ENDS})
