"""Which lines of R go on in a later one: those after which R's own parser asks for more. The lines are without texts and remarks."""
import re
from typing import Dict, List, Set

# An operator, or a word with which something begins. Brackets are seen to elsewhere.
OPEN_END = re.compile(r"(?:[-+*/^<>=&|~,:!?@$]|%[^%]*%|(?<![\w.])(?:else|repeat|function|if|for|while))\Z")
BRACKET = re.compile(r"(?:(?<![\w.])(?:function|if|for|while)|\\)\s*\(|[][(){}]")
OPENS = "([{"


def heads(code: str) -> Set[int]:
    """Where the brackets close that stand after `function`, `if`, `for` and `while`: a body follows them."""
    found: Set[int] = set()
    waiting: List[bool] = []  # of each bracket that is open, whether it is such a one
    for bracket in BRACKET.finditer(code):
        if bracket[0][-1] in OPENS:
            waiting.append(len(bracket[0]) > 1)
        elif waiting and waiting.pop():
            found.add(bracket.start())
    return found


def continued(lines: List[str]) -> Dict[int, int]:
    """The line in which a line goes on, by that one, where there is such a line. Empty lines and remarks may stand between them."""
    ends = heads("\n".join(lines))
    found: Dict[int, int] = {}
    begin, open_line = 0, -1
    for at, line in enumerate(lines):
        bare = line.rstrip()
        if bare and open_line >= 0:
            found[open_line] = at
        if bare:
            open_line = at if OPEN_END.search(bare) or begin + len(bare) - 1 in ends else -1
        begin += len(line) + 1
    return found
