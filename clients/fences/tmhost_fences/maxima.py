"""What in lines of Maxima has no brackets that count: texts, and remarks, which may have several lines, and remarks in them."""
import re
from typing import Dict, List, Sequence

CODE = re.compile(r'/\*|"(?:\\.|[^"\\])*(?:"|\\?\Z)|\\.|[^"/\\]+|.', re.DOTALL)
REMARK = re.compile(r"/\*|\*/|[^*/]+|.", re.DOTALL)
BEGIN, END = "/*", "*/"
OPEN_END = re.compile(r"[-+*/^=:,<>][() \t]*\Z")  # no statement ends so
BRACKETS = str.maketrans("({)}", "[[]]")


def end_of_remark(text: str, begin: int) -> int:
    """Where a remark ends; one that isn't closed goes on to the end."""
    depth = 0
    for found in REMARK.finditer(text, begin):
        depth += (found[0] == BEGIN) - (found[0] == END)
        if not depth:
            return found.end()
    return len(text)


def bared(lines: Sequence[str]) -> List[str]:
    """The lines without texts and remarks. One of several lines leaves brackets, which hold these together: round ones, which nothing else has, a remark."""
    text = "\n".join(lines)
    parts: List[str] = []
    at = 0
    while at < len(text):
        found = CODE.match(text, at)
        assert found
        token, begin = found[0], at
        at = end_of_remark(text, begin) if token == BEGIN else found.end()
        line_ends = "\n" * text.count("\n", begin, at)
        if token == BEGIN:
            parts.append(f"({line_ends})" if line_ends else "")
        elif token[0] in '"\\':
            parts.append(f"[{line_ends}]" if line_ends else '""')
        else:
            parts.append(token.translate(BRACKETS))
    return "".join(parts).split("\n")


def is_code(bare: str) -> bool:
    """Whether a line has more than remarks, of which Maxima makes no statement."""
    return bool(bare.strip("() \t"))


def continued(bare: Sequence[str]) -> Dict[int, int]:
    """The line in which a line of remarks goes on, or one that ends in an operator: the next one with code, where there is one."""
    found: Dict[int, int] = {}
    following = -1
    for at in reversed(range(len(bare))):
        if following >= 0 and (OPEN_END.search(bare[at]) or not is_code(bare[at])):
            found[at] = following
        following = at if is_code(bare[at]) else following
    return found
