"""What in a cell of a notebook is IPython's own, and no Python: magics, commands for a shell, and questions."""
import dataclasses
import re
from typing import List, Optional

from .fields import TEXTS

CELL_MAGIC = re.compile(r"%%(\w+)")
# Of these the rest of the cell is Python as it stands; of others it may be anything.
OF_PYTHON = ("capture", "memit", "prun", "time", "timeit")
LINE = re.compile(r"(?P<indent>[ \t]*)(?P<what>%[A-Za-z_]\w*|!+\s*[\w./~-]*|\?{1,2}[\w.*]+|[A-Za-z_][\w.]*(?P<mark>\?{1,2}))(?P<rest>.*)")
TOKEN = re.compile(TEXTS["python"].pattern + r"|\\\n|[()\[\]{}\n]", re.DOTALL)
OPENS, CLOSES = "([{", ")]}"
TIME = "%time"  # what stands after it is a statement, which later cells may need
QUESTION = "?"


@dataclasses.dataclass
class Plain:
    """The cell as Python, and the lines that were left out. Of a cell in another language none is, and `other` is the magic that it begins with."""

    code: str
    left_out: List[str] = dataclasses.field(default_factory=list)
    other: Optional[str] = None


def line_end(code: str, at: int) -> int:
    """Where the next line begins."""
    return code.find("\n", at) + 1 or len(code)


def statement_end(code: str, at: int) -> int:
    """Where the line ends that begins here, with those that brackets, texts and backslashes join to it."""
    depth = 0
    for found in TOKEN.finditer(code, at):
        if found[0] == "\n" and not depth:
            return found.end()
        depth = depth + 1 if found[0] in OPENS else max(0, depth - 1) if found[0] in CLOSES else depth
    return len(code)


def plain_python(code: str) -> Plain:
    first = len(code) - len(code.lstrip("\n"))
    found = CELL_MAGIC.match(code, first)
    if found and found[1] not in OF_PYTHON:
        return Plain(code, other=found[0])
    at = line_end(code, first) if found else 0
    made = Plain(code, [code[first:at].rstrip("\n")] if found else [])
    kept: List[str] = []
    while at < len(code):
        end = line_end(code, at)
        own = LINE.match(code, at, end)
        if not own or (own["mark"] and own["rest"].strip(" \t;\n")):
            end = statement_end(code, at)
            kept.append(code[at:end])
        else:
            made.left_out.append(own[0].strip())
            kept.append(left_of(own))
        at = end
    if made.left_out:
        made.code = "".join(kept).strip("\n")
    return made


def left_of(own: "re.Match[str]") -> str:
    """What stays of a line that is IPython's: the statement that it times, and in a block something."""
    if own["what"] == TIME and own["rest"].strip():
        return own["indent"] + own["rest"].strip() + "\n"
    return own["indent"] + "pass\n" if own["indent"] else ""


def beginning(line: str) -> str:
    """What a line begins with that was left out: a magic, a command for a shell, or a question mark, wherever that stands."""
    found = CELL_MAGIC.match(line)
    own = found or LINE.match(line)
    what = own[0] if found and own else own["what"] if own else line
    return QUESTION if QUESTION in what else what
