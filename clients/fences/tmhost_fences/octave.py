"""Which lines of Octave hold together: blocks from the word that opens one to the word that ends it, remarks over several lines, and brackets."""
import re
from typing import List, Sequence

OPENS = "if for parfor while do switch try function unwind_protect spmd classdef".split()
ENDS = (
    "end endif endfor endparfor endwhile endswitch end_try_catch endfunction end_unwind_protect endspmd endclassdef until"
).split()
WITHIN = "else elseif case otherwise catch unwind_protect_cleanup".split()  # a further branch of a block
OTHERS = "break continue return global persistent".split()
WORDS = rf"(?:{'|'.join([*OPENS, *ENDS, *WITHIN, *OTHERS])})\b"
# What begins a statement with a word and then a further one, as `hold on` and `help if`: a command, whose words are texts.
COMMAND = rf"(?<![^\n;,])[ \t]*(?!{WORDS})[A-Za-z_]\w*[ \t]+(?=[A-Za-z_])"
# A quote directly after a value transposes it, and begins no text.
TEXT = r"""\"(?:\\.|[^\"\\\n])*\"|(?<![\w)\]}'\".])'(?:''|[^'\n])*'"""
TOKEN = re.compile(
    rf"(?P<command>{COMMAND})|(?P<more>\.\.\.[^\n]*)|(?P<remark>[#%][^\n]*)|(?P<text>{TEXT})"
    r"|(?P<word>(?<![\w.])[A-Za-z_]\w*)|(?P<open>[(\[{])|(?P<close>[)\]}])|(?P<part>[\n;,])"
)
BEGIN, END = re.compile(r"[ \t]*[#%]\{[ \t]*"), re.compile(r"[ \t]*[#%]\}[ \t]*")  # lines between which all is a remark


class Reader:
    """Takes tokens of code from its beginning on, and gives what stands for each."""

    def __init__(self) -> None:
        self.depth = 0  # of brackets, in which words as `end` are places of a value
        self.is_command = False

    def __call__(self, found: "re.Match[str]") -> str:
        kind, token = found.lastgroup, found[0]
        if kind == "remark":
            return ""
        if kind == "text":
            return '""'
        if kind == "more":
            return "\\"  # so the line goes on in the next one
        if kind == "command":
            self.is_command |= not self.depth
        elif kind == "part":
            self.is_command &= self.depth > 0
        elif self.is_command:
            return "x"
        elif kind in ("open", "close"):
            self.depth = max(0, self.depth + (1 if kind == "open" else -1))
        elif not self.depth:
            return "(" if token in OPENS else ")" if token in ENDS else token
        return token


def without_remarks(lines: Sequence[str]) -> List[str]:
    """The lines with brackets in place of remarks that have lines of their own for their marks. One that isn't closed goes on to the end."""
    found: List[str] = []
    depth = 0
    for at, line in enumerate(lines):
        begins, ends = bool(BEGIN.fullmatch(line)), depth > 0 and bool(END.fullmatch(line))
        is_within = depth > 0 or begins
        was, depth = depth, depth + begins - ends
        is_last = depth > 0 and at == len(lines) - 1
        found.append("(" * (begins and not was) + ")" * (ends and not depth or is_last) if is_within else line)
    return found


def bared(lines: Sequence[str]) -> List[str]:
    """The lines without texts and remarks, and with brackets in place of the words that open and end a block."""
    return TOKEN.sub(Reader(), "\n".join(without_remarks(lines))).split("\n")
