"""How the interpreters of `prompted.py` report an error, where they can't be made to write a mark before one: by its form alone."""
import re
from typing import Iterator, List

from blocks import ERROR, Part

SH = rb"(?m)(?:^bash: .*(?:\n|\Z))+"
BC = rb"(?m)(?:^(?:Runtime error \(func=|\(standard_in\) \d+: ).*(?:\n|\Z))+"
R = rb"(?ms)^Error: (?:C stack usage  \d|evaluation nested too deeply|protect\(\): protection stack overflow).*\Z"  # those that R calls no handler for
GAP = rb"(?m)^Error, .*|^Syntax error: .*\n.*\n *\^+"
MAXIMA = rb"(?ms)^(?:incorrect syntax: |Maxima encountered a Lisp error:).*\Z"
M2 = rb"(?ms)^[^\s:]+:\d+:\d+:\(\d+\):(?:\[\d+\]:)? error: .*\Z"
GIAC = rb"(?ms)(?:^:\d+: syntax error[^\n]*\n\s*)?^\"(?:(?!\n\").)*?Error: [A-Z][A-Za-z ]*\"\Z"
SINGULAR = rb"(?m)(?:^(?:   \? |   skipping text from | error at token ).*(?:\n|\Z))+"
GNUPLOT = rb"(?m)(?:^gnuplot> .*\n *\^\n)?^ +(?:\"[^\"\n]*\" )?line \d+: (?!warning).*"
YACAS = rb"(?m)^[\w./-]+\(\d+\) : .*(?:\nPlease use MaxEvalDepth .*)?"


def pieces(text: bytes, form: bytes) -> Iterator[Part]:
    """The texts beside the errors, and these."""
    end = 0
    for found in re.finditer(form, text):
        yield Part(text[end:found.start()].strip(b"\n"))
        yield Part(found[0].strip(b"\n"), ERROR)
        end = found.end()
    yield Part(text[end:].strip(b"\n"))


def reported(text: bytes, form: bytes) -> List[Part]:
    """A text, and the errors in it."""
    return list(pieces(text.strip(b"\n"), form))
