"""What an interpreter is sent for a line: the line as one statement of its own language, with what is open in it closed."""
import re
from typing import Callable


def quoted(line: bytes) -> bytes:
    """The line between double quotes, for those that read backslashes in them."""
    return b'"' + line.replace(b"\\", b"\\\\").replace(b'"', b'\\"').replace(b"\n", b"\\n") + b'"'


def as_it_is(line: bytes) -> bytes:
    return line


def closed_by(*ends: bytes) -> Callable[[bytes], bytes]:
    """A line that ends as a statement does: it gets the first of these ends where it has none of them."""
    return lambda line: line if line.rstrip().endswith(ends) or not line.strip() else line + ends[0]


CLOSES = {b"(": b")", b"[": b"]", b"{": b"}"}


def closing(text: bytes, strings: bytes, comments: bytes) -> bytes:
    """What closes the string, the comment and the brackets that a text leaves open, by patterns of strings and of comments up to the end of
    their line, after which it stands."""
    token = rb"(?s:%b)|/\*(?s:.*?)\*/|(?:%b)[^\n]*|/\*|[][(){}\"]" % (strings, comments)
    ends = [b""]
    for found in re.findall(token, text):
        if found in (b'"', b"/*"):
            return (b'"' if found == b'"' else b"*/") + b"".join(reversed(ends))
        if found in CLOSES:
            ends.append(CLOSES[found])
        elif found == ends[-1]:
            ends.pop()
    return (b"\n" if any(ends) else b"") + b"".join(reversed(ends))


def in_python(line: bytes) -> bytes:
    return line and b"tmhost_line(%r)" % line


def in_sh(line: bytes) -> bytes:
    return b"eval '" + line.replace(b"'", b"'\\''") + b"' </dev/null"


def in_bc(line: bytes) -> bytes:
    """An empty text stands after it, for what a condition without its statement takes."""
    return line and line + (b"\n" if line.endswith(b"\\") else b"") + closing(line, rb'"[^"]*"', b"#") + b'\n""'


def in_octave(line: bytes) -> bytes:
    return b"unwind_protect, tmhost_input ('of a line'); eval (" + quoted(line) + b"); tmhost_input ('done'); unwind_protect_cleanup, tmhost_input (''); end_unwind_protect"


def in_r(line: bytes) -> bytes:
    return b'getOption("tmhost.line")(' + quoted(line) + b")"


def in_maxima(line: bytes) -> bytes:
    lines = closed_by(b";", b"$")(line).split(b"\n")
    return line and b":lisp (|TMHOST-LINE| " + b" ".join(quoted(one) for one in lines) + b")"


def in_m2(line: bytes) -> bytes:
    return line and b"tmhostLine " + quoted(line) + (b";" if line.rstrip().endswith(b";") else b"")


def in_giac(line: bytes) -> bytes:
    return b"tmhost_line(" + quoted(line) + b")" if line.strip() else b'"tmhost-done"'


def in_yacas(text: bytes) -> bytes:
    """Each statement on a line, as yacas reads them: lines between brackets are joined."""
    statements, depth = [b""], 0
    for line in re.sub(rb'("(?:\\.|[^"\\])*")|//.*', rb"\1", text).split(b"\n"):
        statements[-1] += line + b" "
        depth += len(re.findall(rb"[\[({]", line)) - len(re.findall(rb"[\])}]", line))
        if depth <= 0:
            statements.append(b"")
    return b"\n".join(closed_by(b";")(one.strip()) for one in statements if one.strip())


def in_gap(line: bytes) -> bytes:
    if re.fullmatch(rb"(?i:quit)\s*;*", line.strip()):
        return b"QUIT_GAP();"
    return b"tmhostLine(" + quoted(line + b"\n;") + b");;"


def in_gnuplot(line: bytes) -> bytes:
    return b"eval " + quoted(line.replace(b"\n", b"; ") + closing(line, rb""" "(?:\\.|[^"\\])*"|'[^']*' """.strip(), b"#").strip(b'\n"'))


def in_singular(line: bytes) -> bytes:
    return line and line + closing(line, rb'"(?:\\.|[^"\\])*"', b"//") + b"\n;"
