"""An interpreter of Python: a line is an expression or statements, and names stay from line to line. A field of several lines is one line,
with U+2028 between them. Errors are marked."""
import contextlib
import io
import os
import signal
import sys

names = {"__name__": "__main__"}

# The lines come in and the blocks go out by descriptors that nothing else has. What a line starts has no
# input, so it can't take the lines behind it, and what it writes past print goes to the stream of errors.
lines = open(os.dup(0), encoding="utf-8", newline="\n", errors="surrogateescape")
blocks = open(os.dup(1), "wb")
os.dup2(os.open(os.devnull, os.O_RDONLY), 0)
os.dup2(2, 1)


def compiled(line):
    """The line as an expression where it is one, else as a statement. Nothing of it has run yet."""
    try:
        return compile(line, "<line>", "eval")
    except SyntaxError:
        return compile(line, "<line>", "exec")


def run(line):
    """What the line prints, with its value, and the error that it raised. An exit() is one too."""
    global is_at_a_line
    written, failed = io.StringIO(), ""
    sys.stdin = io.StringIO()
    with contextlib.redirect_stdout(written):
        try:
            is_at_a_line = True
            value = eval(compiled(line.lstrip(" \t")), names)
            if value is not None:
                print(repr(value))
        except (Exception, SystemExit, KeyboardInterrupt) as error:
            is_at_a_line = False
            failed = f"{type(error).__name__}: {error}"
        is_at_a_line = False
    return written.getvalue(), failed


def interrupted(number, frame):
    """SIGINT ends the line that runs; between lines there is nothing to end."""
    if is_at_a_line:
        raise KeyboardInterrupt


is_at_a_line = False
signal.signal(signal.SIGINT, interrupted)


def escaped(text):
    """The text as it stands in a block: an escape before each byte that has a meaning there."""
    text = "".join("\x1b" + c if c in "\x02\x05\x1b" else c for c in text)
    return text.encode("utf-8", "backslashreplace")


def write_block(text, failed, number):
    error = b"\x02output#\x02output#%b\x05\x05" % escaped(failed) if failed else b""
    blocks.write(b"\x02verbatim:%b%b\x02prompt#In [%d]: \x05\x05" % (escaped(text), error, number))
    blocks.flush()


write_block("Python " + sys.version.split()[0], "", 1)
for number, line in enumerate(lines, 2):
    write_block(*run(line.rstrip("\n").replace("\u2028", "\n")), number)
