"""Runs a program whose standard error is a terminal: `screen.py HOW OUTPUT WORD ..`. Its standard output is the file OUTPUT, or that
terminal too where OUTPUT is `-`. What the terminal was sent is written where HOW is `sent`, and where it is `left`, the lines that stand
on its screen at the end. Where HOW is `typed` its standard input is that terminal too, at which the end of the input was typed. The status
is the program's."""

import os
import sys


END_OF_INPUT = b"\x04"


def read_to_end(ours):
    """What a terminal is sent until nobody writes to it any more."""
    sent = b""
    while True:
        try:
            piece = os.read(ours, 65536)
        except OSError:  # the system's word for that
            return sent
        if not piece:
            return sent
        sent += piece


def sent_to_terminal(output, words, is_typed):
    """What a terminal was sent by a program, and the program's status."""
    ours, terminal = os.openpty()
    if is_typed:
        os.write(ours, END_OF_INPUT)
    with open(os.devnull, "rb") as nothing, open(os.devnull if output == "-" else output, "wb") as file:
        streams = [terminal if is_typed else nothing.fileno(), terminal if output == "-" else file.fileno(), terminal]
        child = os.posix_spawnp(words[0], words, os.environ, file_actions=[(os.POSIX_SPAWN_DUP2, stream, at) for at, stream in enumerate(streams)])
    os.close(terminal)
    sent = read_to_end(ours)
    # The first end may have come to a read that had looked for the last piece before that was there. From then on nobody writes, so that the
    # second one is the end.
    sent += read_to_end(ours)
    return sent, os.waitstatus_to_exitcode(os.waitpid(child, 0)[1])


def left_on_screen(sent):
    """The lines of a screen that was sent this: text, carriage returns, new lines, and what clears the rest of a line."""
    import re

    lines, column = [""], 0
    for part in re.findall(r"\r|\n|\x1b\[K|.", sent):
        if part == "\r":
            column = 0
        elif part == "\n":
            lines.append("")
        elif part == "\x1b[K":
            lines[-1] = lines[-1][:column]
        else:
            lines[-1] = lines[-1][:column] + part + lines[-1][column + 1 :]
            column += 1
    return "\n".join(lines)


how, output, *words = sys.argv[1:]
sent, status = sent_to_terminal(output, words, how == "typed")
sys.stdout.buffer.write(left_on_screen(sent.decode()).encode() if how == "left" else sent)
sys.stdout.flush()
sys.exit(status)
