# An interpreter for a session with the flag `tab`: it answers each line with its length, and a request of completions with the
# built-in names of Python that begin with the word in front of the cursor.
import builtins
import re
import sys


def block(kind, text):
    for byte in "\x1b\x02\x05":
        text = text.replace(byte, "\x1b" + byte)
    sys.stdout.write("\x02" + kind + ":" + text + "\x05")
    sys.stdout.flush()


def quoted(text):
    return '"' + text.replace("\\", "\\\\").replace('"', '\\"') + '"'


def shown(name):
    return name + "(" if callable(getattr(builtins, name)) else name


# The input and the cursor of a request: (complete "INPUT" CURSOR), where a backslash stands before each quote and backslash of INPUT.
def request_in(line):
    form = re.fullmatch(r'\x10\(complete "(.*)" (\d+)\)', line, re.DOTALL)
    return re.sub(r'\\(["\\])', r"\1", form[1]), int(form[2])


def completions(text, cursor):
    front = text.encode()[:cursor].decode()
    root = re.search(r"\w*\Z", front)[0]
    names = [shown(name) for name in dir(builtins) if name.islower() and name.startswith(root)] if root else []
    if not names:
        return '""'
    return "(tuple " + " ".join(quoted(part) for part in [root] + [name[len(root):] for name in names]) + ")"


block("verbatim", "")
for line in sys.stdin:
    line = line.rstrip("\n")
    if line.startswith("\x10"):
        block("scheme", completions(*request_in(line)))
    else:
        block("verbatim", str(len(line)))
