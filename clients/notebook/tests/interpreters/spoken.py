"""An interpreter for tests. Each line is a word and what it is about:

    say TEXT        answers TEXT, on as many lines as it has
    long TEXT       answers TEXT on 300 lines
    block TAG B64   answers these bytes in a block with this tag
    file TAG PATH   answers what a file has, in a block with this tag
    raw B64         writes these bytes as they are
    bytes N         answers N letters
    until PATH TEXT begins an answer with TEXT, and ends it when there is such a file
    sleep SECONDS   answers after that time; SIGINT ends it, and it answers "interrupted"
    slowly SECONDS  the same, but SIGINT ends the interpreter
    set TEXT        keeps TEXT, which `get` answers
    exit            ends

A request of completions at `ca` is answered by `cat`, `cave` and `call`; one at `be` by `beta` alone, and one at `said_FILE` by what the file FILE in
the folder SAID has.
"""

import base64
import os
import re
import signal
import sys
import time

count = 0


def write(tag: bytes, text: bytes) -> None:
    escaped = re.sub(rb"([\x02\x05\x1b])", b"\x1b\\1", text)
    send(b"\x02" + tag + b":" + escaped + b"\x02prompt#%d> \x05\x05" % (count + 1))


def send(data: bytes) -> None:
    while data:
        data = data[os.write(1, data) :]


def say(text: str) -> None:
    write(b"verbatim", text.encode())


def begin(path: str, text: str) -> None:
    """The answer is whole when a file is there."""
    send(b"\x02verbatim:" + text.encode())
    while not os.path.exists(path):
        time.sleep(0.02)
    send(b" and its end\x02prompt#%d> \x05\x05" % (count + 1))


def rest(seconds: float) -> None:
    try:
        time.sleep(seconds)
        say("rested")
    except KeyboardInterrupt:
        say("interrupted")


def complete(line: str) -> None:
    found = re.search(r'"((?:[^"\\]|\\.)*)" (\d+)', line)
    word = found[1].encode()[: int(found[2])].decode().split()[-1] if found else ""
    if word.startswith("said_"):
        with open(os.path.join(os.environ["SAID"], word[len("said_") :]), "rb") as file:
            send(file.read())
        return
    words = [one for one in ("cat", "cave", "call", "beta") if word and one.startswith(word)]
    reported = " ".join(f'"{one[len(word):]}"' for one in words)
    send(b"\x02scheme:" + f'(tuple "{word if words else ""}" {reported})'.encode() + b"\x05")


def answer(word: str, text: str) -> None:
    """Answers a line that has nothing to do with other lines."""
    if word == "long":
        say("\n".join([text] * 300))
    elif word == "block":
        tag, _, data = text.partition(" ")
        write(tag.encode(), base64.b64decode(data))
    elif word == "file":
        tag, _, path = text.partition(" ")
        with open(path, "rb") as file:
            write(tag.encode(), file.read())
    elif word == "raw":
        send(base64.b64decode(text))
    elif word == "bytes":
        say("x" * int(text))
    elif word == "until":
        begin(*text.split(" ", 1))
    elif word in ("sleep", "slowly"):
        if word == "slowly":
            signal.signal(signal.SIGINT, signal.SIG_DFL)
        rest(float(text))
    else:
        say(text.replace("\u2028", "\n"))


def main() -> None:
    global count
    kept = "nothing"
    signal.signal(signal.SIGINT, signal.default_int_handler)
    say("ready")
    while True:
        try:
            taken = sys.stdin.buffer.readline().decode()
        except KeyboardInterrupt:
            continue
        line = taken.rstrip("\n")
        if not taken or line == "exit":
            return
        if line.startswith("\x10"):
            complete(line)
            continue
        count += 1
        word, _, text = line.partition(" ")
        if word == "set":
            kept = text
        if word in ("set", "get"):
            say("kept" if word == "set" else kept)
        else:
            answer(word, text)


main()
