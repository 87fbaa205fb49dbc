"""An interpreter for tests: a line says what it is answered. It counts what it was sent, and takes SIGINT as the end of a pause."""

import os
import re
import signal
import sys
import time

VERBATIM = b"\x02verbatim:%b\x05"


def write(data: bytes) -> None:
    while data:
        data = data[os.write(1, data) :]


def escaped(text: bytes) -> bytes:
    return re.sub(rb"[\x02\x05\x1b]", lambda found: b"\x1b" + found[0], text)


def big(size: int, seed: bytes) -> bytes:
    """So many bytes, whatever the seed is: a part of them is seen to be one."""
    return (seed + b" ") * (size // (len(seed) + 1)) + b"." * (size % (len(seed) + 1))


def pause(seconds: float) -> bytes:
    """Sleeps so long, or until it is interrupted. A signal that has come before is dropped."""
    signal.sigtimedwait({signal.SIGINT}, 0)
    return VERBATIM % (b"interrupted" if signal.sigtimedwait({signal.SIGINT}, seconds) else b"slept")


def die_within_a_block() -> None:
    write(b"\x02verbatim:half an answ")
    os._exit(1)


def completions(line: bytes) -> bytes:
    form = re.fullmatch(rb'\x10\(complete "(.*)" (\d+)\)', line, re.DOTALL)
    assert form
    text = re.sub(rb'\\(["\\])', rb"\1", form[1])[: int(form[2])]
    if text == b"odd":
        return VERBATIM % b"what?"
    if text == b"die":
        os._exit(1)
    if text == b"slow":
        time.sleep(1)
    return b'\x02scheme:(tuple "%b" "a" "\xc3\xa9" "\xe9")\x05' % text


def answer(line: bytes, count: int) -> bytes:
    word, _, rest = line.partition(b" ")
    if word == b"big":
        size, seed = rest.split(b" ")
        return VERBATIM % big(int(size), seed)
    if word == b"sleep":
        return pause(float(rest))
    if word == b"die":
        os._exit(1)
    if word == b"half":
        die_within_a_block()
    forms = {
        b"latin": VERBATIM % b"caf\xe9",
        b"nothing": VERBATIM % b"",
        b"count": VERBATIM % b"%d" % count,
        b"control": VERBATIM % escaped(b"\x01\x02\x05\x1b\x7f\n\t"),
        b"formula": b"\x02verbatim:so \x02latex:$%b$\x05\x02warning#odd\x05\x05" % rest,
        b"prompted": b"\x02verbatim:%b\x02prompt#In %d] \x05\x05" % (rest, count),
        b"cut": b"\x02verbatim:\x02prompt#%b\x05\x05" % ("é" * 600).encode()[1:],
        b"error": b"\x02verbatim:so\n\x02output#\x02output#%b\x05\x05\x05" % escaped(rest),
        b"reported": b"\x02verbatim:\x02error#%b\x05\x02output#and more\x05\x05" % escaped(rest),
        b"offer": b"\x02verbatim:%b\x02input#next\x05\x05" % rest,
        b"tag": b"\x02bad\x02tag:\x05",
        b"both": VERBATIM % b"whole" + b"\x02bad\x02tag:\x05",
    }
    return forms.get(word, VERBATIM % escaped(line))


signal.pthread_sigmask(signal.SIG_BLOCK, {signal.SIGINT})
write(VERBATIM % b"ready")
for count, line in enumerate(iter(sys.stdin.buffer.readline, b""), 1):
    line = line[:-1]
    write(completions(line) if line.startswith(b"\x10") else answer(line, count))
