#!/usr/bin/env bash
# Prints what an answer of so many MB (8 where none is given; 16 are the most) takes in memory for each of its bytes: in a worksheet that
# was opened (`tmhost show`), and at the most while an interpreter's life reads it, closes it and keeps it (`tmhost run`). Of each shape:
# flat text, blocks of four bytes side by side, and 31 blocks in one another. The files lie in FOLDER, or in the current one.
set -euo pipefail
root=$(dirname "$(dirname "$(readlink -f "${BASH_SOURCE[0]}")")")
work=$(mktemp -d "$(readlink -f "${FOLDER:-.}")/memory.XXXXXX")
trap 'rm -rf "$work"' EXIT
program=${TMHOST:-}
if [ -z "$program" ]; then
    "$root/install/proved"
    program=$root/crates/tmhost/out/tmhost
fi
cat >"$work/interpreter.py" <<'PYTHON'
"""Answers the line `SHAPE BYTES` with a block of that shape, and the line `tell` with its host's memory before and behind that answer: resident then,
and the most that there was since, in KiB."""
import os
import re
import sys

shapes = {"flat text": b"abcdefgh", "tiny blocks": b"\x02a:\x05", "31 levels": b"\x02a:" * 31 + b"\x05" * 31}
out = sys.stdout.buffer


def resident(word):
    with open(f"/proc/{os.getppid()}/status") as status:
        return int(re.search(word + r":\s+(\d+) kB", status.read()).group(1))


def answer(body):
    out.write(b"\x02verbatim:" + body + b"\x05")
    out.flush()


answer(b"")
for line in sys.stdin:
    if line == "tell\n":
        answer(b"%d %d" % (before, resident("VmHWM")))
        continue
    shape, length = line.rsplit(" ", 1)
    before = resident("VmRSS")
    answer(shapes[shape] * (int(length) // len(shapes[shape])))
PYTHON
python3 - "$program" "$work" "${1:-8}" <<'PYTHON'
import fcntl
import os
import re
import subprocess
import sys

program, work, size = sys.argv[1], sys.argv[2], int(sys.argv[3]) * 1_000_000


def tmhost(*words, script=b""):
    return subprocess.run([program, *words], input=script, stdout=subprocess.PIPE, check=True).stdout


# What is resident of a `show` whose pipe is full or at its end, in KiB. It writes after the opening.
def shown(sheet):
    reads, writes = os.pipe()
    fcntl.fcntl(writes, fcntl.F_SETPIPE_SZ, 4096)
    child = subprocess.Popen([program, "show", sheet], stdout=writes)
    os.close(writes)
    with open(reads, "rb", buffering=0) as pipe:
        pipe.read(1)
        with open(f"/proc/{child.pid}/status") as status:
            kib = int(re.search(r"VmRSS:\s+(\d+) kB", status.read()).group(1))
        while pipe.read(1 << 20):
            pass
    assert child.wait() == 0
    return kib


words = f"python3 {work}/interpreter.py"
small = f"{work}/small"
tmhost("create", small)
# Three fields are more than the pipe of `show` holds.
tmhost("run", small, script=f"session a plain {words}\n".encode() + (b"new 0 a " + b"x" * 4000 + b"\n") * 3)
base = shown(small)
for number, shape in enumerate(["flat text", "tiny blocks", "31 levels"]):
    sheet = f"{work}/sheet{number}"
    tmhost("create", sheet)
    script = f"session a plain {words}\nnew 0 a {shape} {size}\nnew 1 a tell\neval 1\neval 2\nwait\nprint\n"
    printed = tmhost("run", sheet, script=script.encode())
    before, most = map(int, printed.splitlines()[-1].split())
    print(f"{shape}: {size // 1_000_000} MB received; {(shown(sheet) - base) * 1024 / size:.1f} bytes a byte in a worksheet, {(most - before) * 1024 / size:.1f} at the most")
PYTHON
