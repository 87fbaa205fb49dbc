#!/usr/bin/env bash
# Prints how long the line `checkpoint` takes over a worksheet of so many answers of so many MB each (40 and 8 where none are given; 16 MB are the
# most), beside a plain program that writes the bytes of the new journal into a file and syncs it, twice: the medians of RUNS runs (5 where it isn't
# set) of both in turn, and their ratio. The time of the line is that of a `run` with it, less that of a `run` without a line, which opens the
# worksheet too. The files lie in FOLDER, or in the current one; they take three times as much room as the answers.
set -euo pipefail
root=$(dirname "$(dirname "$(readlink -f "${BASH_SOURCE[0]}")")")
work=$(mktemp -d "$(readlink -f "${FOLDER:-.}")/checkpoint.XXXXXX")
trap 'rm -rf "$work"' EXIT
[ -n "${TMHOST:-}" ] || "$root/install/proved"
python3 - "${TMHOST:-$root/crates/tmhost/out/tmhost}" "$work" "${RUNS:-5}" "${1:-40}" "${2:-8}" <<'PYTHON'
import os
import statistics
import subprocess
import sys
import time

program, work = sys.argv[1:3]
runs, answers, size = map(int, sys.argv[3:])
sheet, plain = f"{work}/sheet", f"{work}/plain"


def record(payload):
    return b"\x52" + len(payload).to_bytes(4, "big") + payload


def number(n):
    return n.to_bytes(4, "big")


def text(bytes):
    return len(bytes).to_bytes(2, "big") + bytes


# A session, and fields with answers of this length.
with open(sheet, "wb") as out:
    out.write(b"TMWSHEET\x01A" + record(b"\x01\x01a\x00\x01" + text(b"p")))
    for id in range(1, answers + 1):
        out.write(record(b"\x02" + number(id - 1) + b"\x01a" + text(b"x")))
        out.write(record(b"\x07" + number(id) + text(b"> ") + b"\x02verbatim:" + b"y" * (size * 1_000_000) + b"\x05"))
    out.write(b"\x00")
open(sheet + ".alt", "wb").close()


# Seconds of a `run` of this script, which tells this.
def run(script, told):
    begun = time.perf_counter()
    ran = subprocess.run([program, "run", sheet], input=script, capture_output=True, check=True)
    assert ran.stdout == told, f"run tells {ran.stdout}"
    return time.perf_counter() - begun


# Seconds of writing these bytes into a file and syncing it, twice, each time from its first byte.
def written_twice(bytes):
    with open(plain, "r+b" if os.path.exists(plain) else "wb", buffering=0) as file:
        begun = time.perf_counter()
        for _ in range(2):
            file.seek(0)
            written = 0
            while written < len(bytes):
                written += file.write(memoryview(bytes)[written:])
            os.fdatasync(file.fileno())
        return time.perf_counter() - begun


# The first checkpoint makes the second file as long as it will be.
run(b"checkpoint\n", b"ok\n")
with open(sheet + ".alt", "rb") as anew:
    bytes = anew.read()
written_twice(bytes)
ours, others, twice = [], [], []
for _ in range(runs):
    ours.append(run(b"checkpoint\n", b"ok\n"))
    others.append(run(b"", b""))
    twice.append(written_twice(bytes))
line = statistics.median(ours) - statistics.median(others)
least = statistics.median(twice)
print(f"{answers} answers of {size} MB: the line takes {line:.2f} s, writing and syncing its {len(bytes)} bytes twice {least:.2f} s, ratio {line / least:.2f}")
PYTHON
