#!/usr/bin/env bash
# Prints what `tmhost export` takes of the processor and how many bytes it writes, as a page, as Markdown, as a notebook and as JSON, and each beside
# the page: of a worksheet of 10,000 answers of 40 bytes, and of one of 40 answers of 1 MB, both of lines of 60 letters. The times are the least of
# RUNS runs (5 where it isn't set) of all in turn, whose text goes to /dev/null. Beside them stands `show`, which opens the worksheet too. Notebook and
# JSON are read once, and must have all answers. The files lie in FOLDER, or in the current one.
set -euo pipefail
root=$(dirname "$(dirname "$(readlink -f "${BASH_SOURCE[0]}")")")
work=$(mktemp -d "$(readlink -f "${FOLDER:-.}")/exports.XXXXXX")
trap 'rm -rf "$work"' EXIT
[ -n "${TMHOST:-}" ] || "$root/install/proved"
python3 - "${TMHOST:-$root/crates/tmhost/out/tmhost}" "$work" "${RUNS:-5}" <<'PYTHON'
import json
import os
import random
import subprocess
import sys

program, work, runs = sys.argv[1], sys.argv[2], int(sys.argv[3])
sheet = f"{work}/sheet"
rng = random.Random(7)


def record(payload):
    return b"\x52" + len(payload).to_bytes(4, "big") + payload


def number(n):
    return n.to_bytes(4, "big")


def text(bytes):
    return len(bytes).to_bytes(2, "big") + bytes


def answer_of(size):
    letters = bytearray(rng.choices(b"abcdefghijklmnopqrstuvwxyz", k=size))
    letters[60::61] = b"\n" * len(letters[60::61])
    return bytes(letters)


# A session, and fields with these answers.
def make(answers):
    with open(sheet, "wb") as out:
        out.write(b"TMWSHEET\x01A" + record(b"\x01\x01a\x00\x01" + text(b"p")))
        for id, answer in enumerate(answers, 1):
            out.write(record(b"\x02" + number(id - 1) + b"\x01a" + text(b"print(%d)" % id)))
            out.write(record(b"\x07" + number(id) + text(b"> ") + b"\x02verbatim:" + answer + b"\x05"))
        out.write(b"\x00")
    open(sheet + ".alt", "wb").close()


# Processor seconds.
def once(words):
    files = [(os.POSIX_SPAWN_OPEN, 1, "/dev/null", os.O_WRONLY, 0)]
    _, status, usage = os.wait4(os.posix_spawn(program, [program, *words, sheet], os.environ, file_actions=files), 0)
    assert status == 0, f"{words}: status {status}"
    return usage.ru_utime + usage.ru_stime


def written(words):
    return subprocess.run([program, *words, sheet], stdout=subprocess.PIPE, check=True).stdout


# The texts of a notebook's outputs, and of the fields' answers in JSON.
readers = {
    "notebook": lambda made: ["".join(output["data"]["text/plain"]) for cell in json.loads(made)["cells"] for output in cell.get("outputs", [])],
    "json": lambda made: ["".join(line["field"]["output"]["items"]) for line in map(json.loads, made.splitlines()) if line["type"] == "field"],
}

print(f"{'':28}{'CPU s':>8}{'by html':>9}{'bytes':>12}{'by html':>9}", flush=True)
for count, size in ((10_000, 40), (40, 1_000_000)):
    answers = [answer_of(size) for _ in range(count)]
    make(answers)
    formats = [("html", ["export", "html"]), ("markdown", ["export", "markdown"]), ("notebook", ["export", "notebook"]), ("json", ["export", "json"]), ("show", ["show"])]
    lengths = {}
    for name, words in formats:
        made = written(words)
        lengths[name] = len(made)
        if name in readers:
            assert readers[name](made) == [answer.decode() for answer in answers], f"{name}: other answers"
    results = [{name: once(words) for name, words in formats} for _ in range(runs)]
    for name, _ in formats:
        least = {of: min(result[of] for result in results) for of in (name, "html")}
        print(f"{count:6} of {size:9}: {name:8}{least[name]:8.3f}{least[name] / least['html']:9.2f}{lengths[name]:12}{lengths[name] / lengths['html']:9.2f}", flush=True)
PYTHON
