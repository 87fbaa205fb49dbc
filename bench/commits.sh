#!/usr/bin/env bash
# Prints how many commands a second `tmhost run` makes durable, on a script of 2,000 `set` lines with a `wait` after each, so that each is
# taken by itself, and the same of a plain C program that does the same four calls for records of the same length in a file beside it
# (bench/plain_commits.c), and their ratio: the medians of RUNS runs (9 where it isn't set) of both programs in turn. A second line has one
# run of each on 10,000 `new` lines, which are taken together, of `run --strict`, and of `run --json`. A third one counts the syncs of 100,000
# commands, where `strace` is there. The files lie in FOLDER, or where none is given in the current one.
set -euo pipefail
folder=$(readlink -f "${1:-.}")
root=$(dirname "$(dirname "$(readlink -f "${BASH_SOURCE[0]}")")")
work=$(mktemp -d "$folder/commits.XXXXXX")
trap 'rm -rf "$work"' EXIT
"${CC:-cc}" -O2 -o "$work/plain" "$root/bench/plain_commits.c"
"$root/install/proved"
python3 - "$root/crates/tmhost/out/tmhost" "$work" "${RUNS:-9}" <<'PYTHON'
import os, re, shutil, statistics, subprocess, sys, time

program, work, runs = sys.argv[1], sys.argv[2], int(sys.argv[3])
records, fields, text = 2000, 10000, "x" * 20
sheet, other, script = work + "/sheet", work + "/plain.journal", work + "/script"
# The length of the payload, the payload (its kind, the field, the length of the input, the input), and the next gate.
length = 4 + 1 + 4 + 2 + len(text) + 1
# The same of a new field: its kind, the field before it, the length of its session's name, that, the length of the input, it.
field_length = 4 + 1 + 4 + 1 + 1 + 2 + len(text) + 1

# What it writes goes to memory, so that no other process runs beside it.
def timed(words, given=None, expected=b""):
    told = os.memfd_create("told")
    begun = time.perf_counter()
    subprocess.run(words, stdin=given, stdout=told, check=True)
    took = time.perf_counter() - begun
    with open(told, "rb") as text:
        text.seek(0)
        assert text.read() == expected
    return took

def ours(begin, lines, expected, added, *words):
    with open(script, "w") as out:
        out.write(lines)
    for path in (sheet, sheet + ".alt"):
        if os.path.exists(path):
            os.remove(path)
    subprocess.run([program, "create", sheet], check=True)
    subprocess.run([program, "run", sheet], input=begin, stdout=subprocess.DEVNULL, check=True)
    before = os.path.getsize(sheet)
    with open(script, "rb") as given:
        took = timed([program, "run", *words, sheet], given, expected)
    assert os.path.getsize(sheet) - before == added, "the records have another length"
    return took

def plain(count, each):
    if os.path.exists(other):
        os.remove(other)
    took = timed([work + "/plain", other, str(count), str(each)])
    assert os.path.getsize(other) == 11 + count * each
    return took

def singly():
    return ours(b"session a plain p\nnew 0 a x\n", f"set 1 {text}\nwait\n" * records, b"ok\n" * records, records * length)

def together(*words):
    told = b"".join(b"field %d\n" % number for number in range(1, fields + 1))
    return ours(b"session a plain p\n", f"new 0 a {text}\n" * fields, told, fields * field_length, *words)

results = [(singly(), plain(records, length)) for _ in range(runs)]
rates = [records / statistics.median(result[i] for result in results) for i in (0, 1)]
ratio = statistics.median(theirs / our for our, theirs in results)
print(f"durable commands a second: tmhost {rates[0]:.0f}, plain {rates[1]:.0f}, ratio of the pairs {ratio:.2f}")
def in_json():
    told = b"".join(b'{"id":%d,"line":%d,"type":"made"}\n' % (number, number) for number in range(1, fields + 1))
    hello = subprocess.run([program, "show", "--json", sheet], stdout=subprocess.PIPE, check=True).stdout.splitlines(True)[0]
    return ours(b"session a plain p\n", f"new 0 a {text}\n" * fields, hello + told + b'{"type":"end"}\n', fields * field_length, "--json")

our, strict, theirs, objects = together(), together("--strict"), plain(fields, field_length), in_json()
print(f"new fields a second: tmhost {fields / our:.0f}, plain {fields / theirs:.0f}, {theirs / our:.0f} times as many; strict {fields / strict:.0f}, {theirs / strict:.0f} times as many; in JSON {fields / objects:.0f}, {our / objects:.2f} of the rate in words")

# How often a script of so many commands asks for a sync, its opening included.
def syncs(commands):
    lines = "".join(f"set 1 {number}\n" for number in range(commands))
    counts = work + "/counts"
    subprocess.run(["strace", "-f", "-c", "-e", "trace=fdatasync,fsync", "-o", counts, program, "run", sheet], input=lines.encode(), stdout=subprocess.DEVNULL, check=True)
    with open(counts) as text:
        return sum(int(row.split()[3]) for row in text if re.search(r" (fdatasync|fsync)$", row))

if shutil.which("strace"):
    commands = 100_000
    print(f"{commands:,} commands of one script: {syncs(commands)} syncs")
PYTHON
