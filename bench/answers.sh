#!/usr/bin/env bash
# Prints how many evaluations a second `tmhost run` does whose answers have so many bytes (100, 10,000, 1,000,000 and 10,000,000 where
# none are given), each durable before the next is asked, and the same of a plain C program that asks the same child the same lines
# over pipes and writes the same two records with the same four syncs for each (bench/plain_answers.c, bench/answering.c), and their
# ratio: the medians of RUNS runs (5 where it isn't set) of both in turn, by the clock and by the processor time of program and child.
# After that it prints the rate of the second thousand answers of 100 bytes beside that of the first. The files lie in FOLDER, or in
# the current one.
set -euo pipefail
root=$(dirname "$(dirname "$(readlink -f "${BASH_SOURCE[0]}")")")
work=$(mktemp -d "$(readlink -f "${FOLDER:-.}")/answers.XXXXXX")
trap 'rm -rf "$work"' EXIT
"${CC:-cc}" -O2 -o "$work/plain" "$root/bench/plain_answers.c"
"${CC:-cc}" -O2 -o "$work/answering" "$root/bench/answering.c"
[ -n "${TMHOST:-}" ] || "$root/install/proved"
[ $# -gt 0 ] || set -- 100 10000 1000000 10000000
python3 - "${TMHOST:-$root/crates/tmhost/out/tmhost}" "$work" "${RUNS:-5}" "$@" <<'PYTHON'
import os, statistics, subprocess, sys, time

program, work, runs = sys.argv[1], sys.argv[2], int(sys.argv[3])
child, sheet, other = work + "/answering", work + "/sheet", work + "/plain.journal"

# How many answers are timed: some 200 MB, and no more than a thousand.
def answers_of(length):
    return max(10, min(1000, 200_000_000 // length))

# Seconds by the clock, and of the processor: that of the program and of the child for which it waits at its end.
def timed(words, given, told):
    begun = time.perf_counter()
    process = subprocess.Popen(words, stdin=given, stdout=told)
    _, status, used = os.wait4(process.pid, 0)
    process.returncode = os.waitstatus_to_exitcode(status)
    assert process.returncode == 0, f"{words[0]}: status {process.returncode}"
    return time.perf_counter() - begun, used.ru_utime + used.ru_stime

def remove(*paths):
    for path in paths:
        if os.path.exists(path):
            os.remove(path)

def run(script, expected):
    with open(work + "/script", "w") as file:
        file.write(script)
    told = os.memfd_create("told")
    with open(work + "/script", "rb") as given:
        took = timed([program, "run", sheet], given, told)
    with open(told, "rb") as text:
        text.seek(0)
        assert text.read() == expected, "run tells another text"
    return took

# The times of so many answers of this length, of which the first comes after the banner, as it does in the plain program.
def ours(length, answers):
    remove(sheet, sheet + ".alt")
    subprocess.run([program, "create", sheet], check=True)
    subprocess.run([program, "run", sheet], input=f"session a plain {child} {length}\nnew 0 a x\n".encode(), stdout=subprocess.DEVNULL, check=True)
    before = os.path.getsize(sheet)
    took = run("eval 1\nwait\n" * answers, b"asked\nbanner a\nanswered 1\n" + b"asked\nanswered 1\n" * (answers - 1))
    # After its gate each record has its length, its payload and the next gate.
    records = answers * ((4 + 5 + 1) + (4 + 1 + 4 + 2 + 2 + length + 1))
    assert os.path.getsize(sheet) - before == records, "the records have another length"
    return took

def plain(length, answers):
    remove(other)
    took = timed([work + "/plain", other, child, str(length), str(answers)], None, None)
    assert os.path.getsize(other) == 11 + answers * ((4 + 5 + 1) + (4 + 1 + 4 + 2 + 2 + length + 1)), "the plain records have another length"
    return took

print(f"{'bytes':>9} {'answers':>8} {'tmhost/s':>9} {'plain/s':>9} {'ratio':>6} {'CPU ratio':>10}", flush=True)
for length in map(int, sys.argv[4:]):
    answers = answers_of(length)
    pairs = [(ours(length, answers), plain(length, answers)) for _ in range(runs)]
    rates = [answers / statistics.median(pair[i][0] for pair in pairs) for i in (0, 1)]
    ratios = [statistics.median(theirs[i] / our[i] for our, theirs in pairs) for i in (0, 1)]
    print(f"{length:9} {answers:8} {rates[0]:9.1f} {rates[1]:9.1f} {ratios[0]:6.2f} {ratios[1]:10.2f}", flush=True)
    remove(sheet, sheet + ".alt", other)

# The rate of the second thousand answers, that of the first being 1, by runs of one thousand and of two.
def second_thousand(length):
    first, both = ours(length, 1000)[0], ours(length, 2000)[0]
    return first / (both - first)

print(f"rate of the second thousand answers of 100 bytes, that of the first being 1: {statistics.median(second_thousand(100) for _ in range(runs)):.2f}")
PYTHON
