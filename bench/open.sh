#!/usr/bin/env bash
# Prints how long opening a worksheet takes (`tmhost show`) whose journal has so many MB (100 and 1,000 where none are given), against
# `cat` of that file, and the peak memory of both, resident and asked for. Every journal makes the same worksheet of 10 fields: what is longer about a longer
# one are the inputs that were set and set again. The medians of RUNS runs (5 where it isn't set) of both in turn; the files lie in
# FOLDER, or in the current one. After that the journal is rewritten by the line `checkpoint`: how long an opening takes then, and how long such a
# line takes, against writing and syncing the bytes of the new journal twice. Last, journals of 100 MB in small records and in larger ones: Sets of
# a short input, Clears with answers of 20 bytes, and with answers of 10,000. Of each it prints the processor time of `tmhost show`, of a plain C
# program that keeps the last input and answer of each field (plain_open.c), of `cat` into a pipe, and of the limit program, which checks what an
# opening must by AVX2 and keeps places alone (limit_open.c; left out where the machine has none): the least of the runs of all in turn, and ratios.
set -euo pipefail
root=$(dirname "$(dirname "$(readlink -f "${BASH_SOURCE[0]}")")")
work=$(mktemp -d "$(readlink -f "${FOLDER:-.}")/open.XXXXXX")
trap 'rm -rf "$work"' EXIT
[ -n "${TMHOST:-}" ] || "$root/install/proved"
[ $# -gt 0 ] || set -- 100 1000
"${CC:-cc}" -O2 -o "$work/plain_open" "$root/bench/plain_open.c"
limit=
if grep -qsw avx2 /proc/cpuinfo; then
    limit=$work/limit_open
    "${CC:-cc}" -O3 -mavx2 -o "$limit" "$root/bench/limit_open.c"
else
    echo "this machine has no AVX2: the limit program is left out"
fi
python3 - "${TMHOST:-$root/crates/tmhost/out/tmhost}" "$work" "${RUNS:-5}" "$limit" "$@" <<'PYTHON'
import fcntl, os, re, statistics, subprocess, sys, time

program, work, runs, limit = sys.argv[1], sys.argv[2], int(sys.argv[3]), sys.argv[4]
fields = 10

def record(payload):
    return b"\x52" + len(payload).to_bytes(4, "big") + payload

def text(bytes):
    return len(bytes).to_bytes(2, "big") + bytes

def number(n):
    return n.to_bytes(4, "big")

# A session, its fields, and these payloads of one field after the other, up to this length. What the limit program prints of it is given: how many
# records it has, and the sum of the places of each field's last input and last answer.
def journal(path, length, payloads):
    with open(path, "wb") as out:
        out.write(b"TMWSHEET\x01A" + record(b"\x01\x01a\x00\x01" + text(b"p")))
        records, places = 1, {}
        for after in range(fields):
            places[after, 3] = out.tell() + 5 + 7
            records += 1
            out.write(record(b"\x02" + number(after) + b"\x01a" + text(b"x")))
        ops = [(i, payload) for i in range(fields) for payload in payloads(i)]
        round = b"".join(record(payload) for _, payload in ops)
        while out.tell() < length:
            records += len(ops)
            out.write(round)
        at = out.tell() - len(round)
        for i, payload in ops:
            places[i, payload[0]] = at + 5 + 5
            at += 5 + len(payload)
        out.write(b"\x00")
    open(path + ".alt", "wb").close()
    return b"%d %d\n" % (records, sum(place for (_, op), place in places.items() if op in (3, 7)))

# The payload of a Set, and those of a Clear and an answer.
def a_set(inputs):
    return lambda i: [b"\x03" + number(1 + i) + text(inputs[i])]

def an_answer(answers):
    return lambda i: [b"\x06" + number(1 + i), b"\x07" + number(1 + i) + text(b"> ") + b"\x02verbatim:" + answers[i] + b"\x05"]

# Seconds, the greatest resident memory in MiB, the front of what was written, the greatest address space in MiB, and the processor's seconds. The pipe of
# `show` holds less than it writes, so that it is there when its memory is looked at, which is after the opening.
def measured(words):
    begun = time.perf_counter()
    reads, writes = os.pipe()
    if words[0] == program:
        fcntl.fcntl(writes, fcntl.F_SETPIPE_SZ, 4096)
    child = subprocess.Popen(words, stdout=writes)
    os.close(writes)
    with open(reads, "rb", buffering=0) as pipe:
        told = pipe.read(1)
        with open(f"/proc/{child.pid}/status") as status:
            # One that wrote little has ended already, and shows none.
            peak = [int(kib) / 1024 for kib in re.findall(r"(?:VmPeak|VmHWM):\s+(\d+) kB", status.read())] or [0, 0]
        while more := pipe.read(1 << 20):
            if len(told) < 1 << 20:
                told += more
    _, status, used = os.wait4(child.pid, 0)
    child.returncode = os.waitstatus_to_exitcode(status)
    assert child.returncode == 0, f"{words[0]}: status {child.returncode}"
    return time.perf_counter() - begun, peak[1], told, peak[0], used.ru_utime + used.ru_stime

# Seconds of a `run` of this script, which tells this.
def run(path, script, told):
    begun = time.perf_counter()
    ran = subprocess.run([program, "run", path], input=script, capture_output=True, check=True)
    assert ran.stdout == told, f"run tells {ran.stdout}"
    return time.perf_counter() - begun

# Seconds of writing so many bytes into a file and syncing it, twice.
def written_twice(path, length):
    with open(path, "wb", buffering=0) as file:
        begun = time.perf_counter()
        for _ in range(2):
            file.write(bytes(length))
            os.fdatasync(file.fileno())
        return time.perf_counter() - begun

def median(seconds):
    return statistics.median(seconds() for _ in range(runs))

def shown(inputs, answers=[b"?"] * fields):
    return b"".join(b"#%d a\n> %s\n%s\n" % (1 + i, inputs[i], answers[i]) for i in range(fields))

# The runs of `show` and `cat` in turn, and the median of the seconds of each.
def both(path, want):
    ours, theirs = [], []
    for _ in range(runs):
        ours.append(measured([program, "show", path]))
        assert ours[-1][2] == want, "show prints another worksheet"
        theirs.append(measured(["cat", path]))
    return ours, theirs, *(statistics.median(run[0] for run in side) for side in (ours, theirs))

# A row of the table of processor times, of programs that print this.
def row(name, path, want, records):
    sides = [([program, "show"], want), ([f"{work}/plain_open"], want), (["cat"], None)] + ([([limit], records)] if limit else [])
    least = [None] * len(sides)
    for _ in range(runs):
        for side, (words, expected) in enumerate(sides):
            *_, told, _, used = measured(words + [path])
            assert expected in (None, told), f"{words[0]} prints another worksheet"
            least[side] = used if least[side] is None else min(least[side], used)
    times = "".join(f"{used:8.3f}" for used in least) + ("" if limit else f"{'-':>8}")
    ratios = "".join(f"{least[0] / used:8.1f}" for used in least[1:]) + ("" if limit else f"{'-':>8}")
    print(f"{name:24}{times} {ratios}", flush=True)

# The longest inputs that there are, and short ones.
long = [b"y" * 4095] * fields
short = [b"(+ 1 %d) ; z" % i for i in range(fields)]

for size in sys.argv[5:]:
    path = f"{work}/sheet{size}"
    journal(path, int(size) * 1_000_000, a_set(long))
    want = shown(long)
    ours, theirs, show, cat = both(path, want)
    peak, other = (max(run[1] for run in side) for side in (ours, theirs))
    asked = max(run[3] for run in ours)
    print(f"{size} MB: show {show:.2f} s, cat {cat:.2f} s, ratio {show / cat:.1f}; peak memory {peak:.1f} MiB, of cat {other:.1f} MiB; addresses {asked:.1f} MiB")
    run(path, b"checkpoint\n", b"ok\n")
    assert measured([program, "show", path])[2] == want, "show prints another worksheet behind a checkpoint"
    behind = median(lambda: measured([program, "show", path])[0])
    line = median(lambda: run(path, b"checkpoint\n", b"ok\n")) - median(lambda: run(path, b"", b""))
    anew = os.path.getsize(path + ".alt")
    twice = median(lambda: written_twice(f"{work}/plain", anew))
    print(f"{size} MB behind a checkpoint: show {1000 * behind:.1f} ms; the line takes {1000 * line:.1f} ms, writing and syncing its {anew} bytes twice {1000 * twice:.1f} ms, ratio {line / twice:.1f}")
    os.remove(path)

print(f"{'':24}{'CPU s':>8} {'':23} {'tmhost by':>8}", flush=True)
print(f"{'100 MB of':24}{'tmhost':>8}{'plain':>8}{'cat':>8}{'limit':>8} {'plain':>8}{'cat':>8}{'limit':>8}", flush=True)
path = f"{work}/records"
records = journal(path, 100_000_000, a_set(short))
row("Sets of 12 bytes", path, shown(short), records)
for size in (20, 10_000):
    answers = [(b"%d " % i * size)[:size] for i in range(fields)]
    records = journal(path, 100_000_000, an_answer(answers))
    row(f"answers of {size:,} bytes", path, shown([b"x"] * fields, answers), records)
PYTHON
