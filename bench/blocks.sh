#!/usr/bin/env bash
# Prints for blocks of several shapes the processor time of `tmhost blocks`, that of a plain Rust program that does the same (plain_blocks.rs),
# and that of the limit program, which does it by AVX2 (limit_blocks.c; left out where the machine has none), both ratios, the time by the clock,
# and the peak memory, all in one run. The times are of 60 MiB of mixed blocks and of 30 MiB of each other shape: the best of RUNS runs (5
# where it isn't set) of the programs in turn. The memory is the most of those runs, and of one run over 64 MiB, the longest input.
set -euo pipefail
root=$(dirname "$(dirname "$(readlink -f "${BASH_SOURCE[0]}")")")
work=$(mktemp -d)
trap 'rm -rf "$work"' EXIT
rustc -O -o "$work/plain" "$root/bench/plain_blocks.rs"
limit=
if grep -qsw avx2 /proc/cpuinfo; then
    limit=$work/limit
    "${CC:-cc}" -O3 -mavx2 -o "$limit" "$root/bench/limit_blocks.c"
else
    echo "this machine has no AVX2: the limit program is left out"
fi
[ -n "${TMHOST:-}" ] || "$root/install/proved"
python3 - "$root" "$work" "${RUNS:-5}" "${TMHOST:-$root/crates/tmhost/out/tmhost}" "$limit" <<'PYTHON'
import filecmp, os, subprocess, sys, time

root, work, runs = sys.argv[1], sys.argv[2], int(sys.argv[3])
programs = [[sys.argv[4], "blocks"], [work + "/plain"]] + [[path] for path in sys.argv[5:] if path]
shapes = ["mixed", "long texts", "lines", "utf-8", "line feeds", "escapes", "noise", "tiny blocks", "32 levels", "no block end", "deep escapes"]
data = work + "/input"

def make(shape, mib):
    with open(data, "wb") as out:
        subprocess.run([sys.executable, root + "/bench/shapes.py", shape, str(mib)], stdout=out, check=True)

# wall seconds, processor seconds, peak MiB
def once(words, text="/dev/null"):
    begun = time.perf_counter()
    files = [(os.POSIX_SPAWN_OPEN, 0, data, os.O_RDONLY, 0), (os.POSIX_SPAWN_OPEN, 1, text, os.O_WRONLY | os.O_CREAT | os.O_TRUNC, 0o600)]
    _, status, usage = os.wait4(os.posix_spawn(words[0], words, os.environ, file_actions=files), 0)
    # (1 tells the fault of the shape without a block end)
    assert os.waitstatus_to_exitcode(status) in (0, 1), status
    return time.perf_counter() - begun, usage.ru_utime + usage.ru_stime, usage.ru_maxrss / 1024

print(f"{'':12} {'CPU s':>7} {'':7} {'':7} {'plain /':>8} {'tmhost /':>8} {'wall s':>7} {'':7} {'MiB':>7} {'':7} {'':7} {'of 64:':>7}", flush=True)
print(f"{'shape':12} {'tmhost':>7} {'plain':>7} {'limit':>7} {'tmhost':>8} {'limit':>8} {'tmhost':>7} {'plain':>7} {'tmhost':>7} {'plain':>7} {'limit':>7} {'tmhost':>7}", flush=True)
for shape in shapes:
    make(shape, 60 if shape == "mixed" else 30)
    for number, words in enumerate(programs):
        once(words, f"{work}/text{number}")
        assert filecmp.cmp(f"{work}/text0", f"{work}/text{number}", shallow=False), f"{words[0]}, {shape}: another text"
    results = [[once(words) for words in programs] for _ in range(runs)]
    wall, cpu = ([min(run[i][n] for run in results) for i in range(len(programs))] for n in (0, 1))
    peak = [max(run[i][2] for run in results) for i in range(len(programs))]
    make(shape, 64)
    longest = once(programs[0])[2]
    limit = [f"{cpu[2]:7.4f}", f"{cpu[0] / cpu[2]:8.1f}", f"{peak[2]:7.0f}"] if len(programs) > 2 else [f"{'-':>7}", f"{'-':>8}", f"{'-':>7}"]
    print(f"{shape:12} {cpu[0]:7.3f} {cpu[1]:7.3f} {limit[0]} {cpu[1] / cpu[0]:8.1f} {limit[1]} {wall[0]:7.3f} {wall[1]:7.3f} {peak[0]:7.0f} {peak[1]:7.0f} {limit[2]} {longest:7.0f}", flush=True)
PYTHON
