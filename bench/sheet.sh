#!/usr/bin/env bash
# Prints what the calls of a worksheet cost, in nanoseconds, with 100, 1,000 and 10,000 fields, each `check` with its `apply`: of this
# tree, and before it of the tree at COMMIT (where none is given, the last one whose worksheet keeps its fields in a vector), both in one
# run, the least of RUNS runs (5 where it isn't set) of both programs in turn. COMMIT's worksheet is proved and built for it, which takes
# minutes.
set -euo pipefail
root=$(dirname "$(dirname "$(readlink -f "${BASH_SOURCE[0]}")")")
commit=${1:-dc6401f}
work=$(mktemp -d)
trap 'rm -rf "$work"' EXIT

# Builds the program that times the calls (sheet_calls.txt: the gate proves each .rt file, and this one is no part of tmhost) in a copy
# of a tree's worksheet.
build() {
    mkdir -p "$work/$1/crates/sheet_bench/src"
    cp "$root/bench/sheet_calls.txt" "$work/$1/crates/sheet_bench/src/main.rt"
    sed -i '/^sheet_bench: /d' "$work/$1/crates.txt"
    echo 'sheet_bench: block_tree worksheet' >>"$work/$1/crates.txt"
    (cd "$work/$1/crates/sheet_bench" && rt run </dev/null >"$work/log" 2>&1) || { tail -n 20 "$work/log" >&2; exit 1; }
}
mkdir "$work/before" "$work/after"
git -C "$root" archive "$commit" | tar -x -C "$work/before"
tar -c -C "$root" crates.txt HANDLES crates/block_tree crates/worksheet | tar -x -C "$work/after"
sed -i '/^\(block_tree\|worksheet\): /!d' "$work/after/crates.txt"
build before
build after
programs=("$work"/{before,after}/crates/sheet_bench/out/sheet_bench)
python3 - "${programs[@]}" "${RUNS:-5}" <<'PYTHON'
import subprocess, sys

programs, runs = {"before": sys.argv[1], "after": sys.argv[2]}, int(sys.argv[3])
calls = ["new", "set", "clear", "move", "remove last", "remove first"]
least = {}
for _ in range(runs):
    for tree, program in programs.items():
        text = subprocess.run([program, "times"], stdout=subprocess.PIPE, check=True).stdout.decode()
        for line in text.splitlines():
            fields, *costs = map(int, line.split())
            for call, cost in zip(calls, costs):
                key = fields, tree, call
                least[key] = min(cost, least.get(key, cost))

print(f"{'fields':>7} {'':>7}" + "".join(f"{call:>14}" for call in calls))
for fields in (100, 1000, 10000):
    for tree in programs:
        print(f"{fields:>7} {tree:>7}" + "".join(f"{least[fields, tree, call]:>14}" for call in calls))
PYTHON
