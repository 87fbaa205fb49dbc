#!/usr/bin/env bash
# Kills `tmhost run` at ROUNDS random moments (200 where it isn't set) by `kill -9`, each time on a new worksheet, and looks with `tmhost
# show` what is there: all that was reported before the kill, and at most one change more. The files lie in FOLDER, or where none is given in
# the current one.
set -euo pipefail
folder=$(readlink -f "${1:-.}")
root=$(dirname "$(dirname "$(readlink -f "${BASH_SOURCE[0]}")")")
work=$(mktemp -d "$folder/kills.XXXXXX")
trap 'rm -rf "$work"' EXIT
"$root/install/proved"
python3 - "$root" "$work" "${ROUNDS:-200}" <<'PYTHON'
import os, random, subprocess, sys, time

root, work, rounds = sys.argv[1], sys.argv[2], int(sys.argv[3])
program, fields = root + "/crates/tmhost/out/tmhost", 40

# The script, what it gives when nothing kills it, and the worksheet after each change, as it is printed.
lines, told, inputs, outputs = [], [], [], []

def printed():
    return "".join(f"#{n} a\n> {given}\n{output}\n" for n, (given, output) in enumerate(zip(inputs, outputs), 1))

sheets = [printed()]

def line(text, reply):
    lines.append(text)
    told.append(reply)
    sheets.append(printed())

line(f"session a plain sh {root}/examples/echo.sh", "ok")
for n in range(1, fields + 1):
    inputs.append(f"first {n}")
    outputs.append("?")
    line(f"new {n - 1} a first {n}", f"field {n}")
    inputs[-1] = f"second {n}"
    line(f"set {n} second {n}", "ok")
    line(f"eval {n}", "asked")
    outputs[-1] = f"second {n}"
    line("wait", f"answered {n}")
script = "".join(text + "\n" for text in lines).encode()

def run(sheet, lasts):
    child = subprocess.Popen([program, "run", sheet], stdin=subprocess.PIPE, stdout=subprocess.PIPE)
    child.stdin.write(script)
    child.stdin.close()
    if lasts is not None:
        time.sleep(lasts)
        child.kill()
    text = child.stdout.read().decode()
    child.wait()
    return [reply for reply in text.splitlines() if reply != "banner a"]

def make(name):
    sheet = f"{work}/{name}"
    subprocess.run([program, "create", sheet], check=True)
    return sheet

sheet = make("whole")
begun = time.perf_counter()
assert run(sheet, None) == told, "the whole script"
whole = time.perf_counter() - begun
early = late = 0
for n in range(rounds):
    sheet = make(n)
    replies = run(sheet, random.uniform(0, whole))
    count = len(replies)
    assert replies == told[:count], replies
    shown = subprocess.run([program, "show", sheet], stdout=subprocess.PIPE, check=True).stdout.decode()
    if shown == sheets[count]:
        early += 1
    elif shown == sheets[min(count + 1, len(told))]:
        late += 1
    else:
        sys.exit(f"round {n}: {count} replies, and the worksheet is\n{shown}")
    os.remove(sheet)
    os.remove(sheet + ".alt")
print(f"{rounds} kills: {early} times the worksheet is what was told, {late} times it has the change behind that too")
PYTHON
