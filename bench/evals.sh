#!/usr/bin/env bash
# Prints how many evaluations a second `tmhost run` does with an interpreter that echoes its line, each durable, on worksheets of 100,
# 1,000 and 10,000 fields, and how long such a worksheet takes to open: the best of RUNS runs (3 where it isn't set). 500 fields, spread
# over the worksheet, are evaluated, each with a `wait` after it. Beside it `tmhost live` does the same, and the ratio of their rates is
# printed. Then it prints how many times as many evaluations `live` does with eight interpreters that take 50 ms a line each as with one, and
# with 8 and 64 that answer at once (the best of as many runs), and the processor time that it takes while nothing comes; and how long `check` and `eval` take with eight of them beside one.
# Last it prints how many times the processor time of 1,000 fields of one session `eval` takes for a field of 10,000, and how many times that
# without a limit of time with one; its interpreter's isn't counted; and how often `eval` asks for a sync for a field, by `strace`, with 1, 8 and 64
# interpreters that answer at once. The files lie in FOLDER, or where none is given in the current one.
set -euo pipefail
folder=$(readlink -f "${1:-.}")
root=$(dirname "$(dirname "$(readlink -f "${BASH_SOURCE[0]}")")")
work=$(mktemp -d "$folder/evals.XXXXXX")
trap 'rm -rf "$work"' EXIT
"$root/install/proved"
python3 - "$root" "$work" "${RUNS:-3}" <<'PYTHON'
import os, subprocess, sys, time

root, work, runs = sys.argv[1], sys.argv[2], int(sys.argv[3])
program, evals = root + "/crates/tmhost/out/tmhost", 500

def run(sheet, script, verb="run"):
    begun = time.perf_counter()
    done = subprocess.run([program, verb, sheet], input=script.encode(), stdout=subprocess.PIPE, check=True)
    return time.perf_counter() - begun, done.stdout

print(f"{'fields':>7} {'opening, ms':>12} {'evals/s':>9} {'by live':>9} {'ratio':>6}", flush=True)
for fields in (100, 1000, 10000):
    sheet = f"{work}/{fields}"
    subprocess.run([program, "create", sheet], check=True)
    made = "".join(f"new {i} a line {i}\n" for i in range(fields))
    run(sheet, f"session a plain sh {root}/examples/echo.sh\n" + made)
    asked = [1 + i * fields // evals for i in range(evals)]
    script = "".join(f"eval {field}\nwait\n" for field in asked)
    expected = "".join((f"asked\nbanner a\n" if i == 0 else "asked\n") + f"answered {field}\n" for i, field in enumerate(asked))
    opening, whole = [], {"run": [], "live": []}
    for _ in range(runs):
        opening.append(run(sheet, "")[0])
        for verb, took in whole.items():
            last, text = run(sheet, script, verb)
            assert text == expected.encode(), text[-200:]
            took.append(last)
    rates = [evals / (min(took) - min(opening)) for took in whole.values()]
    print(f"{fields:7} {1000 * min(opening):12.1f} {rates[0]:9.0f} {rates[1]:9.0f} {rates[1] / rates[0]:6.2f}", flush=True)

def interpreter(name, seconds):
    """A program that takes so long for a line."""
    path = f"{work}/{name}.py"
    with open(path, "w") as file:
        file.write(f"""import sys, time
print("\\2verbatim:\\5", end="", flush=True)
for line in sys.stdin:
    time.sleep({seconds})
    print("\\2verbatim:" + line.rstrip() + "\\5", end="", flush=True)
""")
    return path

slow, quick = interpreter("slow", 0.05), interpreter("quick", 0)

def evaluations(child, count, lines, times=1, run=0):
    """How many evaluations a second so many interpreters do, once they have started: so many lines each, so many times over."""
    sheet = f"{child}.{count}.{run}"
    subprocess.run([program, "create", sheet], check=True)
    live = subprocess.Popen([program, "live", sheet], stdin=subprocess.PIPE, stdout=subprocess.PIPE, text=True)
    def say(text):
        live.stdin.write(text)
        live.stdin.flush()
    def hear(wanted):
        heard = 0
        while heard < wanted:
            heard += live.stdout.readline().startswith("answered ")
    for n in range(count):
        say(f"session s{n} plain python3 {child}\n")
        say("".join(f"new 0 s{n} {i}\n" for i in range(lines)))
    first = [1 + n * lines for n in range(count)]
    say("".join(f"eval {field}\n" for field in first))
    hear(count)
    begun = time.perf_counter()
    for _ in range(times):
        say("".join(f"eval {field + i}\n" for i in range(lines) for field in first))
        hear(count * lines)
    took = time.perf_counter() - begun
    ticks = lambda: sum(map(int, open(f"/proc/{live.pid}/stat").read().rsplit(")", 1)[1].split()[11:13]))
    before = ticks()
    time.sleep(3)
    idle = ticks() - before
    live.stdin.close()
    assert live.wait() == 0
    return times * count * lines / took, idle

one, _ = evaluations(slow, 1, 40)
eight, idle = evaluations(slow, 8, 40)
print(f"live, interpreters of 50 ms a line: one {one:.1f} evals/s, eight {eight:.1f}, {eight / one:.2f} times as many")
# In turn, so that a disk which is slow for a while is so for each.
rounds = [[evaluations(quick, count, 50, 8, run)[0] for count in (1, 8, 64)] for run in range(runs)]
quicks = [max(rates) for rates in zip(*rounds)]
print(f"live, interpreters that answer at once: one {quicks[0]:.0f} evals/s, 8 and 64 of them {quicks[1] / quicks[0]:.2f} and {quicks[2] / quicks[0]:.2f} times as many")
print(f"live, three seconds in which nothing comes: {1000 * idle / os.sysconf('SC_CLK_TCK'):.0f} ms of processor time")

def suite(sessions):
    """A worksheet with so many sessions of these interpreters, each of 20 fields."""
    sheet = f"{work}/{sessions}.suite"
    subprocess.run([program, "create", sheet], check=True)
    run(sheet, "".join(f"session s{n} plain python3 {slow}\n" for n in range(sessions)) + "".join(f"new 0 s{n} {i}\n" for n in range(sessions) for i in range(20)))
    return sheet

def took(last, *words):
    """The seconds that a program takes whose output has this last line."""
    begun = time.perf_counter()
    told = subprocess.run([program, *words], stdout=subprocess.PIPE, check=True).stdout
    lasted = time.perf_counter() - begun
    assert told.splitlines()[-1] == last.encode(), told
    return lasted

suites = [(suite(sessions), 20 * sessions) for sessions in (1, 8)]
for verb, last in (("eval", "answered {} unanswered 0"), ("check", "same {} differ 0 unanswered 0")):
    one, eight = [min(took(last.format(fields), verb, sheet) for _ in range(runs)) for sheet, fields in suites]
    in_turn = took(last.format(suites[1][1]), verb, "--jobs", "1", suites[1][0])
    print(f"{verb}, sessions of 20 fields of 50 ms: one {one:.2f} s, eight {eight:.2f} s, {eight / one:.2f} times as long; eight with --jobs 1 {in_turn:.2f} s")

def a_field(fields, *flags):
    """The least processor time of `eval` for a field of the worksheet of so many, without its interpreter's."""
    least = None
    for _ in range(runs):
        evaluating = subprocess.Popen([program, "eval", *flags, f"{work}/{fields}"], stdout=subprocess.DEVNULL)
        os.waitid(os.P_PID, evaluating.pid, os.WEXITED | os.WNOWAIT)
        with open(f"/proc/{evaluating.pid}/schedstat") as file:
            taken = int(file.read().split()[0])
        assert evaluating.wait() == 0
        least = taken if least is None else min(least, taken)
    return least / fields

plain, limited = [[a_field(fields, *flags) for fields in (1000, 10000)] for flags in ((), ("--timeout", "100"))]
print(f"eval, processor time of a field of one session: {plain[0] / 1000:.1f} us of 1,000, {plain[1] / plain[0]:.2f} times of 10,000; "
      f"with --timeout {limited[0] / plain[0]:.2f} and {limited[1] / plain[1]:.2f} times without")

def syncs(sessions, lines=40):
    """How often `eval` asks for a sync for each field of so many sessions of so many fields, whose interpreters answer at once."""
    sheet, counts = f"{work}/{sessions}.syncs", f"{work}/counts"
    subprocess.run([program, "create", sheet], check=True)
    run(sheet, "".join(f"session s{n} plain python3 {quick}\n" for n in range(sessions)) + "".join(f"new 0 s{n} {i}\n" for n in range(sessions) for i in range(lines)))
    subprocess.run(["strace", "-f", "-c", "-e", "trace=fdatasync", "-o", counts, program, "eval", sheet], stdout=subprocess.DEVNULL, check=True)
    row = next(line.split() for line in open(counts) if line.rstrip().endswith("fdatasync"))
    return int(row[3]) / (sessions * lines)

print("eval, syncs a field, interpreters that answer at once: " + ", ".join(f"{sessions} of them {syncs(sessions):.2f}" for sessions in (1, 8, 64)))
PYTHON
