"""What `tmhost eval` is to do with a worksheet of random lines, as the lines of a script, and what it wrote as what these lines tell."""

from __future__ import annotations

import json
import re
import subprocess
from collections.abc import Iterable

from model import Difference
from program import Program

STARTS = ("eval ", "complete ", "wait", "print", "stop ")


def evaluations(program: Program, script: Iterable[str]) -> tuple[list[str], list[str]]:
    """The lines of a script that start no interpreter, and those by which `eval` evaluates the worksheet that they make."""
    script = [line for line in script if not line.startswith(STARTS)]
    model = program.create("model")
    program.run(model, "".join(line + "\n" for line in script).encode())
    shown = subprocess.run([program.path, "show", "--json", model], capture_output=True, check=True).stdout.splitlines()
    program.remove(model)
    ids = [told["field"]["id"] for told in map(json.loads, shown) if told["type"] == "field"]
    return script, [line for id in ids for line in (f"eval {id}", "wait")]


def counted(output: list[str], lines: list[str]) -> list[str]:
    """What an evaluation wrote, without its last line, which counts the answers."""
    if not output or not re.fullmatch(r"answered \d+ unanswered \d+", output[-1]):
        return output
    answered = sum(re.fullmatch(r"answered \d+", line) is not None for line in output)
    if output[-1] != f"answered {answered} unanswered {len(lines) // 2 - answered}":
        raise Difference(f"the counts are wrong: {output[-1]}")
    return output[:-1]
