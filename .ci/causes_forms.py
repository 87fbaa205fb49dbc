"""In which form code says that a call failed: an arm, a closure of `map_err`, an `if let`, a `let else`, an `if`.

Each is read of the text in front of a bracket. `Source.front` gives it: what is deeper there has other signs.
"""

from __future__ import annotations

import re
from typing import NamedTuple

from causes_source import PLAIN, Source
from causes_words import CAUSES

TYPED = re.compile(r"\b[A-Z]\w*")
# Where the pattern of an arm begins: after the arm in front of it, which ends in a comma or a block.
ARM_END = re.compile(r",|\{[^{}]*\}")
# Where the condition of a block begins: after a statement, an arm or a block, but for one that has an `else`.
BEFORE = re.compile(r"[;,]|=>|\{[^{}]*\}(?!\s*else\b)")
IF_LET = re.compile(r"\bif let\b([^={}]*)=([^{}]*)$")
LET_ELSE = re.compile(r"\blet\b([^={}]*)=([^{}]*)\belse\s*$")
# if CALL.is_err() {   if !CALL {   if CALL { .. } else {
FAILED = re.compile(r"\bif\b(?:([^{}!&|]*)\.is_err\(\)| !([^{}&|]*)|([^{}!&|]*)\{\} else)\s*$")
# What is compared, or looked for, or given out by reference, isn't made there.
COMPARED = re.compile(r"(?:[=!]=\s*|matches!\([^()]*)(?:\w+\s*::\s*)*$|&$")
# What follows a type, or a word of a pattern.
PATTERN = re.compile(r">|[\s)\]|:\w]*(?:\([^()]*\)[\s)\]|:\w]*)*(?:\bif\b[^{};]*)?(?:=>|=(?!=))")


class Failure(NamedTuple):
    """What brackets are for: their form, empty where none is known; the call that may have failed, empty where a fault
    is taken; whether its Err or its None is meant; and what is asked there, for the key of a reason."""

    form: str
    call: str
    wants: str
    asked: str


def is_made(source: Source, start: int, end: int) -> bool:
    """Whether a word is a value here: reads what is in front of it, and whether a pattern or a type goes on after."""
    return not COMPARED.search(source.near(start)) and not PATTERN.match(source.code, end)


def taken_by(pattern: str, kind: str) -> str:
    """Reads what a pattern takes: a "fault" of this kind, the "Err" or the "None" of a call, or something else."""
    alternatives = re.split(r"\bif\b", pattern.translate(PLAIN))[0].split("|")
    parts = [set(TYPED.findall(it)) for it in alternatives]
    if all(it & CAUSES[kind] for it in parts):
        return "fault"
    return next((word for word in ("Err", "None") if all(it == {word} for it in parts)), "")


def failure_around(source: Source, at: int, kind: str) -> Failure:
    """Reads for which failure the brackets are in which this stands, by what is in front of the place and of them."""
    opened, front = source.front(at)
    outside = source.front(opened)[1] if opened >= 0 else ""
    head, arrow, body = front.rpartition("=>")
    if arrow and ";" not in body:
        return of_arm(head, outside, kind)
    if source.code[opened] != "{":
        return of_closure(outside)
    block = BEFORE.split(outside)[-1]
    return of_block(re.sub(r"\{[^{}]*\}", "{}", block), kind)


def of_arm(head: str, outside: str, kind: str) -> Failure:
    """Reads the pattern of an arm, and what is matched: `match CALL { Err(_) =>`."""
    pattern = ARM_END.split(head)[-1]
    taken = taken_by(pattern, kind)
    matched = "" if taken == "fault" else outside.rpartition("match ")[2]
    return Failure("arm" if taken else "", matched, taken, pattern)


def of_closure(outside: str) -> Failure:
    """Reads of which call parentheses are: `CALL.map_err(`."""
    form = "map_err" if outside.endswith(".map_err") else ""
    return Failure(form, outside.rpartition(".")[0], "Err", "")


def of_block(asked: str, kind: str) -> Failure:
    """Reads the condition of a block: `if let Err(_) = CALL {`, `let Ok(x) = CALL else {`, `if CALL.is_err() {`."""
    if it := IF_LET.search(asked):
        taken = taken_by(it[1], kind)
        return Failure("if let" if taken else "", "" if taken == "fault" else it[2], taken, asked)
    if it := LET_ELSE.search(asked):
        is_plain = set(TYPED.findall(it[1])) in ({"Ok"}, {"Some"})
        return Failure("let else" if is_plain else "", it[2], "None" if "Some" in it[1] else "Err", asked)
    if it := FAILED.search(asked):
        return Failure("if", it[1] or it[2] or it[3], "Err", asked)
    return Failure("", "", "", asked)
