"""Formulas as MathML, by tmhost-typeset: it sets those of a page that `tmhost export html` wrote, so it is given a page of nothing else."""
import dataclasses
import html
import os
import re
import shutil
import subprocess
from typing import Dict, Iterable, List, Tuple

CLIENTS = os.path.dirname(os.path.dirname(os.path.dirname(os.path.realpath(__file__))))
COMMAND = os.path.join(CLIENTS, "typeset", "tmhost-typeset")
OUTPUT = '<pre class="out">{}<span class="tex">{}</span></pre>\n'
BESIDE = ". "  # a formula that has its line for itself gets the large form, and one beside this doesn't
OUTPUTS = re.compile(r'<pre class="out">(?:\. )?(.*?)</pre>\n', re.DOTALL)
STYLES = re.compile(r"<head>\n(.*?)</head>", re.DOTALL)
BY_TYPESET = "tmhost-typeset: "
LEFT = re.compile(r'left "((?:[^"\\]|\\.)*)": "((?:[^"\\]|\\.)*)"')  # what it reports of one that stays as its TeX
ESCAPED = re.compile(r'\\(["\\])')
MATH = "<math "
OF_ITS_PAGE = re.compile(r"\. The page has its .*")  # that of tmhost-typeset, which isn't the page of a text

Formula = Tuple[str, bool]  # with its dollars, and whether it has its line for itself


@dataclasses.dataclass(frozen=True)
class Formulas:
    """`set` has what stands for each in a page, and `styles` what that wants in its head. `unset` has what is to be said of each that can't be set and stays as its TeX,
    and `reported` what is to be said of all together."""

    set: Dict[Formula, str]
    styles: str = ""
    reported: Tuple[str, ...] = ()
    unset: Dict[Formula, str] = dataclasses.field(default_factory=dict)
    is_set: bool = True  # whether they could be tried at all


def as_tex(formulas: Iterable[Formula], *reported: str) -> Formulas:
    return Formulas({one: f'<span class="tex">{html.escape(one[0])}</span>' for one in formulas}, "", reported, {}, False)


def lines_of(said: bytes) -> List[str]:
    return [line.removeprefix(BY_TYPESET) for line in said.decode("utf-8", "backslashreplace").splitlines()]


def why_unset(left: "re.Match[str]") -> str:
    """What is said of a formula that tmhost-typeset reports as left, with its TeX as far as it is shown there."""
    tex, reason = (ESCAPED.sub(r"\1", part) for part in left.groups())
    return f"the formula {tex} stays as its TeX: {reason}"


def typeset(formulas: Iterable[Formula]) -> Formulas:
    """These formulas, each of them once."""
    wanted = list(dict.fromkeys(formulas))
    if not wanted:
        return Formulas({})
    if not shutil.which("node"):
        return as_tex(wanted, "formulas stay as their TeX: there is no program node (Debian's package nodejs)")
    outputs = "".join(OUTPUT.format("" if is_alone else BESIDE, html.escape(text)) for text, is_alone in wanted)
    page = f"<!doctype html>\n<html>\n<head>\n</head>\n<body>\n{outputs}</body>\n</html>\n"
    try:
        done = subprocess.run([COMMAND, "--report", "--no-prose"], input=page.encode("utf-8"), capture_output=True)
    except OSError as error:
        return as_tex(wanted, f"formulas stay as their TeX: {COMMAND} can't be started ({error.strerror})")
    written = done.stdout.decode("utf-8", "replace")
    found, styles = OUTPUTS.findall(written), STYLES.search(written)
    if done.returncode != 0 or len(found) != len(wanted) or not styles:
        why = [OF_ITS_PAGE.sub("", line) for line in lines_of(done.stderr)] or [f"{COMMAND} ended with status {done.returncode}"]
        return as_tex(wanted, f"formulas stay as their TeX: {why[0]}", *why[1:])
    lines = lines_of(done.stderr)
    left = [one for one in map(LEFT.fullmatch, lines) if one]
    unset = [one for one, made in zip(wanted, found) if MATH not in made]
    reported = [line for line in lines if not LEFT.fullmatch(line)]
    return Formulas(dict(zip(wanted, found)), styles[1], tuple(reported), dict(zip(unset, map(why_unset, left))))
