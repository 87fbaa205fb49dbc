"""Test files of PARI, GAP and Octave, as they are: PARI's `in` and `32`, `gap> ` in GAP's `.tst`, and blocks `%!` in Octave's `.tst` and `.m`."""
import dataclasses
import os
import re
from typing import Iterator, List, Optional, Tuple

from tmhost_fences.blocks import LINE, cut
from tmhost_fences.fields import groups

from .cases import Case, Marks, Suite
from .forms import FOLDER, Session, lines_of, own_case, whole_case
from .rules import ANY_LINES, BY_PATTERN, Rules

PARI_TIME = ("Total time spent:", '? print("Total time spent: "')

GAP_PROMPT, GAP_MORE, GAP_CHOICE, GAP_END = "gap> ", "> ", "#@if", "#@fi"
GAP_PACKAGE = re.compile(r"/pkg/([\w-]+)/")
GAP_BORDER = re.compile(r"\s*(?:START|STOP)_TEST\b.*")

OCTAVE_BLOCK = re.compile(r"^%!([a-z]+)(.*(?:\n%!(?:[ \t].*)?$)*)", re.MULTILINE)
OCTAVE_REMARK = re.compile(r"^[ \t]*(?:#|%(?!!))", re.MULTILINE)
OCTAVE_MORE = re.compile(r"\n%!")
OCTAVE_BUG = re.compile(r"\s*<(\*?)\d+>")
OCTAVE_MESSAGE = re.compile(r"\s*(?:id=([\w:-]+)|<((?:\\.|[^>\\])*)>)?", re.DOTALL)
PASSED, SKIPPED = "passed", "skipped: it wants"


def remarks(count: int) -> Tuple[str, ...]:
    return (lines_of(count, "remarks"),) if count else ()


# ---- PARI


def pari_wanted(path: str) -> Optional[str]:
    """The file of what PARI's own tests want of a file `in/NAME`: `64/NAME`, or else `32/NAME`, in the folder of `in`."""
    folder, name = os.path.split(os.path.abspath(path))
    if os.path.basename(folder) != "in":
        return None
    beside = (os.path.join(os.path.dirname(folder), bits, name) for bits in ("64", "32"))
    return next((one for one in beside if os.path.isfile(one)), None)


def read_pari(path: str, text: str, session: Session) -> Suite:
    """One case, since what is wanted says not which lines are whose. `gp --test` wrote that, in lines of 76 characters; PARI's `dotest` lets
    it tell the time it took, and leaves that out."""
    with open(pari_wanted(path) or "", encoding="utf-8", errors="surrogateescape", newline="\n") as file:
        wanted = file.read().rstrip("\n").split("\n")
    while wanted and wanted[-1].startswith(PARI_TIME):
        del wanted[-1]
    lines = [cut(line)[0] for line in LINE.findall(text)]
    case = Case(session.name, Marks(), tuple(lines), tuple(groups(lines, "gp")), 1, "\n".join(wanted))
    return Suite(path, dict([session]), Rules(any_spaces=True, columns=76), None, (case,))


# ---- GAP


def is_gap(text: str) -> bool:
    return re.search(rf"^{GAP_PROMPT}", text, re.MULTILINE) is not None


def counted(text: str) -> Iterator[Tuple[int, str]]:
    """The lines that count, with their numbers from 1: no empty one with a remark after it, and none of the remarks that follow."""
    lines = text.split("\n")
    is_remark = False
    for number, (line, after) in enumerate(zip(lines, [*lines[1:], ""]), 1):
        is_remark = is_remark and line.startswith("#") and not line.startswith("#@") or not line and after.startswith("#")
        if not is_remark:
            yield number, line


def gap_remarks(text: str) -> int:
    """How many lines are remarks, or stand in front of the first prompt, but for empty ones."""
    lines = text.split("\n")
    found = list(counted(text))
    first = next((number for number, line in found if line.startswith(GAP_PROMPT)), len(lines) + 1)
    read = {number for number, _ in found if number >= first}
    return sum(bool(line.strip()) and number not in read for number, line in enumerate(lines, 1))


def gap_groups(text: str) -> Iterator[Tuple[int, List[str], List[str], bool]]:
    """The line of each prompt, its code, what is wanted, and whether it hangs on a condition of GAP's."""
    begin, depends, is_inside = 0, False, False
    code: List[str] = []
    wanted: List[str] = []
    for number, line in [*counted(text), (0, GAP_PROMPT)]:
        if line.startswith(GAP_PROMPT):
            if code:
                yield begin, code, wanted, depends
            begin, code, wanted, depends = number, [line[len(GAP_PROMPT) :]], [], is_inside
        elif line.startswith(GAP_MORE) and code:
            code.append(line[len(GAP_MORE) :])
        elif line.startswith("#@"):
            is_inside = line.startswith(GAP_CHOICE) or is_inside and not line.startswith(GAP_END)
        else:
            wanted.append(line)


def gap_skip(code: List[str], depends: bool) -> Optional[str]:
    if GAP_BORDER.fullmatch(code[0]):
        return "it tells the time"
    return "it hangs on a condition of #@if" if depends else None


def read_gap(path: str, text: str, session: Session) -> Suite:
    """Each prompt is a case, in lines of 80 columns, as GAP's `Test` has them, and up to blanks, as packages let it compare. A test of a package has
    that loaded."""
    package = GAP_PACKAGE.search(path)
    begin = ["SizeScreen([80, 24]);;", *([f'LoadPackage("{package[1]}", false);;'] if package else [])]
    cases = [own_case(session.name, "\n".join(begin), None, 1, Marks(is_setup=True))]
    for line, code, wanted, depends in gap_groups(text):
        cases.append(whole_case(session.name, "\n".join(code), "\n".join(wanted).rstrip("\n"), line, Marks(skip=gap_skip(code, depends))))
    return Suite(path, dict([session]), Rules(any_spaces=True), None, tuple(cases), left_out=remarks(gap_remarks(text)))


# ---- Octave


def is_octave(text: str) -> bool:
    return OCTAVE_BLOCK.search(text) is not None


def called(code: str, shared: str) -> str:
    """What Octave's `test` does with the code of a block: its names are its own, but for those that are shared."""
    gives = f"[{shared}] = " if shared else ""
    return f"function {gives}tmhost_test ({shared})\n{code}\nendfunction\n{gives}tmhost_test ({shared});"


def declared(code: str) -> Tuple[str, str]:
    """The names that a block shares with those after it, and the code that sets them up."""
    first, _, rest = code.partition("\n")
    names = re.split(r"[#%]", first)[0].strip()
    begin = "".join(f"{name.strip()} = [];\n" for name in names.split(",") if name.strip())
    return names, begin + (called(rest, names) if rest.strip() else "")


def message(code: str, shared: str, kind: str) -> Tuple[str, str]:
    """The code of a block that wants an error or a warning, and what is wanted."""
    found = OCTAVE_MESSAGE.match(code)
    assert found
    code = called(code[found.end() :], shared)
    if found[1] is not None:
        return f'lastwarn (""); lasterr (""); try\n{code}\nend_try_catch\n[~, tmhost_id] = last{kind[:4].replace("erro", "err")} ();\ndisp (tmhost_id)', f"{ANY_LINES}\n{found[1]}"
    pattern = found[2] or ""
    inner = f"(?:{pattern[1:]})" if pattern.startswith("^") else f".*(?:{pattern})"
    # Of what can't be parsed that is reported on a line of its own.
    before = f"error: parse error:\n{ANY_LINES}\n  " if "syntax error" in pattern else f"{kind}: "
    return code, f"{ANY_LINES}\n{before}{inner}.*{BY_PATTERN}\n{ANY_LINES}"


def where_it_can(code: str, shared: str) -> str:
    """A block that wants what Octave was built with, or what is so when it runs, and says where it can't."""
    first, _, rest = code.partition("\n")
    features, _, condition = re.split(r"[#%<]", first)[0].partition(";")
    names = [name.removeprefix("HAVE_") for name in re.findall(r"\w+", features)]
    has = " && ".join([f"__have_feature__ ({{{', '.join(map(repr, names))}}})", *([f"({condition.strip()})"] if condition.strip() else [])])
    function, _, call = called(rest, shared).rpartition("\n")
    return f"{function}\nif ({has})\n{call}\ndisp ({PASSED!r})\nelse\ndisp ({(SKIPPED + ' '.join(first.split())).replace(chr(39), '')!r})\nendif"


def octave_case(session: str, kind: str, code: str, shared: str, line: int) -> Optional[Case]:
    """The case of a block, which stands alone where nothing is shared. None where it has nothing to evaluate."""
    marks = Marks(is_independent=not shared)
    if kind == "function":
        return whole_case(session, f"function{code}\nendfunction", None, line, Marks(is_setup=True))
    if kind in ("error", "warning"):
        return whole_case(session, *message(code, shared, kind), line, marks)
    bug = OCTAVE_BUG.match(code)
    if bug and kind != "testif":
        code = code[bug.end() :]
    marks = dataclasses.replace(marks, may_fail="a known bug" if kind == "xtest" or bug and not bug[1] else None)
    passes = f"{ANY_LINES}\n{PASSED}"
    if kind == "testif":
        return whole_case(session, where_it_can(code, shared), passes, line, dataclasses.replace(marks, may_fail=None, skip_if=f"^{SKIPPED}"))
    if kind in ("test", "xtest", "assert", "fail"):
        code = code if kind in ("test", "xtest") else kind + code
        return whole_case(session, f"{called(code, shared)}\ndisp ({PASSED!r})", passes, line, marks)
    return None


def first_line(kind: str, code: str) -> str:
    """Of a block as its file has it. Of one that begins with its kind alone, as `test` does, it is that of its code."""
    first, *more = [line.strip() for line in code.split("\n")]
    bug = OCTAVE_BUG.match(first)
    if kind in ("test", "xtest", "testif"):
        first = "" if kind == "testif" else first[bug.end() :].strip() if bug else first
        return next(filter(None, [first, *more]), kind)
    if not first:
        return " ".join([kind, *list(filter(None, more))[:1]])
    return kind + code.partition("\n")[0].rstrip()


def octave_blocks(text: str) -> Iterator[Tuple[str, str, int]]:
    """The kind of each block, its code, and its line, from 1."""
    for found in OCTAVE_BLOCK.finditer(text):
        yield found[1], OCTAVE_MORE.sub("\n", found[2]), text.count("\n", 0, found.start()) + 1


def read_octave(path: str, text: str, session: Session) -> Suite:
    """Each block of a test is a case that says at its end that it has passed; demonstrations are left out."""
    cases: List[Case] = []
    shared = ""
    if path.endswith(".tst"):
        cases.append(own_case(session.name, f"addpath (getenv ('{FOLDER}'));", None, 1, Marks(is_setup=True)))
    for kind, code, line in octave_blocks(text):
        if kind == "shared":
            shared, begin = declared(code)
            found = whole_case(session.name, begin, None, line, Marks(is_setup=True)) if begin.strip() else None
        else:
            found = octave_case(session.name, kind, code, shared, line)
        if found:
            cases.append(dataclasses.replace(found, own_line=first_line(kind, code)))
    return Suite(path, dict([session]), Rules(), None, tuple(cases), left_out=remarks(len(OCTAVE_REMARK.findall(text))))
