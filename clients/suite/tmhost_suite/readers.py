"""Suites in the forms of others: doctest's `>>>`, cram's `.t`, a Jupyter notebook with its outputs; those of PARI, GAP and Octave are in
transcripts.py. Each is read as cases of one session."""
import ast
import dataclasses
import doctest
import itertools
import json
import os
import re
import shlex
import textwrap
from typing import Any, Callable, Dict, Iterator, List, Optional, Sequence, Set, Tuple

from tmhost import readable
from tmhost_fences.blocks import blocks_of
from tmhost_fences.fields import LINE_END, Group, groups, language_in, whole
from tmhost_fences.info import LITERAL
from tmhost_fences.ipython import plain_python
from tmhost_fences.troubles import Missing, Trouble

from .cases import Case, Marks, Suite
from .forms import FOLDER, GAP, GP, OCTAVE, PYTHON, SHELL, Session, formula_of, lines_of, own_case, said_of, session_of, whole_case
from .rules import ANY_LINES, BY_GLOB, BY_PATTERN, PICTURES, Rules, exactly
from .text import Text, misspellings
from .transcripts import is_gap, is_octave, pari_wanted, read_gap, read_octave, read_pari

CRAM_CODE, CRAM_MORE = re.compile(r"  \$ (.*)"), re.compile(r"  > (.*)")
NO_END, ESCAPED = " (no-eol)", " (esc)"
CONTROL = re.compile(r"[\x00-\x08\x0a-\x1f\x7f]")
FORMULA = re.compile(r"\s*(\${1,2})([^$]+)\1\s*")
PICTURE_TYPES = ("image/svg+xml", "image/png", "image/jpeg")
LONGEST_QUOTE = 60  # characters of a line, in a message
NBVAL = re.compile(r"^[ \t]*# ?(NBVAL_\w+|PYTEST_VALIDATE_IGNORE_OUTPUT)", re.MULTILINE)
SKIPPING, FREEING = ("nbval-skip", "skip-execution"), ("nbval-ignore-output", "pytest-validate-ignore-output")
PLAIN_TAG = re.compile(r"[\w.:-]+")
CRAM_OUTPUT, CRAM_SKIPS = '"$CRAMTMP"/tmhost-output', "skipped: exit 80"


# ---- doctest


def wanted_of(example: doctest.Example) -> str:
    """What doctest wants, in the suite's own words. Of a traceback it compares the last line alone."""
    if example.exc_msg is not None:
        return "\n".join([ANY_LINES, *example.exc_msg.rstrip("\n").split("\n")])
    lines = ["" if line == "<BLANKLINE>" else line for line in example.want.rstrip("\n").split("\n")]
    if example.options.get(doctest.ELLIPSIS):
        lines = [line if line == ANY_LINES or ANY_LINES not in line else ".*".join(map(exactly, line.split(ANY_LINES))) + BY_PATTERN for line in lines]
    return "\n".join(lines)


def docstrings(text: str) -> Iterator[Tuple[str, int]]:
    """The docstrings of a module, each with the line, from 0, at which it begins."""
    for node in ast.walk(ast.parse(text)):
        if isinstance(node, (ast.Module, ast.ClassDef, ast.FunctionDef, ast.AsyncFunctionDef)):
            found = ast.get_docstring(node, clean=False)
            if found is not None:
                yield found, node.body[0].lineno - 1


def examples(session: str, text: str, first: int, before: str) -> Tuple[List[Case], str]:
    """The examples of a text after the prose `before`, and the prose after the last one."""
    cases: List[Case] = []
    prose = [before]
    for part in doctest.DocTestParser().parse(text):
        if isinstance(part, str):
            prose.append(textwrap.dedent(part).strip())
            continue
        skip = "by # doctest: +SKIP" if part.options.get(doctest.SKIP) else None
        marks = Marks(skip=skip, any_spaces=part.options.get(doctest.NORMALIZE_WHITESPACE, False))
        cases.append(whole_case(session, part.source, wanted_of(part), first + part.lineno + 1, marks, paragraphs(prose)))
        prose = []
    return cases, paragraphs(prose)


def paragraphs(parts: List[str]) -> str:
    return "\n\n".join(part for part in parts if part)


def read_doctest(path: str, text: str, session: Session) -> Suite:
    cases: List[Case] = []
    texts, after = [(text, 0)], ""
    if path.endswith(".py"):
        name = f"__import__('os').environ[{FOLDER!r}] + {os.sep + os.path.basename(path)!r}"
        run = f"import runpy; globals().update(runpy.run_path({name}, run_name='__doctest__'))"
        cases.append(own_case(session.name, run, None, 1, Marks(is_setup=True)))
        texts = sorted(docstrings(text), key=lambda pair: pair[1])
    for found, first in texts:
        more, after = examples(session.name, found, first, after)
        cases += more
    return Suite(path, dict([session]), Rules(), None, tuple(cases), after)


# ---- cram


def without_escapes(text: str) -> str:
    """What the escapes of cram's `(esc)` stand for, as tmhost prints it. Where they are none, the text."""
    try:
        found = text.encode("utf-8").decode("unicode_escape").encode("latin-1").decode("utf-8", "replace")
    except ValueError:
        return text
    return CONTROL.sub(lambda character: f"\\x{ord(character[0]):02x}", found)


def cram_line(line: str) -> str:
    """A line that cram wants, without its two blanks, by the patterns of a suite. Cram takes one that ends in `(esc)` as it is, too, and
    its globs have no brackets, but backslashes."""
    line = line[2:]
    if line.endswith(ESCAPED):
        return "|".join(exactly(text) for text in (line, without_escapes(line[: -len(ESCAPED)]))) + BY_PATTERN
    if line.endswith(BY_GLOB) and re.search(r"[\\[]", line):
        parts = re.findall(r"\\[*?\\]|.", line[: -len(BY_GLOB)])
        return "".join({"*": ".*", "?": "."}.get(part) or exactly(part[-1]) for part in parts) + BY_PATTERN
    return line


def cram_case(session: str, code: List[str], wanted: List[str], line: int, before: str) -> Case:
    """A command, whose output goes to a file, since cram's is no terminal, with its status where that isn't 0, as cram tells it."""
    field = Group(0, LINE_END.join(["tmhost_skips || {", "{", *code, f"}} >{CRAM_OUTPUT} 2>&1", "tmhost_tells $?", "}"]))
    return Case(session, Marks(skip_if=f"^{CRAM_SKIPS}$"), tuple(code), (field,), line, "\n".join(wanted).rstrip("\n"), before=before)


def cram_surroundings(session: str, path: str, last: int) -> Tuple[Case, Case]:
    """What cram does for each file: a folder of its own, and the variables that its manual names. They are taken away at the end. One that
    exits with 80 is skipped from there on."""
    name = os.path.basename(path)
    begin = [
        f"CRAMTMP=$(mktemp -d -t cramtests-XXXXXX) && mkdir \"$CRAMTMP\"/{shlex.quote(name)} && cd \"$CRAMTMP\"/{shlex.quote(name)}",
        "export CRAMTMP TMPDIR=\"$CRAMTMP\" LANG=C LC_ALL=C LANGUAGE=C TZ=GMT CDPATH= COLUMNS=80 GREP_OPTIONS= TESTSHELL=/bin/bash",
        f'export TESTDIR="${FOLDER}" TESTFILE={shlex.quote(name)}',
        f"tmhost_skips () {{ [ -n \"$tmhost_skip\" ] && echo '{CRAM_SKIPS}'; }}",
        f"tmhost_tells () {{ cat {CRAM_OUTPUT}; [ -z \"$(tail -c1 {CRAM_OUTPUT} | tr '\\0' x)\" ] || echo '{NO_END}'; [ $1 = 0 ] || echo \"[$1]\"; }}",
        # An expansion that fails ends the line of an interactive shell, and not the shell.
        f"exit () {{ [ \"${{1-}}\" = 80 ] && [ $BASH_SUBSHELL = 0 ] || builtin exit \"$@\"; tmhost_skip=1; echo '{CRAM_SKIPS}' >&199; : \"${{tmhost_none:?}}\"; }}",
    ]
    end = "cd / && rm -rf \"$CRAMTMP\""
    return (
        own_case(session, "\n".join(begin), "", 1, Marks(is_setup=True)),
        own_case(session, end, "", last, Marks(is_teardown=True)),
    )


def read_cram(path: str, text: str, session: Session) -> Suite:
    first, last = cram_surroundings(session.name, path, text.count("\n") + 1)
    cases: List[Case] = [first]
    code: List[str] = []
    wanted: List[str] = []
    prose: List[str] = []
    begin = 0
    for number, line in enumerate([*text.split("\n"), ""], 1):
        command, more = CRAM_CODE.fullmatch(line), CRAM_MORE.fullmatch(line)
        if more and code and not wanted:
            code.append(more[1])
        elif line.startswith("  ") and not command and code:
            wanted.append(cram_line(line))
        else:
            if code:
                cases.append(cram_case(session.name, code, wanted, begin, "\n".join(prose).strip("\n")))
                prose = []
            code, wanted, begin = ([command[1]], [], number) if command else ([], [], number)
            if not command:
                prose.append(line)
    cases.append(dataclasses.replace(last, before="\n".join(prose).strip("\n")))
    return Suite(path, dict([session]), Rules(), None, tuple(cases))


# ---- Jupyter


def text_in(value: Any) -> str:
    return value if isinstance(value, str) else "".join(value or [])


def output_of(output: Dict[str, Any], language: str, words: Sequence[str]) -> str:
    """An output as the adapters show it: a formula, or plain text; pictures are left out. Of an error its last line is wanted; kernels of other
    languages than Python's name it in their own words, in which it is what stands after the last colon."""
    kind = output.get("output_type")
    if kind == "stream":
        return text_in(output.get("text")).replace("\r\n", "\n").rstrip("\n")  # some kernels speak by a terminal
    if kind == "error":
        if language == "python":
            return f"{ANY_LINES}\n{output.get('ename')}: {output.get('evalue')}"
        said = str(output.get("evalue")).strip().split("\n")[-1].rpartition(": ")[2]
        return f"{ANY_LINES}\n.*{exactly(said)}{BY_PATTERN}\n{ANY_LINES}"
    data = output.get("data", {})
    formula = FORMULA.fullmatch(text_in(data.get("text/latex")))
    if formula:
        return formula_of(formula[2], words)
    return "" if any(name in data for name in PICTURE_TYPES) else text_in(data.get("text/plain")).rstrip("\n")


def cell_lines(source: str, language: str) -> List[str]:
    """The lines of a cell. Python's kernel keeps the value of the last one to itself where that ends in a semicolon."""
    lines = source.split("\n")
    return [*lines, "None"] if language == "python" and source.rstrip().endswith(";") else lines


def read_notebook(path: str, text: str, session: Session) -> Suite:
    """Each cell of code is a case of one field, which its first error ends, and its outputs as plain text are what is wanted. The number of its
    cell stands for a line. As for Jupyter, the interpreter is started in the notebook's folder."""
    try:
        notebook = json.loads(text)
        metadata = notebook.get("metadata", {})
        language = str(metadata.get("kernelspec", {}).get("language") or metadata.get("language_info", {}).get("name") or "python")
        is_plain = os.path.basename(session.words[0]) == PYTHON.words[0]
        cells, own = without_ipython(notebook["cells"]) if is_plain else (notebook["cells"], [])
        cases, after = notebook_cases(session, cells, language)
    except (ValueError, KeyError, AttributeError, TypeError):
        raise Trouble("it is no notebook of Jupyter") from None
    if language != "python" and session == PYTHON:
        raise Trouble(f"the notebook is in {language}: --words names the interpreter of its cells")
    raw = sum(text_in(cell.get("source")).count("\n") + 1 for cell in notebook["cells"] if cell.get("cell_type") == "raw")
    left_out = ((f"{lines_of(raw, 'raw cells')}, which are no Markdown",) if raw else ()) + ((lines_of(len(own), "IPython"),) if own else ())
    folder = os.path.dirname(os.path.abspath(path))
    return Suite(path, dict([session]), Rules(without=frozenset([PICTURES])), None, tuple(cases), after, left_out, said_of(path, own), folder)


def without_ipython(cells: List[Any]) -> Tuple[List[Any], List[Tuple[int, str]]]:
    """The cells without the lines that IPython alone knows, since to Python each is an error that takes all of its cell. These come too, each with the
    number of its cell."""
    plain: List[Any] = []
    left_out: List[Tuple[int, str]] = []
    for number, cell in enumerate(cells, 1):
        if cell.get("cell_type") == "code" and skipped(tags_of(cell)) is None:
            code = text_in(cell.get("source"))
            made = plain_python(code)
            lines, left = (code.strip("\n").split("\n"), "") if made.other else (made.left_out, made.code)
            left_out += [(number, readable(line)[:LONGEST_QUOTE]) for line in lines]
            cell = {**cell, "source": left}
        plain.append(cell)
    return plain, left_out


def tags_of(cell: Dict[str, Any]) -> Set[str]:
    """The tags of a cell, and those that nbval reads in its remarks."""
    words = NBVAL.findall(text_in(cell.get("source")))
    return {str(tag) for tag in cell.get("metadata", {}).get("tags", [])} | {word.lower().replace("_", "-") for word in words}


def skipped(tags: Set[str]) -> Optional[str]:
    """Why a cell with these tags is skipped."""
    return next((f"by its tag {tag}" for tag in SKIPPING if tag in tags), None)


def notebook_case(session: Session, cell: Dict[str, Any], language: str, number: int, before: str) -> Optional[Case]:
    """The case of a cell of code. None where it has none. Its tags say whether it is skipped, and whether its outputs may be others. Of one that was
    never run nothing is known of what is wanted."""
    source = text_in(cell.get("source"))
    fields = tuple(whole(cell_lines(source, language)))
    if not fields:
        return None
    tags = tags_of(cell)
    marks = Marks(skip=skipped(tags), tags=frozenset(tag for tag in tags if PLAIN_TAG.fullmatch(tag)))
    outputs = cell.get("outputs", [])
    is_free = not tags.isdisjoint(FREEING)
    was_run = outputs or cell.get("execution_count") is not None
    texts = (output_of(it, language, session.words) for it in outputs)
    wanted = ANY_LINES if is_free else "\n".join(part for part in texts if part) if was_run else None
    may_err = any(it.get("output_type") == "error" for it in outputs)
    return Case(session.name, marks, tuple(source.split("\n")), fields, number, wanted, "" if is_free and not may_err else None, before)


def notebook_cases(session: Session, cells: List[Dict[str, Any]], language: str) -> Tuple[List[Case], str]:
    """The cases, and the prose after them."""
    cases: List[Case] = []
    prose: List[str] = []
    for number, cell in enumerate(cells, 1):
        kind = cell.get("cell_type")
        found = notebook_case(session, cell, language, number, "\n\n".join(prose)) if kind == "code" else None
        if found:
            cases.append(found)
            prose = []
        elif kind == "markdown":
            prose.append(text_in(cell.get("source")).strip("\n"))
    return cases, "\n\n".join(prose)


Reader = Callable[[str, str, Session], Suite]
READERS: Dict[str, Tuple[Reader, Session]] = {
    ".t": (read_cram, SHELL),
    ".py": (read_doctest, PYTHON),
    ".rst": (read_doctest, PYTHON),
    ".txt": (read_doctest, PYTHON),
    ".ipynb": (read_notebook, PYTHON),
}
PROMPT = re.compile(r"^[ \t>]*>>> ", re.MULTILINE)


def reader_of(path: str, text: str, names_sessions: bool) -> Optional[Tuple[Reader, Session]]:
    """Who reads a file, and with which words where none are named. A Markdown text that names no sessions and has `>>>` is doctest's."""
    ending = os.path.splitext(path)[1]
    if pari_wanted(path) is not None:
        return read_pari, GP
    if ending == ".tst" and is_gap(text):
        return read_gap, GAP
    if ending in (".tst", ".m") and is_octave(text):
        return read_octave, OCTAVE
    if ending in READERS:
        return READERS[ending]
    return (read_doctest, PYTHON) if not names_sessions and PROMPT.search(text) else None


def read_other(path: str, text: str, names_sessions: bool, words: Optional[str]) -> Optional[Suite]:
    """A suite of another form than the text form. None where it is of that."""
    found = reader_of(path, text, names_sessions)
    if found is None:
        return None
    reader, session = found
    try:
        return reader(path, text, session_of(words) if words is not None else session)
    except SyntaxError as error:
        raise Trouble(f"line {error.lineno} is no Python: {error.msg}") from None
    except (ValueError, RecursionError) as error:
        raise Trouble(f"it can't be read: {error}") from None


# ---- the text form


def fenced(kind: str, lines: List[str]) -> List[str]:
    mark = "`" * max(3, 1 + max((len(run) for line in lines for run in re.findall("`+", line)), default=0))
    return [mark + kind, *lines, mark]


def marks_of(case: Case) -> str:
    """The words of a case that its reader can have found."""
    marks = case.marks
    reasons = (("skip", marks.skip), ("skip_if", marks.skip_if), ("xfail", marks.xfail), ("may_fail", marks.may_fail), ("tags", " ".join(sorted(marks.tags)) or None))
    flags = (("setup", marks.is_setup), ("teardown", marks.is_teardown), ("independent", marks.is_independent), ("spaces any", marks.any_spaces))
    words = [name for name, is_set in flags if is_set] + [f"{name} {said}".rstrip() for name, said in reasons if said is not None]
    return "".join(f" {{{word}}}" for word in words)


def case_text(case: Case, language: str) -> List[str]:
    code = list(case.lines)
    if len(case.fields) == 1:
        code = case.fields[0].input.split(LINE_END)
    is_whole = case.fields != tuple(groups(code, language))
    lines = fenced(case.session + marks_of(case) + (" {whole}" if is_whole else ""), code)
    for kind, text in (("answer", case.wanted), ("error", case.errors)):
        if text is not None:
            lines += ["", *fenced(kind, text.split("\n") if text else [])]
    return [*lines, ""]


def as_text(suite: Suite) -> Tuple[str, List[str]]:
    """The text form of a suite of another form, with its prose where that takes nothing from its cases, and what is to be said of what is left out."""
    rules = [*(["folder: ."] if suite.folder else []), *(["without: pictures"] if PICTURES in suite.rules.without else []), *(["spaces: any"] if suite.rules.any_spaces else []), *([f"columns: {suite.rules.columns}"] if suite.rules.columns else [])]
    front = ["---", "sessions:", *(f"  {name}: {json.dumps(list(words))}" for name, words in suite.sessions.items()), *rules, "---", ""]
    cases: List[List[str]] = [case_text(case, language_in(suite.sessions[case.session])) for case in suite.cases]
    as_it_is = [case.before for case in suite.cases] + [suite.after]
    prose = [marked(before, suite.sessions) for before in as_it_is]
    said = [f"{suite.path}: {what}, left out" for what in suite.left_out]
    if prose != as_it_is:
        said.append(f"{suite.path}: fences of its prose whose words look like {', '.join(suite.sessions)} have {{{LITERAL}}} now, which says that they are text")
    if not takes_no_case(front, prose, cases):
        # A fence of a case begins and ends at the top of the text, so what stands beyond the cases next to a prose doesn't hang on that.
        for at, before in enumerate(prose):
            first = max(0, at - 1)
            if not takes_no_case(front, ["", before, ""] if at else [before, ""], cases[first : at + 1]):
                place = f"{suite.path}:{suite.cases[at].line}: in front of this case" if at < len(cases) else f"{suite.path}: after the last case"
                said.append(f"{place} {lines_of(before.count(chr(10)) + 1, 'prose')}, left out, since with it the text would have other cases")
                prose[at] = ""
    return joined_text(front, prose, cases), said


def marked(prose: str, sessions: Dict[str, Tuple[str, ...]]) -> str:
    """A prose whose fences say that they are text where a suite would ask whether a case is meant."""
    if not prose:
        return prose
    lines = prose.split("\n")
    for block, _ in misspellings(blocks_of(lines), sessions):
        lines[block.begin] = f"{lines[block.begin].rstrip()} {{{LITERAL}}}"
    return "\n".join(lines)


def joined_text(front: List[str], prose: List[str], cases: List[List[str]]) -> str:
    """The text of these cases, each after its prose; the last prose stands after them all."""
    lines = list(front)
    for before, case in itertools.zip_longest(prose, cases, fillvalue=""):
        lines += [before, "", *case] if before else case
    return "\n".join(lines)


def takes_no_case(front: List[str], prose: List[str], cases: List[List[str]]) -> bool:
    """Whether the text of these cases has the same ones with this prose as without."""
    return not any(prose) or has_the_same_cases(joined_text(front, prose, cases), joined_text(front, [], cases))


def has_the_same_cases(text: str, other: str) -> bool:
    """Raises Missing, where nothing can be known of that."""
    try:
        one, two = (Text("", text).cases for text in (text, other))
    except Missing:
        raise
    except Trouble:
        return False
    return [dataclasses.replace(case, line=1) for case in one] == [dataclasses.replace(case, line=1) for case in two]
