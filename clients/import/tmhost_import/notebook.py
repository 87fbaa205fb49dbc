"""The code cells of a Jupyter notebook (nbformat 4)."""
import collections
import importlib
import json
import re
import warnings

from tmhost_fences.info import is_evaluated
from tmhost_fences.troubles import Trouble

from .cells import Cell, Document, code_text, fenced, plain, prose_cell, shown
from .sessions import NAME

VERSION = 4
LONGEST_REASON = 300  # characters of what nbformat says
DEEP = "its parts are nested too deep"
SWITCHED_OFF = "cells that aren't to be evaluated"

Object = dict[str, object]
Path = tuple[str | int, ...]


class Doubled(dict[str, object]):
    """An object of which a key stands twice."""

    key: str


def with_keys(pairs: list[tuple[str, object]]) -> Object:
    made = dict(pairs)
    if len(made) == len(pairs):
        return made
    doubled = Doubled(made)
    doubled.key = collections.Counter(key for key, _ in pairs).most_common(1)[0][0]
    return doubled


def refuse_constant(name: str) -> object:
    raise Trouble(f"no notebook: {name} is no JSON")


def parsed(text: str) -> object:
    """The value of a JSON text."""
    try:
        return json.loads(text, object_pairs_hook=with_keys, parse_constant=refuse_constant)
    except json.JSONDecodeError as error:
        raise Trouble(f"no notebook: line {error.lineno}, column {error.colno}: no JSON: {error.msg}") from error
    except RecursionError as error:
        raise Trouble(f"no notebook: {DEEP}") from error
    except ValueError as error:  # of Python's own limit
        raise Trouble("no notebook: a number in it has too many digits") from error


def parts_of(value: object) -> list[tuple[str | int, object]]:
    """The members of an object or an array, each with its key or its place."""
    if isinstance(value, dict):
        return list(value.items())
    return list(enumerate(value)) if isinstance(value, list) else []


def place_text(path: Path) -> str:
    """A place in a notebook; cells are counted from 1."""
    if path[:1] == ("cells",) and isinstance(path[-1], int):
        return f"cell {path[-1] + 1}"
    return f"its {shown(str(path[0]))}" if path else "its outermost object"


def refuse_doubled(notebook: object) -> None:
    """Refuses a notebook in which an object has a key twice: readers differ in which of the two counts."""
    left: list[tuple[Path, object]] = [((), notebook)]
    while left:
        path, value = left.pop()
        if isinstance(value, Doubled):
            raise Trouble(f"{place_text(path)}: the key {shown(value.key)} stands twice in an object")
        left += [((*path, key)[:2], part) for key, part in parts_of(value)]


def checked_notebook(value: object) -> Object:
    """The notebook, whose version and outermost parts are as they should be."""
    if not isinstance(value, dict) or "nbformat" not in value:
        raise Trouble("no notebook: it is no object with a member nbformat")
    version = value["nbformat"]
    if type(version) is not int or version != VERSION:
        raise Trouble(f"its nbformat is {shown(str(version))}, not {VERSION} (`jupyter nbconvert --to notebook` makes one of {VERSION})")
    refuse_doubled(value)
    if type(value.get("nbformat_minor")) is not int or not isinstance(value.get("cells"), list):
        raise Trouble("no notebook: its nbformat_minor is no number, or its cells are no array")
    return value


def reason_text(message: str) -> str:
    """What nbformat says, on one line; it counts cells from 0."""
    line = re.sub(r"\bdata\.cells\[(\d{1,9})\]", lambda found: f"cell {int(found[1]) + 1}", message.split("\n")[0])
    return ascii(line)[1:-1][:LONGEST_REASON]


def refuse_invalid(notebook: Object) -> None:
    """Refuses what nbformat finds invalid, where nbformat is here. What a field is made of was looked at before: the rest, as outputs, isn't taken."""
    try:
        nbformat = importlib.import_module("nbformat")
    except ImportError:
        return
    try:
        with warnings.catch_warnings():
            warnings.simplefilter("ignore")  # cells without an id
            nbformat.validate(notebook)
    except nbformat.ValidationError as error:
        raise Trouble(f"no valid notebook: {reason_text(str(error.message))}") from error
    except RecursionError as error:
        raise Trouble(f"no notebook: {DEEP}") from error


def text_at(value: object, *path: str) -> str | None:
    """The text after these keys, where there is one."""
    for key in path:
        value = value.get(key) if isinstance(value, dict) else None
    return value if isinstance(value, str) and value else None


class Kernel:
    """What a notebook says of the interpreter of its cells."""

    def __init__(self, notebook: Object, named: str | None) -> None:
        about = notebook.get("metadata")
        name = named or text_at(about, "kernelspec", "name")
        # Where the two differ, as of Sage, whose syntax is coloured as Python's, the kernel knows better which language it takes.
        language = named or text_at(about, "kernelspec", "language") or text_at(about, "language_info", "name")
        self.name = name or language
        self.hints = tuple(hint for hint in (language or name,) if hint)


def own_session(cell: Object, place: str) -> str | None:
    """The session that the notebooks of `tmhost export` name in a cell's metadata."""
    about = cell.get("metadata")
    own = about.get("tmhost") if isinstance(about, dict) else None
    if own is None:
        return None
    name = own.get("session") if isinstance(own, dict) else None
    if not isinstance(name, str) or not NAME.fullmatch(name):
        raise Trouble(f"{place}: in its metadata tmhost.session is {shown(str(name))}, which no session can be named")
    return name


def source_of(cell: Object, place: str) -> str:
    source = cell.get("source")
    lines = source if isinstance(source, list) else [source]
    texts = [line for line in lines if isinstance(line, str)]
    if len(texts) < len(lines):
        raise Trouble(f"{place}: its source is no text")
    return "".join(texts)


def code_cell(cell: Object, place: str, kernel: Kernel) -> Cell:
    source, own = source_of(cell, place), own_session(cell, place)
    text = code_text(source) if own is None else source  # an input of tmhost's may end in ends of lines
    if own is None and kernel.name is None:
        raise Trouble(f"{place}: neither it nor the notebook names a kernel: give one by --kernel NAME")
    session, hints = (own, (own,)) if own else (kernel.name, kernel.hints)
    return Cell(place, text, session, hints, False, "code cells", is_answered=bool(cell.get("outputs")), is_own=own is not None)


def is_switched_off(cell: Object, code: Cell) -> bool:
    """Whether its author wants a cell shown and not evaluated, as Quarto and jupytext write it."""
    active = text_at(cell.get("metadata"), "active")
    return not code.is_own and not is_evaluated({"active": active} if active else {}, code.text.split("\n"))


def markdown_cell(cell: Object, place: str, document: Document) -> Cell:
    """A cell of prose. What is attached to it isn't taken."""
    source, own = source_of(cell, place), own_session(cell, place)
    attached = cell.get("attachments")
    if isinstance(attached, dict) and attached:
        document.left_out["attachments of markdown cells"] += len(attached)
    return prose_cell(place, code_text(source) if own is None else source, own)


def read(text: str, kernel: str | None, has_prose: bool = False) -> Document:
    """The cells of a notebook; those that name no session of tmhost's have the one of its kernel, or of the one that is given."""
    notebook = checked_notebook(parsed(text))
    found, document = Kernel(notebook, kernel), Document()
    for number, (_, cell) in enumerate(parts_of(notebook["cells"]), 1):
        kind = cell.get("cell_type") if isinstance(cell, dict) else None
        if not isinstance(cell, dict) or not isinstance(kind, str) or not isinstance(cell.get("id", ""), str):
            raise Trouble(f"cell {number}: it is no object with a text cell_type, or its id is no text")
        if kind == "code":
            code = code_cell(cell, f"cell {number}", found)
            if not is_switched_off(cell, code):
                document.cells.append(code)
            elif has_prose:
                document.cells.append(prose_cell(code.place, fenced(code.text, "".join(code.hints[:1]))))
            else:
                document.left_out[SWITCHED_OFF] += 1
        elif kind == "markdown" and has_prose:
            document.cells.append(markdown_cell(cell, f"cell {number}", document))
        else:
            document.left_out[f"{plain(kind)} cells"] += 1
    refuse_invalid(notebook)
    return document
