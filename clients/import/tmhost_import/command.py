"""The command line of tmhost-import."""
import argparse
import os
import shlex
import signal
import sys

from tmhost.version import ShowVersion
from tmhost_fences.output import Parser, run_and_flush
from tmhost_fences.troubles import Trouble

from . import markdown, notebook, org, texmacs
from .cells import Document
from .fields import Sheet, reported
from .making import make, refuse_taken
from .sessions import LANGUAGES, given_session

LONGEST_DOCUMENT = 67_108_864  # bytes, as of the standard input of tmhost
MOST_KINDS = 10  # of what was left out, in a message
FORMATS = ("notebook", "org", "markdown", "texmacs")
CHUNKS = (".rmd", ".qmd")  # of texts in which code is in chunks, and other blocks are shown
SUFFIXES = {".ipynb": "notebook", ".org": "org", ".md": "markdown", ".markdown": "markdown", ".rmd": "markdown", ".qmd": "markdown", ".tm": "texmacs"}
LOST = (
    "nothing is made, since later code may need this: make shorter statements of it (of a class two, of which one inherits), or put it into a file "
    "that the cell loads; --lossy leaves it out"
)
NO_MARKDOWN = "the text of an Org file isn't: make Markdown of it first (pandoc --from org --to gfm)"
ABOUT = "Makes a new worksheet of tmhost from a Jupyter notebook, an Org file, a CommonMark text with fences or a document of TeXmacs."
NOTES = f"""
Each code cell or block becomes a field, whose lines have U+2028 between them; a fence of Markdown is read as tmhost-weave
reads it, and becomes a field for each of its statements. Nothing is evaluated. The text between them becomes fields of a
session `prose` whose only word is `true`, but with --no-prose. What is not to be evaluated (`eval=FALSE`, `#| eval: false`,
`active="md"`) is text.
Languages with an interpreter: {", ".join(LANGUAGES)}.
The program is the one that TMHOST names, tmhost on PATH, or the one that was built or installed with this. The status
is 0 where the worksheet is made, 1 where it isn't, which is reported, and 2 where the words are refused.
"""


def arguments(words: list[str]) -> argparse.Namespace:
    usage = "%(prog)s [OPTIONS] [DOCUMENT] NEW\n       %(prog)s [OPTIONS] --script [DOCUMENT]"
    parser = Parser("tmhost-import", usage, ABOUT, NOTES, formatter_class=argparse.RawDescriptionHelpFormatter)
    parser.add_argument("paths", nargs="*", metavar="DOCUMENT, NEW", help="what is read (- or nothing: standard input), and the new worksheet")
    parser.add_argument("--format", choices=FORMATS, help="what the document is, where its name doesn't say it")
    parser.add_argument("--session", action="append", default=[], metavar="NAME=WORDS", help="the words that start the session or the language NAME")
    parser.add_argument("--kernel", metavar="NAME", help="the kernel of a notebook, in place of the one that it names")
    split = parser.add_mutually_exclusive_group()
    split.add_argument("--split", action="store_true", default=None, help="a field for each line with those that go on from it, also of cells and of Org")
    split.add_argument("--whole", action="store_false", dest="split", help="a field for each fence, also of Markdown")
    parser.add_argument("--prose", action=argparse.BooleanOptionalAction, help="take the text of a notebook or of Markdown, too (that is the default)")
    parser.add_argument("--lossy", action="store_true", help="leave out code with a statement of more than 4,095 bytes; without it nothing is made then")
    parser.add_argument("--script", action="store_true", help="write the script in place of making a worksheet")
    parser.add_argument("--version", action=ShowVersion)
    given = parser.parse_intermixed_args(words)
    if not given.script and len(given.paths) == 1 and is_document(given.paths[0]):
        parser.error(f"name the new worksheet, too: tmhost-import {shlex.quote(given.paths[0])} NEW")
    if not (0 if given.script else 1) <= len(given.paths) <= (1 if given.script else 2):
        parser.error("with --script at most a DOCUMENT is wanted" if given.script else "a DOCUMENT and NEW are wanted, or NEW alone")
    try:
        given.session = dict(map(given_session, given.session))
    except Trouble as trouble:
        parser.error(str(trouble))
    return given


def format_by_name(path: str) -> str | None:
    return SUFFIXES.get(os.path.splitext(path)[1].lower())


def is_document(path: str) -> bool:
    """Whether it is named as a document is, and so hardly as a new worksheet."""
    return format_by_name(path) is not None


def read_bytes(path: str) -> bytes:
    try:
        with open(0 if path == "-" else path, "rb", closefd=path != "-") as file:
            data = file.read(LONGEST_DOCUMENT + 1)
    except OSError as error:
        raise Trouble(f"{'standard input' if path == '-' else ascii(path)} can't be read: {error.strerror}") from error
    if len(data) > LONGEST_DOCUMENT:
        raise Trouble(f"it has more than {LONGEST_DOCUMENT:,} bytes")
    return data


def text_of(data: bytes) -> str:
    try:
        return data.decode("utf-8").removeprefix("\ufeff")
    except UnicodeDecodeError as error:
        line = data.count(b"\n", 0, error.start) + 1
        raise Trouble(f"line {line}: it is no UTF-8 from its byte {error.start} on") from error


def format_of(path: str, text: str) -> str:
    """The format by the name, else by what it begins with."""
    found = format_by_name(path)
    if found is None and text.lstrip(" \t\r\n").startswith("{"):
        found = "notebook"
    if found is None:
        raise Trouble("its name doesn't say what it is: give --format")
    return found


def is_texmacs(given: argparse.Namespace, path: str) -> bool:
    """Its letters aren't UTF-8."""
    return (given.format or format_by_name(path)) == "texmacs"


def read(given: argparse.Namespace, path: str) -> Document:
    has_prose = given.prose is not False
    if is_texmacs(given, path):
        return texmacs.read(read_bytes(path), has_prose)
    text = text_of(read_bytes(path))
    chosen = given.format or format_of(path, text)
    if chosen == "notebook":
        return notebook.read(text, given.kernel, has_prose)
    if chosen == "markdown":
        return markdown.read(text, given.session, has_prose, os.path.splitext(path)[1].lower() in CHUNKS)
    if given.prose:
        raise Trouble(f"prose is Markdown, and {NO_MARKDOWN}")
    document = org.read(text)
    if has_prose:
        document.notes.append(f"its text is left out: {NO_MARKDOWN}")
    return document


def say_as(name: str, *lines: str) -> None:
    for line in lines:
        print(f"{name}: {line}", file=sys.stderr)


def say(*lines: str) -> None:
    say_as("tmhost-import", *lines)


def tell(document: Document, sheet: Sheet) -> None:
    """What of the document is no field, or is another one than it looks there."""
    kinds = [f"{kind}: {count}" for kind, count in sheet.left_out.items()]
    more = [f"{len(kinds) - MOST_KINDS} kinds more"] if len(kinds) > MOST_KINDS else []
    if kinds:
        say("left out: " + "; ".join(kinds[:MOST_KINDS] + more))
    say(*document.notes, *sheet.sessions.renamed(), *reported([*sheet.long, *(lost.reported("is left out") for lost in sheet.lost)]))
    if sheet.cuts:
        say(f"texts that are several fields of prose, cut at empty lines: {sheet.cuts}")
    if count := sheet.count_of_many_lines():
        say(f"fields of several lines, with U+2028 between them: {count}")


def write_bytes(data: bytes, what: str = "it") -> None:
    try:
        with open(1, "wb", closefd=False) as out:
            out.write(data)
    except BrokenPipeError:
        raise  # who reads it has gone
    except OSError as error:
        raise Trouble(f"{what} can't be written: {error.strerror}") from error


def write_script(sheet: Sheet) -> None:
    write_bytes("".join(line + "\n" for line in sheet.script()).encode("utf-8"), "the script")


def do(given: argparse.Namespace) -> None:
    *before, new = given.paths if not given.script else [*given.paths, ""]
    path = before[0] if before else "-"
    if not given.script:
        refuse_taken(new)
    document = read(given, path)
    sheet = Sheet(document, {**document.words, **given.session}, given.split, given.prose is not False)
    if sheet.lost and not given.lossy:
        raise Trouble(*reported([lost.reported("can't be taken") for lost in sheet.lost]), LOST)
    tell(document, sheet)
    if not sheet.fields:
        raise Trouble("there is nothing in it to make a field of")
    if given.script:
        write_script(sheet)
    else:
        make(new, sheet)


def end_by(number: int, _: object) -> None:
    """A signal ends the program as an error does, so that nothing is left."""
    sys.exit(128 + number)


def ran(words: list[str]) -> int:
    try:
        do(arguments(words))
    except Trouble as trouble:
        say(*trouble.lines)
        return 1
    except KeyboardInterrupt:
        return 130
    return 0


def main(words: list[str]) -> int:
    signal.signal(signal.SIGTERM, end_by)
    signal.signal(signal.SIGHUP, end_by)
    return run_and_flush("tmhost-import", ran, words)
