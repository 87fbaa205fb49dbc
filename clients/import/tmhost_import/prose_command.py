"""The command line of tmhost-prose."""
import argparse

from tmhost_fences.output import Parser, run_and_flush
from tmhost_fences.troubles import Trouble

from .command import read_bytes, say_as, write_bytes
from .exported import Made, with_prose
from .png import with_png
from .prose import is_prose

NAME = "tmhost-prose"
ABOUT = "Makes prose of the fields of prose in a notebook or a Markdown text that tmhost export wrote. All else stays byte for byte, but for --png."
NOTES = """
A field of prose has the session prose, or prose-2 and so on, and no answer: a cell of Markdown in a notebook, and
text without its fence in Markdown. What could take in what stands after it stays in its fence, which is reported.
The status is 0, 1 where nothing is written, which is reported, and 2 where the words are refused.
"""


def arguments(words: list[str]) -> argparse.Namespace:
    parser = Parser(NAME, None, ABOUT, NOTES, formatter_class=argparse.RawDescriptionHelpFormatter)
    parser.add_argument("path", nargs="?", default="-", metavar="EXPORT", help="what is read (- or nothing: standard input)")
    parser.add_argument("--prose", action="append", metavar="NAME", help="the session NAME is prose, and none that isn't named; may stand more than once")
    parser.add_argument("--png", action="store_true", help="make PNG of the SVG in a notebook, by rsvg-convert: of these Jupyter shows each")
    return parser.parse_args(words)


def as_png(made: Made) -> Made:
    """The same with pictures as PNG."""
    if not made.data.startswith(b"{"):
        raise Trouble("--png is for a notebook")
    drawn = with_png(made.data)
    left = [f"pictures that rsvg-convert didn't draw, and that are left out: {drawn.failed}"] if drawn.failed else []
    return Made(drawn.data, made.count, made.left + left)


def ran(words: list[str]) -> int:
    given = arguments(words)
    names: list[str] | None = given.prose
    try:
        made = with_prose(read_bytes(given.path), is_prose if names is None else names.__contains__)
        made = as_png(made) if given.png else made
        write_bytes(made.data)
    except Trouble as trouble:
        say_as(NAME, *trouble.lines)
        return 1
    except KeyboardInterrupt:
        return 130
    say_as(NAME, *made.left)
    return 0


def main(words: list[str]) -> int:
    return run_and_flush(NAME, ran, words)
