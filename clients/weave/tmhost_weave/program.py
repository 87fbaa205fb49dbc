"""The command line of tmhost-weave."""
import argparse
import os
import re
import sys
import tempfile
from typing import List, Optional

from tmhost import TmhostError
from tmhost.errors import plain
from tmhost.program import show_building
from tmhost.version import ShowVersion
from tmhost_fences.output import Parser, run_and_flush
from tmhost_fences.troubles import Trouble

from .cutting import LONGEST
from .files import Changed, locked
from .places import fix_program, within
from .targets import why_shared, why_unclear
from .watching import Watched, watch
from .weaving import Weave

ABOUT = "Evaluates the code in a CommonMark text, and puts each answer after its fence."
NOTES = """
With --html a page of the woven text is written, too, which stands alone: prose, code, answers, pictures, formulas, title and authors of the front matter.
Nothing is evaluated for it a second time. It is written only where each field has an answer and nothing looks misspelt or fails; a picture or formulas may be missing in it.
It has no code of fences with echo=FALSE or include=FALSE.
Several texts are woven in turn: the status is that of the worst, and the last line names those that failed.
With --all nothing is kept: each field is evaluated again, as by a first weave, which is wanted where a file has changed that the code reads.
With --watch the interpreters of a text run on between its weaves: what is added at the end of a session is evaluated alone. Where something is changed that
was evaluated, its session is started again, as by any weave. The worksheet stays open meanwhile. Control-C ends it, with the status 0 where it waits.
The front matter of TEXT names the sessions, as `sessions: {py: [tmhost-python]}`. After the session of a fence may
stand {whole}, {pure}, {ends}, {hide} and {fold}, or {literal} where its code is a text; `fences: whole` in the front matter makes each fence one field.
The answers are kept in the worksheet beside TEXT, whose name ends in .sheet. The program is the one that TMHOST names, tmhost on PATH, or the one
that was built or installed with this.

The status is 0 where all fields are answered, 1 where one isn't, where a fence is of no session that looks like one (`{r}`, r {hide}, python beside
the session py), where a word of a fence looks misspelt, where sessions are named and nothing is evaluated, where --check says that something would
change or --test that an answer is another one, where code with {ends} doesn't end its interpreter, or where something went wrong; 2 where the words are refused, and 130 after Control-C. An answer may
be an error that its interpreter reports: standard error says how many are, and in which lines their code stands. With --no-errors the status is 1
then, but for code with error=TRUE in braces; it is for code with error=FALSE without that word, too. The text is woven in any case. So it is with a
formula of a page that can't be set and stays as its TeX: its line is said, and with --no-errors the status is 1. It is 1 where a text has bytes that
are no UTF-8, too: they stay, and no page is written.
"""
INTERRUPTED = 130
NUMBER = re.compile("[1-9][0-9]{0,11}")


def seconds(word: str) -> float:
    value = float(word)
    if not 0 < value <= 1_000_000:
        raise ValueError
    return value


def bytes_shown(word: str) -> int:
    if not NUMBER.fullmatch(word):
        raise argparse.ArgumentTypeError(f"{word!r} is no number of bytes")
    return int(word)


def arguments(words: List[str]) -> argparse.Namespace:
    parser = Parser("tmhost-weave", None, ABOUT, NOTES, formatter_class=argparse.RawDescriptionHelpFormatter)
    parser.add_argument("texts", metavar="TEXT", nargs="+")
    what = parser.add_mutually_exclusive_group()
    what.add_argument("--check", action="store_true", help="evaluate nothing, write nothing, and say what would change")
    what.add_argument("--test", action="store_true", help="evaluate all again, write nothing, and show which answers of TEXT are others now, as for a CI")
    what.add_argument("--watch", action="store_true", help="stay, and weave again whenever TEXT is saved, until Control-C; interpreters go on meanwhile")
    parser.add_argument("--all", action="store_true", help="keep no answer, and evaluate all again, as a first weave does")
    parser.add_argument("--output", metavar="FILE", help="where the woven text goes, in place of TEXT (-: standard output)")
    parser.add_argument("--html", metavar="FILE", help="where a page of TEXT goes, which stands alone: a name that ends in .html, or a folder (FOLDER/, where a new one has a dot in its name)")
    parser.add_argument("--seconds", type=seconds, metavar="N", help="how long a field may take (no limit)")
    parser.add_argument(
        "--longest", type=bytes_shown, default=LONGEST, metavar="BYTES", help=f"how much of an answer's text is shown; the worksheet has it whole ({LONGEST:,})"
    )
    parser.add_argument("--no-errors", action="store_true", help="the status is 1 where an answer is an error that isn't wanted (error=TRUE), or a formula of a page can't be set")
    parser.add_argument("--version", action=ShowVersion)
    given = parser.parse_args(words)
    if given.test and given.output is not None:
        parser.error("--test writes nothing, so there is no --output for it")
    if given.all and (given.check or given.test):
        parser.error("--check evaluates nothing, and --test all in any case, so there is no --all for them")
    if given.html is not None and (given.check or given.test):
        parser.error("--check and --test write nothing, so there is no --html for them")
    if given.output is not None and len(given.texts) > 1:
        parser.error("--output is the place of one text, and several are given")
    if given.watch and given.output == "-":
        parser.error("--watch weaves again and again, so its --output is a file")
    why = (None if given.html is None else why_unclear(given.html, given.texts)) or (None if given.test else why_shared(given.texts))
    if why:
        parser.error(why)
    return given


def run(given: argparse.Namespace, text: str, watched: Optional[Watched]) -> bool:
    if given.test:
        with tempfile.TemporaryDirectory(prefix="tmhost-weave-") as folder:
            weave = Weave(text, None, folder, no_errors=given.no_errors, longest=given.longest)
            with within(weave.start):
                return weave.test(given.seconds)
    with locked(os.path.realpath(text)):
        weave = Weave(text, given.output, no_errors=given.no_errors, longest=given.longest, page=given.html, texts=given.texts, watched=watched, renews=given.all)
        with within(weave.start):
            return weave.check() if given.check else weave.weave(given.seconds)


def has_succeeded(given: argparse.Namespace, text: str, watched: Optional[Watched] = None) -> bool:
    try:
        return run(given, text, watched)
    except Changed as changed:
        print(f"{text}: {'it was saved meanwhile, and is woven again' if watched else changed}", file=sys.stderr)
        return False
    except BrokenPipeError:
        raise  # who reads what is printed has gone, so nothing more is
    except (Trouble, TmhostError, OSError) as trouble:
        print(f"{text}: {plain(trouble)}", file=sys.stderr)
        return False


def summary(texts: List[str], failed: List[str]) -> str:
    return f"{len(texts)} texts, {len(failed) or 'none'} failed" + (f": {', '.join(failed)}" if failed else "")


def main(words: List[str]) -> int:
    given = arguments(words)
    try:
        fix_program()
        show_building()
        if given.watch:
            watch(given.texts, lambda watched: has_succeeded(given, watched.text, watched))
            return 0
        failed = [text for text in given.texts if not has_succeeded(given, text)]
    except KeyboardInterrupt:
        return INTERRUPTED
    if len(given.texts) > 1:
        print(f"tmhost-weave: {summary(given.texts, failed)}", file=sys.stderr)
    return 1 if failed else 0


def status_of(words: List[str]) -> int:
    """The status of a call. One whose output can't be written hasn't succeeded."""
    return run_and_flush("tmhost-weave", main, words)
