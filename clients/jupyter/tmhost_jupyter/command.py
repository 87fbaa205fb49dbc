"""The words of the command."""
import argparse
import os
import sys
from typing import List

from tmhost import TmhostError, find_program
from tmhost.advice import advised
from tmhost_fences.output import Parser, run_and_flush

from .installing import BadWords, install
from .languages import LANGUAGES
from .sheet import Given

NAME, STARTS = "tmhost-jupyter-kernel", "start"
BAD_WORDS, FAILED = 2, 1
WANTS = "{python} has no Jupyter ({error}): install Debian's package python3-ipykernel, or start this by the python3 that has it, as `/path/python3 {command}`"


def options() -> Parser:
    parser = Parser(
        prog=NAME,
        description="Lets front ends of Jupyter evaluate into worksheets of tmhost: each cell is a field, and its answer is on the disk before it is shown.",
        epilog="`jupyter kernelspec list` shows the kernels, and `jupyter kernelspec remove NAME` takes one away.")
    commands = parser.add_subparsers(dest="command", required=True, metavar="install | start")
    one = commands.add_parser(
        "install", help="make a kernel that Jupyter finds",
        description="Makes a kernel for an interpreter, whose worksheets stand beside the notebooks, or with --sheet for a session of one worksheet.",
        epilog="Languages, for which the words are known: " + ", ".join(LANGUAGES) + ". The program is the one that TMHOST names, tmhost on PATH, or the one that was built or installed with this.")
    one.add_argument("--sheet", default="", metavar="SHEET", help="the worksheet")
    one.add_argument("--session", default="", metavar="NAME", help="the session's name; by itself the language, or the worksheet's only one")
    one.add_argument("--name", default="", help="the kernel's name")
    one.add_argument("--title", default="", help="what front ends show")
    one.add_argument("--tab", action="store_true", help="the interpreter answers completions")
    one.add_argument("--prefix", default="", metavar="FOLDER", help="where to install, by itself for this user alone")
    one.add_argument("words", nargs=argparse.REMAINDER, metavar="LANGUAGE | WORDS", help="one of the languages, or what starts an interpreter")
    start = commands.add_parser(STARTS, help="what Jupyter starts the kernel by")
    start.add_argument("-f", dest="connection", required=True, metavar="FILE")
    start.add_argument("--name", required=True)
    start.add_argument("--session", required=True)
    start.add_argument("--sheet", default="")
    start.add_argument("--tab", action="store_true")
    start.add_argument("words", nargs="*")
    return parser


def start(given: argparse.Namespace) -> None:
    from ipykernel.kernelapp import IPKernelApp

    from .kernel import WorksheetKernel

    WorksheetKernel.given = Given(given.name, given.session, tuple(given.words), given.tab, given.sheet)
    IPKernelApp.launch_instance(argv=["-f", given.connection], kernel_class=WorksheetKernel)


def ran(words: List[str]) -> int:
    given = options().parse_args(words)
    try:
        if given.command == STARTS:
            start(given)
        else:
            print(install(given, find_program()))
    except ImportError as error:
        return failed(WANTS.format(error=error, python=sys.executable, command=sys.argv[0]), FAILED)
    except BadWords as error:
        return failed(str(error), BAD_WORDS)
    except (TmhostError, OSError) as error:
        return failed(advised(error, getattr(given, "sheet", None) or ""), FAILED)
    return 0


def main(words: List[str]) -> int:
    """Where a kernel is started, IPython has standard output for itself."""
    return ran(words) if words[:1] == [STARTS] else run_and_flush(NAME, ran, words)


def failed(why: str, status: int) -> int:
    print(f"{os.path.basename(sys.argv[0])}: {why}", file=sys.stderr)
    return status
