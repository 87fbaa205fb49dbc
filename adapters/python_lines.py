"""Evaluates lines of Python for the adapter `python`, which starts it as a process of its own.

    python_lines.py COMMANDS VALUE [pictures]

From the descriptor COMMANDS it reads for each line whether it is to be evaluated or completed, how long it is, a name, and the line. What
the line prints goes to the standard output as it is; its errors, its pictures and its value, or the word at its end and the names that may stand
there, each with its kind and length before it, to the file VALUE. Then it writes the name, and the line is done.
"""
import ast
import builtins
import contextlib
import io
import linecache
import os
import re
import signal
import sys
import tokenize
import traceback
import types
import warnings
import zlib
from typing import Any, BinaryIO, Callable, Dict, List, NoReturn, Optional, Tuple, Type, TypeVar, Union

import python_names
import tmhost_figures

LONGEST = 8_000_000  # bytes of a value
LONGEST_ERROR = 100_000  # bytes of an error
NAMED = re.compile(r"<input [0-9a-f]{8}>")  # a line, as Python knows it
INPUT, EARLIER = "<input>", "<earlier input>"  # in an error that a line gives: itself, and one before it
NO_CODE = (tokenize.COMMENT, tokenize.NL, tokenize.NEWLINE, tokenize.INDENT, tokenize.DEDENT, tokenize.ENDMARKER)
FORMULA = re.compile(r"\s*(\${1,2})([^$]+)\1\s*")

Result = TypeVar("Result")
Shown = Tuple[str, bytes]  # "text", "latex", "picture" or "error", and what it is


class Lines:
    """The lines of one session. Their names are those of the module `__main__`, as at Python's own prompt."""

    def __init__(self) -> None:
        module = types.ModuleType("__main__")
        sys.modules["__main__"] = module
        self.names: Dict[str, Any] = module.__dict__
        self.names["__builtins__"] = builtins
        self.name = ""  # of the line that runs
        self.is_at_a_line = False
        self.errors: List[Shown] = []
        self.own = os.getpid()
        signal.signal(signal.SIGINT, self.interrupted)
        own_warning = warnings.formatwarning

        def warning(message: Union[Warning, str], category: Type[Warning], filename: str, lineno: int, line: Optional[str] = None) -> str:
            """A warning as Python prints it, which names lines as their readers know them."""
            code = linecache.getline(filename, lineno) if line is None else line
            return own_warning(message, category, shown_name(filename, self.name), lineno, code)

        warnings.formatwarning = warning

    def interrupted(self, number: int, frame: Optional[types.FrameType]) -> None:
        """SIGINT ends the line that runs, and nothing else."""
        if self.is_at_a_line:
            raise KeyboardInterrupt

    def value_of(self, text: str) -> Any:
        """Runs the statements, and gives the value of the last one where it is an expression that no semicolon follows."""
        self.name = name = name_of(text)
        linecache.cache[name] = (len(text), None, (text + "\n").splitlines(True), name)
        tree = ast.parse(text, name)
        last = tree.body.pop() if tree.body and isinstance(tree.body[-1], ast.Expr) else None
        exec(compile(tree, name, "exec"), self.names)
        value = eval(compile(ast.Expression(last.value), name, "eval"), self.names) if isinstance(last, ast.Expr) else None
        return None if is_silent(text) else value

    def evaluated(self, text: str) -> List[Shown]:
        """The errors of a line, an exit() among them, its pictures, and its value."""
        sys.stdin = open(os.devnull, encoding="utf-8")  # exit() closes it
        self.errors = []
        value = self.tried(lambda: shown_of(self.value_of(text)))
        self.tried(tmhost_figures.draw_what_is_left)
        return [*self.errors, *(("picture", data) for data in tmhost_figures.taken()), *(value or [])]

    def completed(self, text: str) -> List[Shown]:
        """The word at the end of a text, and the names that may stand there."""
        root, names = python_names.completed(text, self.names)
        return [("root", as_bytes(root)), ("names", as_bytes(names))]

    def tried(self, work: Callable[[], Result]) -> Optional[Result]:
        """What some work gives; None where it ends by an error, or by an interrupt."""
        with contextlib.suppress(KeyboardInterrupt):  # one that comes while an error is reported
            try:
                self.is_at_a_line = True
                result = work()
                self.is_at_a_line = False
                return result
            except BaseException as error:
                self.is_at_a_line = False
                self.tell(text_of(error, self.name))
        return None

    def tell(self, error: str) -> None:
        """An error; that of a process that the line has forked is printed."""
        if os.getpid() == self.own:
            self.errors.append(("error", as_bytes(error, LONGEST_ERROR).rstrip(b"\n")))
        else:
            print(error, end="", file=sys.stderr)


def is_silent(text: str) -> bool:
    """Whether code ends in a semicolon, after which remarks may stand: its value isn't shown then, as in IPython."""
    with contextlib.suppress(tokenize.TokenError, SyntaxError):
        words = [one.string for one in tokenize.generate_tokens(io.StringIO(text).readline) if one.type not in NO_CODE] if ";" in text else []
        return words[-1:] == [";"]
    return False


def shown_of(value: Any) -> List[Shown]:
    """A value as its formula, its picture or its text."""
    if value is None:
        return []
    setattr(builtins, "_", value)
    if sys.displayhook is not sys.__displayhook__:
        sys.displayhook(value)
        return []
    formula = getattr(value, "_repr_latex_", lambda: None)()
    if isinstance(formula, str) and (found := FORMULA.fullmatch(formula)):
        return [("latex", as_bytes("$" + " ".join(found[2].split()) + "$"))]
    picture = tmhost_figures.picture_of(value)
    return [("picture", picture)] if picture else [("text", as_bytes(repr(value)))]


def name_of(text: str) -> str:
    """The file as which Python knows a line. It depends on the text alone, and not on how many lines were before it, so that a worksheet's answers stay the
    same where a line is put in; and lines of other texts have other names, so that a traceback shows the right one."""
    return f"<input {zlib.crc32(text.encode('utf-8', 'backslashreplace')):08x}>"


def shown_name(name: str, running: str) -> str:
    return INPUT if name == running else EARLIER if NAMED.fullmatch(name) else name


def clean(reported: traceback.TracebackException, running: str) -> None:
    """Leaves out the adapter's own frames, of the errors after an error, too, and names lines as their readers know them."""
    reported.stack[:] = [frame for frame in reported.stack if frame.filename not in (__file__, tmhost_figures.__file__)]
    for frame in reported.stack:
        frame.filename = shown_name(frame.filename, running)
    of_parser = getattr(reported, "filename", None)
    if isinstance(of_parser, str):
        reported.filename = shown_name(of_parser, running)
    for after in (reported.__cause__, reported.__context__, *(getattr(reported, "exceptions", None) or ())):
        if after:
            clean(after, running)


def text_of(error: BaseException, running: str) -> str:
    is_of_parser = isinstance(error, SyntaxError) and bool(NAMED.fullmatch(error.filename or ""))
    reported = traceback.TracebackException(type(error), error, None if is_of_parser else error.__traceback__)
    clean(reported, running)
    return "".join(reported.format())


def as_bytes(text: str, longest: int = LONGEST) -> bytes:
    data = text.encode("utf-8", "backslashreplace")
    return data if len(data) <= longest else data[:longest] + b"\n[%d bytes more]" % (len(data) - longest)


def flush() -> None:
    for stream in (sys.stdout, sys.stderr):
        with contextlib.suppress(Exception):  # a line may have closed it, or set another one
            stream.flush()


def write_at(file: int, data: bytes, at: int) -> int:
    """Writes all of the data to a place of the file, and tells how much that was."""
    done = 0
    while done < len(data):
        done += os.pwrite(file, data[done:], at + done)
    return done


def serve(commands: BinaryIO, value_file: int) -> NoReturn:
    lines, own, output = Lines(), os.getpid(), os.dup(1)
    wishes: Dict[bytes, Callable[[str], List[Shown]]] = {b"evaluate": lines.evaluated, b"complete": lines.completed}
    while True:
        wish, length, name = commands.readline().split()
        text = commands.read(int(length)).decode("utf-8", "surrogateescape")
        for descriptor in (1, 2):  # a line may have closed them
            os.dup2(output, descriptor)
        shown = wishes[wish](text)
        if os.getpid() != own:
            os._exit(0)  # a process that the line has forked
        flush()
        os.ftruncate(value_file, 0)
        at = 0
        for kind, data in shown:
            at += write_at(value_file, b"%b %d\n" % (kind.encode(), len(data)) + data, at)
        os.write(output, name)


if __name__ == "__main__":
    sys.path[0] = ""
    commands, value_file = open(int(sys.argv[1]), "rb"), int(sys.argv[2])
    for descriptor in (commands.fileno(), value_file):
        os.set_inheritable(descriptor, False)
    if sys.argv[3:]:
        tmhost_figures.begin()
    sys.argv = [""]
    serve(commands, value_file)
