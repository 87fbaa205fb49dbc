"""What the tests share: a client that talks as TeXmacs does, and worksheets in a folder of their own.

TeXmacs starts the program of a session without a shell, in a group of processes of its own, writes a line, and waits for one outer block. It shows what has
come of it as it comes, and does its commands. An interrupt is SIGINT to the group, and what comes of that line later is dropped. `talk.txt` is a talk
that was recorded from GNU TeXmacs 2.1.4.
"""
import os
import re
import select
import shutil
import signal
import subprocess
import sys
import tempfile
import time
import unittest
from typing import Dict, List, NamedTuple, Optional, Tuple

HERE = os.path.dirname(os.path.realpath(__file__))
ROOT = os.path.dirname(os.path.dirname(os.path.dirname(HERE)))
COMMAND = os.path.join(os.path.dirname(HERE), "tmhost-texmacs")
INTERPRETER = [sys.executable, os.path.join(ROOT, "clients/repl/tests/interpreter.py")]
SECONDS = 120.0  # in which everything comes, beside other work too
sys.path[:0] = [*(os.path.join(ROOT, "clients", name) for name in ("", "python", "notebook", "fences")), os.path.dirname(HERE)]

from tested import PROGRAM as PROGRAM, WHY as WHY, fields_of as fields_of  # noqa: E402
from tmhost import Field, Worksheet as Worksheet  # noqa: E402
from tmhost_texmacs import scheme  # noqa: E402


class Reported(NamedTuple):
    """What an answer, or a part of one, shows: its text, the commands in it, and the prompt."""

    text: str
    commands: List[scheme.Form]
    prompt: str

    @property
    def id(self) -> str:
        """The field that the document has for the line."""
        return next((str(one[2]) for one in self.commands if isinstance(one, list) and one[0] == "tmhost-accepted"), "")

    @property
    def mark(self) -> str:
        return next((str(one[3]) for one in self.commands if isinstance(one, list) and one[0] == "tmhost-accepted"), "")


def read_blocks(data: bytes) -> Reported:
    """What TeXmacs takes of these bytes, of which the last block may be unfinished."""
    texts: List[str] = [""]
    tags: List[str] = []
    commands: List[scheme.Form] = []
    prompt = ""
    for found in re.finditer(rb"\x02([^\x02\x05:#]*[:#])|(\x05)|\x1b?([^\x02]|(?<=\x1b)\x02)", data, re.DOTALL):
        if found[1] is not None:
            tags.append(found[1].decode())
            texts.append("")
        elif found[2] is not None:
            text, tag = texts.pop(), tags.pop()
            if tag == "command:":
                commands.append(scheme.read(text))
            elif tag == "prompt#":
                prompt = text
            else:
                texts[-1] += text if tag in ("utf8:", "verbatim:") else "{" + tag + text + "}"
        else:
            texts[-1] += found[3].decode("latin-1")
    return Reported("".join(texts).encode("latin-1").decode("utf-8", "replace"), commands, prompt)


class TeXmacs:
    """A session in TeXmacs."""

    def __init__(self, folder: str, sheet: str, session: str, document: str, is_another: bool = False) -> None:
        environment = {
            **os.environ, "TMHOST": PROGRAM, "HOME": folder, "XDG_RUNTIME_DIR": "", "TMHOST_TEXMACS_SESSION": session, "TMHOST_TEXMACS_WORKSHEET": sheet,
            "TMHOST_TEXMACS_DOCUMENT": document}
        words = [sys.executable, "-B", COMMAND]
        if is_another:  # its parent is another process
            words = ["sh", "-c", 'trap "" INT; "$@"; :', "sh", *words]
        self.process = subprocess.Popen(words, stdin=subprocess.PIPE, stdout=subprocess.PIPE, env=environment, start_new_session=True)
        self.document, self.data = document, b""
        self.banner = self.answer()

    def send(self, line: str) -> None:
        """As `plugin-write` does."""
        assert self.process.stdin
        self.process.stdin.write(line.encode() + b"\n")
        self.process.stdin.flush()

    def evaluate(self, input: str, id: str = "", before: str = "", after: str = "", shown: Tuple[Tuple[str, str, str], ...] = ()) -> Reported:
        self.begin(input, id, before, after, shown)
        return self.answer()

    def begin(self, input: str, id: str = "", before: str = "", after: str = "", shown: Tuple[Tuple[str, str, str], ...] = ()) -> None:
        self.data = b""
        form: List[scheme.Form] = [scheme.Name("evaluate"), input.replace("\n", "\u2028"), id, before, after, self.document]
        form += [list(one) for one in shown]
        self.send("\x10" + scheme.written(form))

    def asks(self, request: str) -> Reported:
        self.data = b""
        self.send("\x10" + request)
        return self.answer()

    def completes(self, text: str) -> str:
        return self.asks(scheme.written([scheme.Name("complete"), text, scheme.Name(str(len(text.encode())))])).text

    def is_whole(self) -> bool:
        plain = re.sub(rb"\x1b.", b"", self.data, flags=re.DOTALL)
        return bool(plain) and plain.count(b"\x02") == plain.count(b"\x05")

    def hear(self, seconds: float = SECONDS) -> bool:
        """Takes a piece; false where the session has ended, or nothing comes."""
        assert self.process.stdout
        if not select.select([self.process.stdout], [], [], seconds)[0]:
            return False
        piece = os.read(self.process.stdout.fileno(), 65536)
        self.data += piece
        return bool(piece)

    def answer(self) -> Reported:
        """One outer block, and what it shows."""
        while not self.is_whole():
            if not self.hear():
                raise EOFError(self.data)
        return read_blocks(self.data)

    def interrupt(self) -> None:
        os.killpg(self.process.pid, signal.SIGINT)

    def kill(self) -> None:
        with self.process:
            os.killpg(self.process.pid, signal.SIGKILL)


def processes(*words: str) -> List[int]:
    """Those whose words have all of these."""
    found = []
    for name in filter(str.isdigit, os.listdir("/proc")):
        try:
            with open(f"/proc/{name}/cmdline", "rb") as file:
                line = file.read().decode("utf-8", "replace").split("\0")
        except OSError:
            continue
        if all(word in line for word in words):
            found.append(int(name))
    return found


class Case(unittest.TestCase):
    def setUp(self) -> None:
        if WHY:
            self.skipTest(WHY)
        self.folder = tempfile.mkdtemp(prefix="tmhost-texmacs-test.")
        self.addCleanup(shutil.rmtree, self.folder, True)
        self.sheet = os.path.join(self.folder, "sheet.tmhost")
        self.open: List[TeXmacs] = []
        self.addCleanup(self.end_all)

    def end_all(self) -> None:
        for one in self.open:
            if one.process.returncode is None:
                one.kill()
        until = time.monotonic() + 20
        while processes("--keep", self.sheet) and time.monotonic() < until:
            time.sleep(0.05)

    def make(self, tab: bool = True, *inputs: str) -> None:
        """A worksheet with the session `t`, and fields with these inputs."""
        with Worksheet(self.sheet, create=True, program=PROGRAM) as worksheet:
            worksheet.session("t", INTERPRETER, tab)
            for text in inputs:
                worksheet.new("t", text).evaluate()

    def texmacs(self, session: str = "t:x", document: str = "/d/a.tm", is_another: bool = False) -> TeXmacs:
        self.open.append(TeXmacs(self.folder, self.sheet, session, document, is_another))
        return self.open[-1]

    def fields(self) -> List[Field]:
        """What the worksheet has, when nobody holds it any more."""
        return fields_of(self.sheet)

    def kept(self) -> Dict[str, Tuple[str, Optional[str]]]:
        """Of each field its input and its answer, when all sessions have ended."""
        self.end_all()
        return {str(field.id): (field.input, str(field.answer) if field.answer else None) for field in self.fields()}
