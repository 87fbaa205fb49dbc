"""What TeXmacs starts for a session: it joins the program that keeps the worksheet, or starts it, and passes lines and blocks on."""

import argparse
import contextlib
import fcntl
import json
import os
import select
import signal
import socket
import subprocess
import sys
import time
from typing import List, Optional, Tuple

from tmhost import TmhostError, Worksheet
from tmhost.advice import advised
from tmhost_fences.output import Parser, run_and_flush

from . import keeper, scheme
from .document import document
from .offered import adapters
from .places import address_of, sheet_of, socket_of
from .speech import END, escaped, whole

PIECE = 65_536
PATIENCE = 8.0  # seconds in which a keeper that ends leaves its worksheet
SESSION, SHEET, DOCUMENT = "TMHOST_TEXMACS_SESSION", "TMHOST_TEXMACS_WORKSHEET", "TMHOST_TEXMACS_DOCUMENT"
LOST = "? what keeps the worksheet has ended before it answered; evaluate the line again"


class Blocks:
    """How deep in blocks a stream is."""

    def __init__(self) -> None:
        self.depth, self.is_escaped, self.closed = 0, False, 0

    def feed(self, data: bytes) -> None:
        for byte in data:
            if self.is_escaped:
                self.is_escaped = False
            elif byte == 27 and self.depth:
                self.is_escaped = True
            elif byte == 2:
                self.depth += 1
            elif byte == 5 and self.depth:
                self.depth -= 1
                self.closed += not self.depth


class Refusal(Exception):
    """Why the worksheet can't be joined."""


def joined(sheet: str, session: str, document: str, texmacs: int) -> socket.socket:
    """A connection to the program that keeps a worksheet, which is started where there is none. One session at a time looks for it, so that none finds it half
    begun."""
    hello = json.dumps({"session": session, "document": document, "texmacs": str(texmacs), "process": str(os.getpid())}).encode() + b"\n"
    path, until = socket_of(sheet), time.monotonic() + PATIENCE
    with open(path + ".lock", "w", encoding="ascii") as lock:
        fcntl.flock(lock, fcntl.LOCK_EX)
        while True:
            connection, reported = greeted(path, hello)
            if connection and reported is None:
                return connection
            why = reported or started(sheet, path)
            if reported or why is not None and time.monotonic() > until:
                raise Refusal(why)
            if why is not None:
                time.sleep(0.2)


def greeted(path: str, hello: bytes) -> Tuple[Optional[socket.socket], Optional[str]]:
    """A connection that was joined; or none, and why it was refused, where somebody was there."""
    connection = socket.socket(socket.AF_UNIX)
    try:
        with address_of(path) as address:
            connection.connect(address)
        connection.sendall(hello)
        reported = line_of(connection)
    except OSError:
        reported = b""
    why: Optional[str] = json.loads(reported)["refused"] if reported else None
    if reported and why is None:
        return connection, None
    connection.close()
    return None, why


def line_of(connection: socket.socket) -> bytes:
    """The first line, and nothing after it."""
    line = b""
    while not line.endswith(b"\n"):
        byte = connection.recv(1)
        if not byte:
            return b""
        line += byte
    return line


def started(sheet: str, path: str) -> Optional[str]:
    """Starts the program that keeps a worksheet, in a session of processes of its own, which no interrupt of TeXmacs reaches. Gives why it can't be kept."""
    with subprocess.Popen(
        [sys.executable, "-B", sys.argv[0], "--keep", sheet, path], stdin=subprocess.DEVNULL, stdout=subprocess.PIPE, stderr=subprocess.DEVNULL,
        start_new_session=True, text=True,
    ) as process:
        assert process.stdout
        said = process.stdout.readline().strip()
        if said == keeper.READY:
            process.returncode = 0  # it goes on when this process ends, and isn't waited for
            return None
    return said or f"{sheet} can't be kept: its program has ended"


class Bridge:
    def __init__(self, sheet: str, session: str, document: str) -> None:
        self.sheet, self.session, self.document = sheet, session, document
        self.texmacs = os.getppid()
        self.connection: Optional[socket.socket] = None
        self.blocks = Blocks()
        self.owed = 0  # lines that aren't answered
        self.rest = b""
        self.signals, theirs = os.pipe()
        for end in (self.signals, theirs):
            os.set_blocking(end, False)
        signal.set_wakeup_fd(theirs)
        signal.signal(signal.SIGINT, lambda number, frame: None)

    def run(self) -> None:
        self.owed = 1  # the banner
        self._join()
        while True:
            waited = [0, self.signals] + ([self.connection.fileno()] if self.connection else [])
            found = select.select(waited, [], [])[0]
            if self._was_interrupted():
                self._send(keeper.INTERRUPT)
            if self.connection and self.connection.fileno() in found:
                self._hear()
            if 0 in found and not self._read():
                return

    def _was_interrupted(self) -> bool:
        """A signal that came before a line is none for it, so it is looked for also where the line alone was found."""
        with contextlib.suppress(BlockingIOError):
            return bool(os.read(self.signals, PIECE))
        return False

    def _join(self) -> bool:
        self.blocks = Blocks()
        try:
            self.connection = joined(self.sheet, self.session, self.document, self.texmacs)
        except (OSError, Refusal) as error:
            self._write(whole(f"? {error}"))
            return False
        return True

    def _read(self) -> bool:
        piece = os.read(0, PIECE)
        *lines, self.rest = (self.rest + piece).split(b"\n")
        for line in lines:
            self._take(line + b"\n")
        return bool(piece)

    def _take(self, line: bytes) -> None:
        if self.connection and select.select([self.connection], [], [], 0)[0]:
            self._hear()  # of one that has ended, so that the line goes to the next one
        self.owed += 1
        if self.connection is None:
            if not self._join():
                return
            self.owed += 1
            self._drop_banner()
        self._send(line)

    def _drop_banner(self) -> None:
        """The banner of a program that was joined again answers nothing."""
        banner = Blocks()
        while self.connection and not banner.closed:
            piece = self.connection.recv(1)
            if not piece:
                self._lose()
            banner.feed(piece)
        self.owed -= 1

    def _send(self, line: bytes) -> None:
        if self.connection and self.owed:
            try:
                self.connection.sendall(line)
            except OSError:
                self._lose()

    def _hear(self) -> None:
        assert self.connection
        try:
            piece = self.connection.recv(PIECE)
        except OSError:
            piece = b""
        if piece:
            self._write(piece)
        else:
            self._lose()

    def _lose(self) -> None:
        """Nothing more comes from there; what TeXmacs waits for is ended with a word."""
        if self.connection:
            self.connection.close()
        self.connection = None
        if self.blocks.depth:
            self._write(escaped("\n" + LOST) + END * self.blocks.depth)
        while self.owed > 0:
            self._write(whole(LOST))

    def _write(self, data: bytes) -> None:
        self.blocks.feed(data)
        self.owed -= self.blocks.closed
        self.blocks.closed = 0
        while data:
            data = data[os.write(1, data):]


def words_given(words: List[str]) -> argparse.Namespace:
    parser = Parser(prog="tmhost-texmacs", description="A session of a worksheet for GNU TeXmacs, which starts it by itself: put the folder `plugins/tmhost` into ~/.TeXmacs/plugins.")
    parser.add_argument("--list", action="store_true", help="print the names of the sessions that are offered, as a list of Scheme")
    parser.add_argument("--sessions", metavar="SHEET", help="print the names of the sessions of a worksheet so; #f where it can't be opened")
    parser.add_argument("--export", metavar="SHEET", help="write a worksheet as a document of TeXmacs to standard output")
    parser.add_argument("--keep", nargs=2, metavar=("SHEET", "SOCKET"), help="keep a worksheet open for its sessions (it is started so by itself)")
    parser.add_argument("session", metavar="SESSION", nargs="?", default="sh", help=f"where {SESSION} names none")
    parser.add_argument("sheet", metavar="SHEET", nargs="?", default="", help=f"where {SHEET} names none; else one in ~/tmhost")
    return parser.parse_args(words)


def sessions_of(sheet: str) -> str:
    """The sessions of a worksheet that have fields, as a list of Scheme."""
    try:
        with Worksheet(sheet) as worksheet:
            used = {field.session for field in worksheet.fields}
            return scheme.written([name for name in worksheet.sessions if name in used])
    except (OSError, TmhostError):
        return "#f"


def export(sheet: str) -> int:
    """Writes the document of a worksheet; the status."""
    try:
        with Worksheet(sheet) as worksheet:
            reported = document(worksheet)
    except (OSError, TmhostError) as error:
        print(f"tmhost-texmacs: {advised(error, sheet)}", file=sys.stderr)
        return 1
    sys.stdout.buffer.write(reported)
    return 0


def ran(words: List[str]) -> int:
    given = words_given(words)
    if given.list:
        print(scheme.written(list(adapters())))
        return 0
    if given.sessions:
        print(sessions_of(given.sessions))
        return 0
    if given.export:
        return export(given.export)
    if given.keep:
        return keeper.keep(*given.keep)
    session = os.environ.get(SESSION) or given.session
    sheet = os.environ.get(SHEET) or given.sheet or sheet_of(session)
    try:
        Bridge(sheet, session, os.environ.get(DOCUMENT, "")).run()
    except (BrokenPipeError, KeyboardInterrupt):
        os.dup2(os.open(os.devnull, os.O_WRONLY), 1)
    return 0


def main(words: List[str]) -> int:
    return run_and_flush("tmhost-texmacs", ran, words)
