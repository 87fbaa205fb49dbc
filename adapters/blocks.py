"""What the adapters share: blocks of the protocol, lines as they come, and an interpreter that runs as a child.

An adapter reads lines and writes exactly one block for each, the banner's block first. It ends where its interpreter
ends, at the end of its input, and where nobody reads its output any more.
"""
import contextlib
import ctypes
import io
import os
import re
import select
import signal
import subprocess
import sys
import time
from typing import Any, Callable, Iterable, Iterator, List, NamedTuple, Optional, Set

import terminal

LONGEST = 8_000_000  # bytes of an answer; escapes may double them
ROOM = 16_700_000  # bytes of what is in a block, which may have 16,777,216
PIECE = 65_536  # bytes that are read at once
SPARED = 0.1  # seconds of a line in which it isn't interrupted
GRACE = 5.0  # seconds that an interpreter has for an interrupt at the end of its time; it ends after two of them
NEVER = 1e6  # seconds
PREVIEWS = os.environ.get("TMHOST_PARTIAL") == "1"  # whether what is said in a line is shown before its block is there
LONGEST_PREVIEW = 4_000  # bytes that are shown at once, the last ones
NO_PREVIEW = re.compile(rb"[\x02\x05]|m[0-9a-f]{16}")  # a block's bytes, and the names of `new_name` and of marks
SEQUENCES = re.compile(rb"\x1b\[[0-?]*[ -/]*[@-~]|\x1b")
KILL_WITH_PARENT = 1  # PR_SET_PDEATHSIG of prctl(2)
LINE_SEPARATOR = "\u2028".encode()
REQUEST = b"\x10"  # a line that begins so asks for completions
REQUESTED = re.compile(rb'\x10\(complete "(.*)" (\d+)\)', re.DOTALL)
MOST_COMPLETIONS = 1_000


def escaped(text: bytes) -> bytes:
    """The text as it stands in a block: an escape before each byte that has a meaning there."""
    return re.sub(rb"[\x02\x05\x1b]", lambda found: b"\x1b" + found[0], text)


def block(tag: bytes, body: bytes) -> bytes:
    """A block of what is escaped already; the tag ends in its separator."""
    return b"\x02" + tag + body + b"\x05"


def with_prompt(tag: bytes, body: bytes, prompt: bytes) -> bytes:
    """An answer with the prompt of the next line; an empty prompt is left out, and the host's own is shown."""
    return block(tag, body + block(b"prompt#", escaped(prompt)) if prompt else body)


AS_WRITTEN = False  # whether escape sequences, carriage returns and tabs beside them are left as an interpreter wrote them


def shown(text: bytes) -> bytes:
    """A text as a terminal shows it at last, unless all is wanted as it was written."""
    return text if AS_WRITTEN else terminal.folded_bytes(text)


class Part(NamedTuple):
    """A part of an answer."""

    text: bytes
    format: bytes = b""  # of a block of its own: LATEX, or a picture's, of which `pictures.py` has some; none where it is text, or ERROR

    @property
    def folded(self) -> "Part":
        """The part as a terminal shows it at last, where it is a text."""
        return Part(shown(self.text), self.format) if self.format in (b"", ERROR) else self

    @property
    def shown(self) -> bytes:
        """The part as it stands in a block."""
        if self.format == ERROR:
            return error(self.text)
        return block(self.format + b":", escaped(self.text)) if self.format else escaped(self.text)


LATEX = b"latex"  # a formula, between dollars
PICTURE = b"image/"  # the begin of the formats of pictures
ERROR = b"error"  # what the interpreter reports as an error


def error(text: bytes) -> bytes:
    """An error as it stands in a block: `tmhost` shows the channel `output` bare, and clients tell it by one that stands in another."""
    return block(b"output#", block(b"output#", escaped(text)))


def without_surplus(parts: List[Part], before: bytes) -> List[Part]:
    """The parts of an answer after a text, whose pictures have LONGEST bytes at most, and fit into one block. In the place of one that would
    have more it is said so; none is cut."""
    others = [part.text for part in parts if not part.format.startswith(PICTURE)]
    left = min(LONGEST, ROOM - sum(len(escaped(text)) for text in (before, *others)))
    kept = []
    for part in parts:
        if part.format.startswith(PICTURE):
            size = len(escaped(part.text))
            if size > left:
                part = Part(b"[a picture of %d bytes is left out: those of an answer have at most %d]" % (size, LONGEST))
            else:
                left -= size
        kept.append(part)
    return kept


def answer(parts: List[Part], prompt: bytes, before: bytes = b"") -> bytes:
    """The block of an answer: a formula or a picture alone, or a text, in which each of them, and each error, is a block. Texts are as a
    terminal shows them at last. What stands before the parts is a text that ends in its own line feed."""
    before = shown(before)
    parts = without_surplus([part for part in (one.folded for one in parts) if part.text], before)
    if len(parts) == 1 and parts[0].format not in (b"", ERROR) and not before:
        return with_prompt(parts[0].format + b":", escaped(parts[0].text), prompt)
    return with_prompt(b"verbatim:", escaped(before) + b"\n".join(part.shown for part in parts), prompt)


def verbatim(text: bytes, prompt: bytes = b"") -> bytes:
    return with_prompt(b"verbatim:", escaped(text), prompt)


NO_COMPLETIONS = block(b"scheme:", b"(tuple)")


def front_of(request: bytes) -> bytes:
    """The input of a request of completions, up to its cursor, which counts the bytes of the input as it was sent."""
    found = REQUESTED.fullmatch(request)
    text = re.sub(rb'\\(["\\])', rb"\1", found[1])[:int(found[2])] if found else b""
    return text.replace(LINE_SEPARATOR, b"\n")


def completions(root: str, names: Iterable[str]) -> bytes:
    """The block that says which of the names begin with the root, each without it; the first ones where there are many. What has other
    letters than names have is left out, since it could mean something in the block."""
    found = sorted(name[len(root):] for name in set(names) if name.startswith(root) and re.fullmatch(r"[\w.]+", name))[:MOST_COMPLETIONS]
    reported = " ".join(f'"{text}"' for text in [root, *found])
    return block(b"scheme:", f"(tuple {reported})".encode()) if found else NO_COMPLETIONS


def write(data: bytes, descriptor: int = 1) -> None:
    while data:
        data = data[os.write(descriptor, data):]


class Signals:
    """The signals that have come, SIGINT among them: Python writes the number of each to a pipe, so they can be waited for beside
    what else comes, and none is taken for that of another line."""

    def __init__(self) -> None:
        self.descriptor, theirs = os.pipe()
        for end in (self.descriptor, theirs):
            os.set_blocking(end, False)
        signal.set_wakeup_fd(theirs)
        for number in (signal.SIGINT, signal.SIGALRM):
            signal.signal(number, lambda number, frame: None)

    def take(self) -> bytes:
        """The numbers of those that have come since the last call."""
        with contextlib.suppress(BlockingIOError):
            return os.read(self.descriptor, PIECE)
        return b""


def lines(signals: Signals) -> Iterator[bytes]:
    """The lines of our input. A LINE SEPARATOR in one stands for a line feed, but not yet in a request, whose cursor counts bytes. What has no
    end is no line: its writer has ended. Where no line is there, a signal has nothing to end; one that has come with a line is left for it."""
    waiting, rest = select.poll(), b""
    waiting.register(0, select.POLLIN)
    waiting.register(signals.descriptor, select.POLLIN)
    while True:
        line, end, after = rest.partition(b"\n")
        if end:
            rest = after
            yield line if line.startswith(REQUEST) else line.replace(LINE_SEPARATOR, b"\n")
        elif any(descriptor == 0 for descriptor, _ in waiting.poll()):
            piece = os.read(0, PIECE)
            if not piece:
                return
            rest += piece
        else:
            signals.take()


Answering = Callable[[bytes], Optional[bytes]]


def serve(banner: bytes, answer: Answering, signals: Signals, complete: Answering = lambda front: NO_COMPLETIONS) -> None:
    """Writes the banner, and then the block that answers each line, until there is no line, or None for one. `complete` is given what stands
    in front of the cursor of a request."""
    write(banner)
    for line in lines(signals):
        reported = complete(front_of(line)) if line.startswith(REQUEST) else answer(line)
        if reported is None:
            break
        write(reported)


def new_name() -> bytes:
    """A name of 128 random bits that stands in no text but on purpose."""
    return b"m" + os.urandom(16).hex().encode()


class Preview:
    """Shows what an interpreter says in a line as it comes, between blocks, where a host drops it: whole lines, and the states of a line that is
    written over, but none with a block in it or with a word of ours."""

    def __init__(self, noise: bytes = b"") -> None:
        """`noise` is a pattern of what isn't shown."""
        self.noise = re.compile(noise) if noise else None
        self.rest = b""

    def add(self, piece: bytes) -> None:
        if not PREVIEWS:
            return
        *whole, self.rest = re.split(rb"(?<=[\r\n])", self.rest + piece)
        self.rest = self.rest[-PIECE:]
        text = SEQUENCES.sub(b"", b"".join(one for one in whole if not NO_PREVIEW.search(one)))
        text = self.noise.sub(b"", text) if self.noise else text
        write(text[-LONGEST_PREVIEW:])


class Reasons(io.TextIOWrapper):
    """Standard error of an adapter, on which it says why it ends. A host drops that, so it is shown as what comes before an answer, too."""

    def write(self, text: str) -> int:
        with contextlib.suppress(OSError):
            write(re.sub(rb"[\x02\x05\x1b]", b"?", text.encode("utf-8", "backslashreplace")))
        return super().write(text)


if PREVIEWS and sys.stderr:
    sys.stderr = Reasons(sys.stderr.buffer, errors="backslashreplace", line_buffering=True)


class Said:
    """What an interpreter says until a mark comes: the first LONGEST bytes, and the last ones, which may be a part of the mark."""

    def __init__(self, preview: Optional[Preview] = None) -> None:
        self.preview = preview
        self.kept = bytearray()
        self.left_out = 0
        self.last = 0  # where the last piece begins

    def add(self, piece: bytes) -> None:
        if self.preview:
            self.preview.add(piece)
        surplus = max(0, len(self.kept) - LONGEST - PIECE)
        del self.kept[LONGEST:LONGEST + surplus]
        self.left_out += surplus
        self.last = len(self.kept)
        self.kept += piece

    def find(self, mark: bytes) -> int:
        """Where the mark begins that ends in the last piece, or -1."""
        return self.kept.find(mark, max(0, self.last + 1 - len(mark)))

    def before(self, end: int) -> bytes:
        """The text up to a place, and how much of it was left out."""
        if end <= LONGEST and not self.left_out:
            return bytes(self.kept[:end])
        return bytes(self.kept[:LONGEST]) + b"\n[%d bytes more]" % (end + self.left_out - LONGEST)


def before_it_runs() -> None:
    """It dies with its parent, and SIGINT isn't ignored, as it is where a script has started the host by `&`."""
    ctypes.CDLL(None).prctl(KILL_WITH_PARENT, signal.SIGKILL)
    signal.signal(signal.SIGINT, signal.SIG_DFL)


class Child:
    """An interpreter that runs, in a group of processes of its own, so that a signal reaches what a line has started, too."""

    def __init__(self, words: List[str], output: Optional[int] = None, signals: Optional[Signals] = None, **streams: Any) -> None:
        """`output` is where it is heard, if not by a pipe, `signals` are those of the one before it, and `streams` are words of Popen."""
        self.process: "subprocess.Popen[bytes]" = subprocess.Popen(
            words, preexec_fn=before_it_runs, start_new_session=True, **streams)
        if output is None:
            assert self.process.stdout
            output = self.process.stdout.fileno()
        self.output = output
        self.its_end = os.pidfd_open(self.process.pid)
        self.signals = signals or Signals()
        self.interrupts = 0  # how many it was sent
        self.due: Optional[float] = None  # when it is sent the one that has come for it
        self.spared_until = 0.0
        self.alarms = 0

    @contextlib.contextmanager
    def at_a_line(self, seconds: float = 0.0) -> Iterator[None]:
        """While a line is evaluated, signals are passed on, and it is interrupted after these seconds. What comes too late for a line is
        dropped."""
        self.spared_until = time.monotonic() + SPARED
        self.alarms = 0
        signal.setitimer(signal.ITIMER_REAL, seconds, GRACE)
        try:
            yield
        finally:
            signal.setitimer(signal.ITIMER_REAL, 0)
            self.due = None
            self.signals.take()

    def pass_signals_on(self) -> None:
        """Sends the interpreter, and what the line has started, SIGINT. One that has just begun a line, or was just interrupted, is spared
        for a moment: it may not be at the line yet, or be done with it, and some would end by the signal then."""
        numbers, now = self.signals.take(), time.monotonic()
        self.alarms += numbers.count(signal.SIGALRM)
        if self.alarms > 2:
            self.end()
        if numbers and self.due is None:
            self.due = max(now, self.spared_until)
        if self.due is not None and now >= self.due:
            self.due, self.spared_until = None, now + SPARED
            self.interrupts += 1
            self.interrupt()

    def interrupt(self) -> None:
        with contextlib.suppress(ProcessLookupError):
            os.killpg(self.process.pid, signal.SIGINT)

    def said(self, seconds: float = NEVER) -> Optional[bytes]:
        """What it says next: nothing where it has ended, or nobody reads our own output; None where nothing comes in time."""
        waiting = select.poll()
        for descriptor in (self.output, self.its_end, self.signals.descriptor):
            waiting.register(descriptor, select.POLLIN)
        waiting.register(1, 0)  # the end of its reader is reported without being asked for
        until = time.monotonic() + seconds
        found: Set[int] = set()
        while not found:
            next_time = until if self.due is None else min(until, self.due)
            found = {descriptor for descriptor, _ in waiting.poll(max(0.0, 1000 * (next_time - time.monotonic())))}
            self.pass_signals_on()
            found.discard(self.signals.descriptor)
            if not found and time.monotonic() >= until:
                return None
        if self.output not in found:  # its last words may have come between the looks for them and for its end
            found |= {descriptor for descriptor, _ in waiting.poll(0)}
        if 1 in found or self.output not in found:  # what it has started may keep its output open
            return b""
        for _ in range(2):  # a terminal tells its end to a read that has looked before the last words came; the next one finds them
            with contextlib.suppress(OSError):
                return os.read(self.output, PIECE)
        return b""

    def drop_what_was_said(self) -> bool:
        """Drops what came before a line, as of a thread, which answers nothing; false where the interpreter has ended."""
        while piece := self.said(0.0):
            pass
        return piece is None

    def end(self) -> None:
        self.process.kill()

    def leave(self) -> None:
        """Ends it with what it has started, for another one in its place."""
        with contextlib.suppress(ProcessLookupError):
            os.killpg(self.process.pid, signal.SIGKILL)
        self.process.wait()
        for descriptor in (self.output, self.its_end):
            os.close(descriptor)


def run(program: Callable[[], None]) -> None:
    """Runs an adapter to its end. One whose interpreter isn't there, or whose reader has gone, says so."""
    try:
        program()
    except BrokenPipeError as error:
        sys.exit(str(error))
    except FileNotFoundError as error:
        sys.exit(f"there is no program {error.filename} on PATH" if error.filename else str(error))
