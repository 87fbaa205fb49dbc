"""Where the program shows and asks: a terminal, or a pipe."""

import os
import sys
import termios
from typing import Optional

from tmhost import Answer, Field, Text

from .texts import after, columns, cut, harmless, last_line, rows

BOLD, FAINT, ERROR = 1, 2, 31  # the styles of a prompt, of a note, and, in red, of a mark
READLINE_HIDES = "\x01{}\x02"  # around what takes no room in a prompt of readline
WIDEST = 40  # columns of a prompt at which lines are typed


class Console:
    """Both show answers and fields; what else is to be said is a note. `failed` says that an answer was lost, or a line refused."""

    is_terminal = False

    def __init__(self) -> None:
        self.failed = False

    def show(self, text: str) -> None:
        raise NotImplementedError

    def note(self, text: str) -> None:
        raise NotImplementedError

    def banner(self, text: str) -> None:
        """An interpreter greets."""

    def working(self, said: bytes) -> None:
        """What an interpreter has written that is no answer yet."""

    def answer(self, input: str, answer: Answer) -> None:
        """The answer to the line that was read last."""
        raise NotImplementedError

    def evaluating(self, field: Field, prompt: Optional[Text]) -> None:
        """A field of the worksheet is evaluated next, as if its line had been read at this prompt, where that is known."""

    def choose(self, question: str, keys: str) -> Optional[str]:
        """Which of the keys the user gives; None where nobody can be asked."""
        return None

    def close(self) -> None:
        """Nothing more is shown."""

    def fail(self, text: str) -> None:
        """A line was refused, or its answer lost."""
        self.failed = True
        self.note(text)

    def mark(self, text: str) -> None:
        """Says of the answer above it that it is an error."""
        self.note(text)

    def field(self, field: Field) -> None:
        """A field with all that it has."""
        self.show(f"#{field.id} {field.session}")
        prompt = field.answer.prompt if field.answer else "> "
        self.show(harmless(prompt) + after(harmless(prompt), harmless(field.input)))
        if field.answer:
            self.show(harmless(field.answer.brief))
            if field.answer.errors:
                self.mark(f"#{field.id} is an error")
        else:
            self.unanswered(field)

    def unanswered(self, field: Field) -> None:
        """What there is of a field in place of an answer."""
        self.show(f"? {field.reason}" if field.reason else "?")


class Pipe(Console):
    """Answers go to standard output byte for byte, where it is no terminal, and notes to standard error."""

    def show(self, text: str) -> None:
        self._write(text.encode("utf-8", "backslashreplace"))

    def answer(self, input: str, answer: Answer) -> None:
        self._write(harmless(answer.brief).encode("utf-8") if sys.stdout.isatty() else answer.shown_bytes)

    def _write(self, text: bytes) -> None:
        if text:
            sys.stdout.buffer.write(text if text.endswith(b"\n") else text + b"\n")
            sys.stdout.buffer.flush()

    def note(self, text: str) -> None:
        print(f"tmhost-repl: {harmless(text)}", file=sys.stderr, flush=True)


class Typed:
    """A line that was typed in, with its prompt, and the rows that it takes where they are known."""

    def __init__(self, prompt: str, text: str, size: os.terminal_size) -> None:
        self.prompt, self.text, self.size = prompt, text, size
        self.rows = rows(prompt + text, size.columns)


class Terminal(Console):
    """Where a line was typed at the prompt that its answer tells, it stays as it is. Else that prompt takes the place of the other one: the line is
    written again, where it is sure which rows of the screen it has."""

    is_terminal = True

    def __init__(self) -> None:
        super().__init__()
        self._typed: Optional[Typed] = None  # nothing was written below it yet
        self._last: Optional[Typed] = None  # also where something was
        self._modes = termios.tcgetattr(0)
        self._can_steer = os.environ.get("TERM", "dumb") != "dumb"
        self._has_style = self._can_steer and not os.environ.get("NO_COLOR")
        self._is_working = False
        self._echo(False)

    def read(self, prompt: str) -> str:
        """What the user types, up to Enter. Lines that are read one after another are one, at the first prompt."""
        text = self._ask(self.styled_prompt(prompt, READLINE_HIDES))
        self._typed = self._last = (
            Typed(self._typed.prompt, f"{self._typed.text}\n{prompt}{text}", self._size()) if self._typed else Typed(prompt, text, self._size())
        )
        return text

    def prompt(self, name: str, reported: Optional[Text]) -> str:
        """The prompt that an interpreter has reported, where it has one that is plainly seen on a part of a row; else the name of its session."""
        text = harmless(reported) if reported else ""
        return text if text.strip() and 0 < (columns(text) or 0) <= min(WIDEST, self._size().columns // 2) else f"{name}> "

    def begin(self) -> None:
        """The next line that is read is a new one."""
        self._typed = self._last = None

    def evaluating(self, field: Field, prompt: Optional[Text]) -> None:
        self.show(f"#{field.id} {field.session}")
        front = "> " if prompt is None else harmless(prompt)
        self._put(Typed(front, after(front, harmless(field.input)), self._size()))

    def show(self, text: str) -> None:
        if text:
            self._typed = None
            self._print(text if text.endswith("\n") else text + "\n")

    def note(self, text: str) -> None:
        self._typed = None
        self._print(self._styled(f"({harmless(text)})", FAINT) + "\n")

    def mark(self, text: str) -> None:
        self._typed = None
        self._print(self._styled(f"({harmless(text)})", ERROR) + "\n")

    def unanswered(self, field: Field) -> None:
        """In the form of a note, which no output has."""
        self.note({"lost": f"lost: {field.reason}", "waiting": "waits for its answer"}.get(field.state, "no answer"))

    def banner(self, text: str) -> None:
        """It stands in front of the line that started the interpreter."""
        typed = self._typed
        if not text.strip():
            return
        is_off = self._take_off()
        self.show(harmless(text))
        if typed and is_off:
            self._put(typed)

    def working(self, said: bytes) -> None:
        """The last line of it, on a row that the next text takes."""
        text = last_line(said)
        if self._can_steer and text:
            self._print(self._styled(cut(text, self._size().columns - 1), FAINT))
            self._is_working = True

    def answer(self, input: str, answer: Answer) -> None:
        prompt = harmless(answer.prompt)
        text = after(prompt, harmless(input))
        last = self._last
        if prompt.strip() and not (last and (last.prompt, last.text) == (prompt, text)):
            if self._take_off():
                self._print(f"{self._styled(prompt, BOLD)}{text}\n")
            elif not last or last.prompt != prompt:
                self.show(self._styled(prompt.rstrip(), BOLD))
        self.begin()
        self.show(harmless(answer.brief))

    def choose(self, question: str, keys: str) -> Optional[str]:
        self._typed = None
        termios.tcflush(0, termios.TCIFLUSH)  # what was typed before the question isn't its answer
        while True:
            reported = self._ask(question + " ").strip().lower()[:1]
            if reported and reported in keys:
                return reported

    def close(self) -> None:
        self._echo(True)

    def styled_prompt(self, prompt: str, hidden: str = "{}") -> str:
        """A prompt as it is printed; `hidden` is what stands around bytes that take no room."""
        return self._styled(prompt, BOLD, hidden) if not self._typed else prompt

    def _ask(self, prompt: str) -> str:
        """What is typed while nothing is asked isn't echoed, since it would stand among answers: it is shown where it is asked for."""
        self._echo(True)
        self._print("")
        try:
            return input(prompt)
        finally:
            self._echo(False)

    def _echo(self, is_on: bool) -> None:
        modes = list(self._modes)
        modes[3] = modes[3] if is_on else modes[3] & ~termios.ECHO
        termios.tcsetattr(0, termios.TCSADRAIN, modes)

    def _take_off(self) -> bool:
        """Takes the line that was typed in off the screen, where its rows are known, and all of them are on it."""
        typed, self._typed = self._typed, None
        size = self._size()
        if not self._can_steer or not typed or typed.rows is None or typed.size != size or typed.rows >= size.lines:
            return False
        self._print(f"\x1b[{typed.rows}A\r\x1b[J")
        return True

    def _size(self) -> os.terminal_size:
        size = os.get_terminal_size(1)
        return size if size.columns and size.lines else os.terminal_size((80, 24))

    def _put(self, typed: Typed) -> None:
        """Writes a line as if it had been typed in."""
        self._print(f"{self._styled(typed.prompt, BOLD)}{typed.text}\n")
        self._typed = self._last = typed

    def _styled(self, text: str, style: int, hidden: str = "{}") -> str:
        return hidden.format(f"\x1b[{style}m") + text + hidden.format("\x1b[0m") if self._has_style else text

    def _print(self, text: str) -> None:
        if self._is_working:
            text, self._is_working = "\r\x1b[K" + text, False
        sys.stdout.write(text)
        sys.stdout.flush()


def new_console() -> Console:
    """A terminal where both ends are one."""
    for stream in (sys.stdout, sys.stderr):
        reconfigure = getattr(stream, "reconfigure", None)
        if reconfigure:
            reconfigure(errors="backslashreplace")
    return Terminal() if sys.stdin.isatty() and sys.stdout.isatty() else Pipe()


