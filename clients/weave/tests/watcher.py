"""A weave that watches, while a test is the author: it saves a text in the ways of editors, and waits for what becomes of it."""
import contextlib
import os
import signal
import subprocess
import time
from typing import Callable, Iterator, List, Optional

from .support import ROOT, Case, children_of, command_words, environment, heed_interrupts

LONGEST = 60.0  # seconds for which something is waited for
QUIET = 1.0  # seconds in which a weave that is due would have begun
STAYS = "tmhost-weave: watching; Control-C ends\n"


def in_place(path: str, text: str) -> None:
    with open(path, "w", encoding="utf-8", newline="") as file:
        file.write(text)


def in_pieces(path: str, text: str) -> None:
    """Empties the file, and fills it in two steps."""
    with open(path, "w", encoding="utf-8", newline="") as file:
        file.write(text[: len(text) // 2])
        file.flush()
        time.sleep(0.02)
        file.write(text[len(text) // 2 :])


def by_rename(path: str, text: str) -> None:
    """Writes another file and puts it over the text."""
    in_place(path + ".new-one", text)
    os.replace(path + ".new-one", path)


def by_backup(path: str, text: str) -> None:
    """Gives the text another name, and writes it again: for a moment there is none."""
    os.replace(path, path + "~")
    time.sleep(0.02)
    in_place(path, text)
    os.unlink(path + "~")


WAYS = (in_place, in_pieces, by_rename, by_backup)


class Watching(Case):
    """`watcher` is the process of the weave that watches."""

    watcher: "subprocess.Popen[bytes]"

    @contextlib.contextmanager
    def watching(self, *words: str, status: Optional[int] = 0, **more: str) -> Iterator[None]:
        """Until its end; then it is interrupted, and ends with this status, where one is given. Before it ends as one that waits, nothing more comes of what
        was saved."""
        with open(self.place("said"), "wb") as said:
            self.watcher = subprocess.Popen(
                command_words("--watch", *(words or (self.text,))), stderr=said, env=environment(**more), cwd=ROOT, preexec_fn=heed_interrupts
            )
        try:
            yield
            if status == 0:
                self.nothing_comes()
            self.watcher.send_signal(signal.SIGINT)
            ended = self.watcher.wait(LONGEST)
            self.assertIn(status, [None, ended], self.said())
        finally:
            self.watcher.kill()
            self.watcher.wait()

    def said(self) -> str:
        return self.read(self.place("said"))

    def until(self, is_so: Callable[[], bool], what: str) -> None:
        end = time.monotonic() + LONGEST
        while not is_so():
            if time.monotonic() > end:
                self.fail(f"waited in vain until {what}; said: {self.said()}; the text: {self.text_now()}")
            time.sleep(0.005)

    def until_said(self, text: str, count: int = 1) -> None:
        self.until(lambda: self.said().count(text) >= count, f"{text!r} was said")

    def until_text_has(self, part: str, count: int = 1) -> str:
        self.until(lambda: self.text_now().count(part) >= count, f"the text has {part!r}")
        return self.text_now()

    def until_answers(self, count: int) -> str:
        """The text, when it has so many answers."""
        return self.until_text_has("\n```tmhost-answer\n", count)

    def text_now(self) -> str:
        """The text, which isn't there for moments."""
        with contextlib.suppress(FileNotFoundError):
            return self.read()
        return ""

    def nothing_comes(self) -> None:
        """It comes to rest: nothing is said any more, and the text stays as it is."""
        for _ in range(3):
            before = self.said(), self.read()
            time.sleep(QUIET)
            if (self.said(), self.read()) == before:
                return
        self.fail(f"it doesn't come to rest: {self.said()}")

    def host(self) -> int:
        """The program that holds the worksheet."""
        return children_of(self.watcher.pid)[0]

    def interpreters(self) -> List[int]:
        return children_of(self.host())

    def end_interpreters(self) -> None:
        """By another hand than that of a weave."""
        for pid in self.interpreters():
            os.kill(pid, signal.SIGKILL)
        self.until(lambda: not self.interpreters(), "the interpreters have ended")
