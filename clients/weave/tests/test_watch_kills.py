"""Ends at random moments around a save: of the interpreter, of the weave that watches by Control-C, and of that and the program below by `kill -9`. Half as many of
each kind are made as TMHOST_KILLS says."""
import contextlib
import os
import random
import signal
import sys
import time

from . import test_kills
from .interpreter import value
from .support import answers, children_of, fences
from .watcher import STAYS, Watching, by_rename, in_place

KILLS = max(3, test_kills.KILLS // 2)
SLEEP = "0.02"  # seconds that a line takes
LATEST = 0.8  # seconds after a save at which something ends


class Ends(Watching):
    def setUp(self) -> None:
        super().setUp()
        self.random = random.Random(self.id())
        self.lines = ["x", "y"]
        self.write(self.whole())

    def whole(self) -> str:
        return self.front("a") + fences([("a", line) for line in self.lines])

    def wanted(self) -> "list[str]":
        return [value(self.lines[: at + 1]) for at in range(len(self.lines))]

    def woven(self) -> str:
        """The text as it is with all answers."""
        parts = [f"Text {at}.\n\n```a\n{line}\n```\n\n```tmhost-answer\n{found}\n```\n\n" for at, (line, found) in enumerate(zip(self.lines, self.wanted()))]
        return self.front("a") + "".join(parts)

    def change(self) -> str:
        """Mostly at the end, as what is added goes on."""
        if self.random.random() < 0.7 and len(self.lines) < 12:
            self.lines.append(f"line {self.random.randrange(4)}")
        else:
            self.lines[self.random.randrange(len(self.lines))] = f"line {self.random.randrange(4)}"
            del self.lines[8:]
        return self.whole()

    def test_an_interpreter(self) -> None:
        """The answer to a line that is added is the one after all others, whenever the interpreter ends: it is asked once more after a replay."""
        replays = 0
        with self.watching(TMHOST_SLEEP=SLEEP):
            self.until_said(STAYS)
            for number in range(KILLS):
                self.lines = self.lines[:8]
                for is_killed in (False, True):
                    self.lines.append(f"{number} {is_killed}")
                    in_place(self.text, self.whole())
                    if is_killed:
                        time.sleep(self.random.uniform(0.25, LATEST))
                        self.kill_interpreters()
                    self.until(lambda: self.text_now() == self.woven(), "it is woven")
            replays = self.said().count(" replayed")
        print(f"{self.id().split('.')[-1]}: {KILLS} ends of an interpreter, {replays} replays, each answer as wanted", file=sys.stderr)

    def kill_interpreters(self) -> None:
        for pid in self.interpreters():
            with contextlib.suppress(ProcessLookupError):
                os.kill(pid, signal.SIGKILL)

    def test_control_c(self) -> None:
        """The text is the one that was saved or the woven one, the status 130 or 0, and nothing but what is meant is said."""
        found = {0: 0, 130: 0}
        for _ in range(KILLS):
            with self.watching(status=None, TMHOST_SLEEP=SLEEP):
                self.until_said(STAYS)
                by_rename(self.text, saved := self.change())
                time.sleep(self.random.uniform(0, LATEST))
            self.assertIn(self.text_now(), [saved, self.woven()])
            found[self.watcher.returncode] += 1
            self.assertNotIn("Traceback", self.said())
            self.ends_well()
        print(f"{self.id().split('.')[-1]}: {found[0]} while it waited, {found[130]} broke off a weave", file=sys.stderr)

    def test_kill(self) -> None:
        for _ in range(KILLS):
            with self.watching(status=None, TMHOST_SLEEP=SLEEP):
                self.until_said(STAYS)
                by_rename(self.text, saved := self.change())
                time.sleep(self.random.uniform(0.2, LATEST))
                pid = self.watcher.pid if self.random.random() < 0.5 else next(iter(children_of(self.watcher.pid)), self.watcher.pid)
                os.kill(pid, signal.SIGKILL)
                time.sleep(0.05)
                self.watcher.kill()
            self.assertIn(self.text_now(), [saved, self.woven()])
            self.ends_well()

    def ends_well(self) -> None:
        """The next weave makes the right text of it, and nothing is left over."""
        self.fields()  # when nobody has the worksheet any more
        done = self.run_weave()
        self.assertEqual((done.status, self.read(), answers(self.read())), (0, self.woven(), self.wanted()), done.errors)
        self.assertEqual(sorted(os.listdir(self.folder)), ["a.log", "said", "text.md", "text.sheet", "text.sheet.alt"])
