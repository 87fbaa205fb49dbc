"""`kill -9` at random moments, of TeXmacs with its program, of that program alone, of what keeps the worksheet, and of tmhost: what was shown is kept.

TMHOST_KILLS says how many kills of each kind are made.
"""
import itertools
import os
import random
import signal
import sys
import time
from typing import Callable, Dict, Tuple

from .support import SECONDS, Case, TeXmacs, processes, read_blocks

KILLS = int(os.environ.get("TMHOST_KILLS", "4"))


class Kills(Case):
    """A document that goes on, through kills. It has, of each field that it has heard of, the input, and the answer where one was shown."""

    def setUp(self) -> None:
        super().setUp()
        self.random = random.Random(self.id())
        self.make()
        self.shown: Dict[str, Tuple[str, str]] = {}
        self.accepted: Dict[str, str] = {}
        self.number = 0

    def lines_until(self, texmacs: TeXmacs, moment: float, lines: int = 0) -> None:
        """Evaluates numbered lines up to a moment, of which the last one isn't answered; or so many lines."""
        for at in itertools.count():
            if lines and at == lines:
                return
            self.number += 1
            line = f"say {self.number}"
            texmacs.begin(line)
            while not texmacs.is_whole():
                left = SECONDS if lines else moment - time.monotonic()
                if left <= 0 or not texmacs.hear(left):
                    self.note(texmacs, line)
                    return
            self.note(texmacs, line)

    def note(self, texmacs: TeXmacs, line: str) -> None:
        reported = read_blocks(texmacs.data)
        if reported.id:
            self.accepted[reported.id] = line
            if texmacs.is_whole():
                self.assertEqual(reported.text, line[4:])
                self.shown[reported.id] = line, reported.text

    def holds(self) -> None:
        kept = self.kept()
        self.assertEqual({id: kept[id] for id in self.shown}, self.shown)
        self.assertEqual({id: kept[id][0] for id in self.accepted}, self.accepted)
        self.assertLessEqual(len(kept), self.number)

    def many(self, kill: Callable[[TeXmacs], None], goes_on: bool) -> None:
        for _ in range(KILLS):
            texmacs = self.texmacs()
            self.lines_until(texmacs, 0.0, 1)  # starts the interpreter
            self.lines_until(texmacs, time.monotonic() + 0.2 + self.random.random())
            before = len(self.shown)
            kill(texmacs)
            if goes_on:  # the session says that its line is lost, and takes the next one
                while not texmacs.is_whole() and texmacs.hear():
                    pass
                for _ in range(3):
                    reported = texmacs.evaluate("say on")
                    self.number += 1
                    if "evaluate the line again" not in reported.text:  # it was on its way at that moment
                        break
                self.assertEqual(reported.text, "on")
                self.shown[reported.id] = "say on", "on"
            self.assertGreaterEqual(len(self.shown), before)
            self.holds()
        print(f"{self.id().split('.')[-1]}: {KILLS} kills, {len(self.shown)} answers shown, all there", file=sys.stderr)
        self.assertGreaterEqual(len(self.shown), KILLS)

    def kill_all(self, *words: str) -> None:
        found = processes(*words)
        self.assertTrue(found)
        for pid in found:
            os.kill(pid, signal.SIGKILL)

    def test_texmacs_with_its_session(self) -> None:
        self.many(lambda texmacs: texmacs.kill(), False)

    def test_what_keeps_the_worksheet(self) -> None:
        self.many(lambda texmacs: self.kill_all("--keep", self.sheet), True)

    def test_tmhost(self) -> None:
        self.many(lambda texmacs: self.kill_all("live", self.sheet), True)
