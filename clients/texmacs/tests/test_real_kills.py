"""`kill -9` of GNU TeXmacs, of the program of its session, of what keeps the worksheet, and of tmhost, in turn and at random moments, where TeXmacs is installed: the
worksheet has what was shown, and a document that was saved once gets it again.

TMHOST_KILLS says how many kills are made in all.
"""
import os
import random
import re
import signal
import sys
import time
from typing import Dict, List

from .real import Answered, RealTeXmacs
from .support import processes
from .test_real import Real

KILLS = int(os.environ.get("TMHOST_KILLS", "4"))
BUSY = "import time; time.sleep(100)"
REMARKS = re.compile(r"^(?:\[[^\]]*\] )+")
TRIES = 5  # of a line after a kill: one that is on its way then is lost, too


def environment_of(process: int) -> List[str]:
    try:
        with open(f"/proc/{process}/environ", encoding="utf-8", errors="replace") as file:
            return file.read().split("\0")
    except OSError:
        return []


class RealKills(Real):
    maxDiff = None
    real: RealTeXmacs

    def setUp(self) -> None:
        super().setUp()
        self.shown: Dict[str, Answered] = {}
        self.lines = 0
        self.dice = random.Random(1)

    def begins_document(self) -> None:
        self.real = self.texmacs_of()
        self.session = self.begins(self.real, "python")
        self.next_line()
        self.keeps_document(self.real)

    def next_line(self) -> None:
        """A line whose answer is its number."""
        self.lines += 1
        self.says(self.real, self.session, f"'line {self.lines}'")
        for id, reported in self.answers().items():
            self.assertEqual(self.shown.setdefault(id, reported), reported)

    def answers(self) -> Dict[str, Answered]:
        """What is shown as answers, without the remarks before them. What tmhost-texmacs says in the place of one begins with a question mark."""
        found = {id: reported._replace(output=REMARKS.sub("", reported.output)) for id, reported in self.real.answers().items()}
        return {id: reported for id, reported in found.items() if "? " not in reported.output}

    def is_answered(self) -> bool:
        """Whether the last line has its own answer."""
        wanted = f"'line {self.lines}'"
        return any(reported == (wanted, wanted) for reported in self.shown.values())

    def kills_the_bridge(self) -> None:
        """The program of the session, which TeXmacs started."""
        self.kill([one for one in processes("-B", "python") if f"TMHOST_TEXMACS_WORKSHEET={self.sheet}" in environment_of(one)])

    def kills_the_keeper(self) -> None:
        self.kill(processes("--keep", self.sheet))

    def kills_tmhost(self) -> None:
        self.kill(processes("live", self.sheet))

    def kill(self, found: List[int]) -> None:
        self.assertTrue(found)
        for one in found:
            os.kill(one, signal.SIGKILL)

    def kills_texmacs(self) -> None:
        self.real.kill()
        self.real.end()
        self.holds()
        self.real = self.texmacs_of()
        self.enters(self.real, self.session)

    def goes_on(self) -> None:
        """The session takes lines again."""
        for _ in range(TRIES):
            self.next_line()
            if self.is_answered():
                return
        self.fail("the session takes no line any more")

    def holds(self) -> None:
        """What was shown is in the worksheet."""
        kept = {str(field.id): field for field in self.fields()}
        for id, reported in self.shown.items():
            self.assertEqual((kept[id].input, str(kept[id].answer)), reported)

    def test_kills(self) -> None:
        kinds = [self.kills_texmacs, self.kills_the_bridge, self.kills_the_keeper, self.kills_tmhost]
        self.begins_document()
        for at in range(KILLS):
            until = time.monotonic() + 2 * self.dice.random()
            while time.monotonic() < until:
                self.next_line()
            self.assertTrue(self.is_answered())
            self.real.types(BUSY)
            time.sleep(self.dice.random())
            kinds[at % len(kinds)]()
            if at % len(kinds):
                self.real.waits(self.session)
            self.goes_on()
        self.real.end()
        self.holds()
        self.gets_all_again()
        print(f"{self.id().split('.')[-1]}: {KILLS} kills in turn, {len(self.shown)} answers shown, all there", file=sys.stderr)

    def gets_all_again(self) -> None:
        """The document, which was saved with its first line alone, gets all others."""
        kept = [str(field.id) for field in self.fields()]
        self.real = self.texmacs_of()
        self.enters(self.real, self.session)
        self.restores(self.real, self.session, kept)
        self.real.shoots("restored")
        again = self.answers()
        self.assertEqual({id: again[id] for id in self.shown}, self.shown)
