"""Random edits of a text that is watched: after each of them it is what a weave from the start makes of it, and at no moment anything else stands there.
TMHOST_EDITS says how many edits are made of each text."""
import contextlib
import os
import random
import shutil
import signal
import subprocess
import sys
import time
from typing import Callable, List, Tuple

from .support import INTERPRETER, ROOT, command_words, environment, fences
from .watcher import STAYS, WAYS, Watching

EDITS = int(os.environ.get("TMHOST_EDITS", "16"))
MOST = 12  # fences of a text
OF_PYTHON = ["x += 1\nx", "x = 1", "x", "x = x * 2", "def f():\n    return x\nf()", "f()", "x += 1; x", "print(x)\nx -= 1", "del x", "1 / (x - 3)"]

Blocks = List[Tuple[str, str]]


class Edits(Watching):
    """The author has a list of fences: of `a`, whose answers tell all that its interpreter got, and of a Python whose lines count."""

    def setUp(self) -> None:
        super().setUp()
        self.random = random.Random(f"{self.id()} {EDITS}")
        self.words = 0  # a number among the words of the session `a`
        os.mkdir(self.place("fresh"))

    def block(self) -> Tuple[str, str]:
        if self.random.random() < 0.5:
            return self.random.choice(["py", "py", "py {whole}", "py {hide}", "py {pure}"]), self.random.choice(OF_PYTHON)
        lines = "\n".join(f"line {self.random.randrange(4)}" for _ in range(self.random.randrange(1, 4)))
        if self.random.random() < 0.25:
            ends = self.random.choice(["die", "die its words", "bye", "bye\nnever", "die\nnever", "die \\x03\\n\\n"])
            return self.random.choice(["a {ends}", "a {ends}", "a {whole ends}", "a {pure ends}"]), f"{lines}\n{ends}"
        return self.random.choice(["a", "a", "a", "a {whole}", "a {fold}", "a {pure}"]), lines

    def whole(self, blocks: Blocks) -> str:
        words = [sys.executable, INTERPRETER, self.place("a.log"), str(self.words)]
        return self.front(a=words, py=["tmhost-python"]) + f"# {self.random.randrange(100)}\n\n" + fences(blocks)

    def edited(self, blocks: Blocks) -> Blocks:
        """As authors mostly do, at the end; but also elsewhere."""
        blocks, at, kind = list(blocks), self.random.randrange(len(blocks)), self.random.randrange(12)
        if len(blocks) >= MOST:
            del blocks[self.random.randrange(2, MOST) :]
        elif kind < 4:
            blocks.append(self.block())
        elif kind == 4:
            blocks[-1] = blocks[-1][0], blocks[-1][1] + "\n" + self.block()[1]
        elif kind == 5:
            blocks[at] = self.block()
        elif kind == 6:
            blocks.insert(at, blocks.pop(self.random.randrange(len(blocks))))
        elif kind == 7:
            blocks.insert(at, self.block())
        elif kind == 8:
            blocks[at] = self.block()[0], blocks[at][1]
        elif kind == 9:
            self.words = self.random.randrange(2)
        elif kind > 9 and len(blocks) > 2:
            del blocks[at if kind == 10 else -1]
        return blocks

    def fresh(self, text: str) -> str:
        """What a weave without any worksheet makes of a text, in another folder."""
        folder = self.place("fresh")
        shutil.rmtree(folder)
        os.mkdir(folder)
        path = os.path.join(folder, "text.md")
        self.write(text, path)
        done = subprocess.run(command_words(path), env=environment(), cwd=ROOT, capture_output=True, timeout=300)
        self.assertIn(done.returncode, (0, 1), done.stderr)
        return self.read(path)

    def until_it_is(self, wanted: str, allowed: List[str]) -> None:
        """Waits until the text is the one that is wanted. Nothing stands there before but what is allowed."""
        end = time.monotonic() + 60
        while (now := self.text_now()) != wanted:
            self.assertIn(now, ["", *allowed])
            if time.monotonic() > end:
                self.assertEqual(now, wanted, self.said())
            time.sleep(0.01)

    def disturb(self) -> None:
        """Sometimes an interpreter or the program ends by itself, mostly while nothing is evaluated."""
        with contextlib.suppress(ProcessLookupError, IndexError):
            what = self.random.randrange(12)
            if what == 0:
                os.kill(self.random.choice(self.interpreters()), signal.SIGKILL)
            elif what == 1:
                os.kill(self.host(), signal.SIGKILL)
                time.sleep(0.2)

    def many(self, save: Callable[[str], None]) -> None:
        blocks, past = [("py", "x = 1"), self.block()], []
        self.write(self.whole(blocks))
        wanted = self.fresh(self.read())
        with self.watching():
            self.until_said(STAYS)
            for _ in range(EDITS):
                self.until_it_is(wanted, [])
                past.append(blocks)
                blocks = self.random.choice(past[-4:]) if self.random.random() < 0.15 else self.edited(blocks)
                allowed = self.hasty(blocks)
                text = self.whole(blocks)
                if self.random.random() < 0.6:
                    text = self.fresh(text)  # the editor has the answers that stood there
                wanted = self.fresh(text)
                self.disturb()
                save(text)
                self.until_it_is(wanted, [*allowed, text])
            self.until_it_is(wanted, [])
        going = self.said().count(" kept, ") - self.said().count(" replayed")
        print(f"{self.id().split('.')[-1]}: {EDITS} edits, each as a weave from the start; {going} times interpreters went on", file=sys.stderr)

    def hasty(self, blocks: Blocks) -> List[str]:
        """Sometimes a save comes before, which is woven, or isn't any more."""
        if self.random.random() < 0.8:
            return []
        first = self.whole(self.edited(blocks))
        woven = self.fresh(first)
        self.write(first)
        time.sleep(self.random.choice([0.0, 0.2, 0.5, 0.7, 1.0]))
        return [first, woven]

    def test_edits(self) -> None:
        self.many(lambda text: self.random.choice([way for way in WAYS if way.__name__ != "in_pieces"])(self.text, text))
