"""`kill -9` at random moments, of the weave and of the program below it: no kept answer is lost, and the next weave ends in the text of one
that wasn't killed. TMHOST_KILLS says how many kills of each kind are made.
"""
import contextlib
import os
import random
import signal
import subprocess
import sys
import time
from typing import Callable, Dict, List, Tuple

from .interpreter import value
from .support import Case, answers, children_of, command_words, environment, fences

KILLS = int(os.environ.get("TMHOST_KILLS", "20"))
SLEEP = "0.01"  # seconds that a line takes

Blocks = List[Tuple[str, str]]


def kill_program(pid: int) -> None:
    """Ends the program that a weave runs, at the moment at which it runs one."""
    until = time.monotonic() + 1
    while time.monotonic() < until:
        for child in children_of(pid):
            with contextlib.suppress(ProcessLookupError):
                os.kill(child, signal.SIGKILL)
            return
        time.sleep(0.002)


def kill_weave(pid: int) -> None:
    os.kill(pid, signal.SIGKILL)


def inputs_of(blocks: Blocks, session: str) -> List[str]:
    return [line for info, code in blocks if info == session for line in code.split("\n")]


def expected(blocks: Blocks) -> List[str]:
    """The answers of a text, in its order."""
    after: Dict[str, List[str]] = {}
    found = []
    for info, code in blocks:
        name = info.split(" ")[0]
        if "pure" in info:
            found.append(value([code.replace("\n", "\u2028")]))
            continue
        for line in code.split("\n"):
            after.setdefault(name, []).append(line)
            found.append(value(after[name]))
    return found


class Kills(Case):
    def setUp(self) -> None:
        super().setUp()
        self.random = random.Random(self.id())
        self.number = 0

    def block(self) -> Tuple[str, str]:
        """A fence, of few words, so that many are alike."""
        lines = "\n".join(f"line {self.random.randrange(4)}" for _ in range(self.random.randrange(1, 4)))
        return self.random.choice(["a", "a", "b", "b", "a {pure}"]), lines

    def changed(self, blocks: Blocks) -> Blocks:
        blocks = list(blocks)
        for _ in range(self.random.randrange(1, 3)):
            at = self.random.randrange(len(blocks))
            kind = self.random.randrange(4)
            if kind == 0 and len(blocks) > 8:
                del blocks[at]
            elif kind == 1 and len(blocks) < 16:
                blocks.insert(at, self.block())
            else:
                blocks[at] = self.block()
        return blocks

    def kept(self, old: Blocks, new: Blocks) -> Dict[str, List[Tuple[str, str]]]:
        """Of each session the inputs and answers that a change leaves: those in front of the first fence that isn't as it was."""
        found = {}
        for name in "ab":
            have, count = inputs_of(old, name), 0
            for info, code in new:
                lines = code.split("\n")
                if info == name:
                    if have[count : count + len(lines)] != lines:
                        break
                    count += len(lines)
            found[name] = [(have[at], value(have[: at + 1])) for at in range(count)]
        return found

    def holds(self, kept: Dict[str, List[Tuple[str, str]]]) -> int:
        """The worksheet has these answers."""
        fields = self.fields()
        for name, pairs in kept.items():
            have = [(field["input"], field.get("shown")) for field in fields if field["session"] == name]
            self.assertEqual(have[: len(pairs)], pairs)
        return sum(map(len, kept.values()))

    def killed(self, kill: Callable[[int], None], longest: float) -> bool:
        """Runs a weave that is killed at a random moment, and tells whether it was."""
        with subprocess.Popen(command_words(self.text), env=environment(TMHOST_SLEEP=SLEEP), stderr=subprocess.PIPE) as weave:
            with contextlib.suppress(subprocess.TimeoutExpired):
                weave.wait(self.random.uniform(0.05, longest))
            if weave.poll() is None:
                kill(weave.pid)
            weave.communicate()
        return weave.returncode != 0

    def many(self, kill: Callable[[int], None]) -> None:
        """Texts that are changed again and again, also while the weave of the change before hasn't come to its end."""
        blocks = [self.block() for _ in range(10)]
        text = self.front("a", "b") + fences(blocks)
        begun = time.monotonic()
        self.weave(text, TMHOST_SLEEP=SLEEP)
        longest = (time.monotonic() - begun) * 1.1
        kills = ended = held = 0
        while kills < KILLS:
            changed = self.changed(blocks)
            kept = self.kept(blocks, changed)
            self.write(self.front("a", "b") + fences(changed))
            before = self.read()
            for _ in range(self.random.randrange(1, 4)):
                if self.killed(kill, longest):
                    kills += 1
                    self.assertIn(self.read(), [before, self.clean(changed)])
                held += self.holds(kept)
            if self.random.random() < 0.5:
                self.finish(changed)
                blocks, ended = changed, ended + 1
            else:
                # The next change comes on top of one that may be half done: what is kept of both is in front of either.
                self.write(self.front("a", "b") + fences(self.changed(changed)))
                self.killed(kill, longest)
                self.finish(blocks)
        print(f"{self.id().split('.')[-1]}: {kills} kills, {ended} texts ended, {held} kept answers looked at, all there", file=sys.stderr)

    def finish(self, blocks: Blocks) -> None:
        """The next weave ends in the right text, and so does a weave of that."""
        woven = self.weave(self.front("a", "b") + fences(blocks))
        self.assertEqual(woven, self.clean(blocks))
        self.assertEqual(answers(woven), expected(blocks))
        self.assertEqual([name for name in os.listdir(self.folder) if ".new" in name or ".tmhost-weave" in name], [])

    def clean(self, blocks: Blocks) -> str:
        """The woven text, as it is expected."""
        parts = [self.front("a", "b")]
        found = iter(expected(blocks))
        for at, (info, code) in enumerate(blocks):
            count = 1 if "pure" in info else code.count("\n") + 1
            parts.append(f"Text {at}.\n\n```{info}\n{code}\n```\n")
            parts += [f"\n```tmhost-answer\n{next(found)}\n```\n" for _ in range(count)]
            parts.append("\n")
        return "".join(parts)

    def test_weave(self) -> None:
        self.many(kill_weave)

    def test_program(self) -> None:
        self.many(kill_program)

    def test_interpreter(self) -> None:
        """No line is answered by an interpreter that was started again, and so hasn't got the lines before it."""
        for _ in range(max(4, KILLS // 2)):
            blocks = [("a", self.block()[1]) for _ in range(10)]
            self.write(self.front("a") + fences(blocks))
            with subprocess.Popen(command_words(self.text), env=environment(TMHOST_SLEEP="0.002"), stderr=subprocess.PIPE) as weave:
                while not os.path.exists(self.place("a.log")):
                    time.sleep(0.002)
                time.sleep(self.random.uniform(0, 0.1))
                for pid in (interpreter for program in children_of(weave.pid) for interpreter in children_of(program)):
                    with contextlib.suppress(ProcessLookupError):
                        os.kill(pid, signal.SIGKILL)
                weave.communicate()
            self.logged("a")
            found = answers(self.read())
            self.assertEqual(found, expected(blocks)[: len(found)])
            self.assertEqual(answers(self.weave(self.front("a") + fences(blocks))), expected(blocks))
            self.logged("a")

    def test_an_end_after_an_answer(self) -> None:
        """What stands after it gets no answer, neither by this weave nor by the next one."""
        blocks = [("a", "x\nbye"), ("a", "y"), ("a", "z")]
        for _ in range(2):
            woven = self.weave(self.front("a") + fences(blocks), 1)
            self.assertEqual(answers(woven), [value(["x"]), value(["x", "bye"])])
            # Whether the end is seen before the next line is sent or after it, that line has no answer: which of both is said.
            self.assertEqual(woven.count("```tmhost-no-answer\n"), 2, woven)
            self.assertEqual([field["state"] == "answered" for field in self.fields()], [True, True, False, False])

    def test_first_weave(self) -> None:
        """Kills while the worksheet is made, too."""
        blocks = [self.block() for _ in range(4)]
        for _ in range(max(4, KILLS // 4)):
            self.write(self.front("a", "b") + fences(blocks))
            while self.killed(self.random.choice([kill_weave, kill_program]), 0.8):
                pass
            self.assertEqual(self.read(), self.clean(blocks))
            for name in (self.sheet, self.sheet + ".alt"):
                os.remove(name)
