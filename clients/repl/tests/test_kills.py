"""`kill -9` at random moments, of the command and of the program below it: what was shown as answered is there when it is opened again.

TMHOST_KILLS says how many kills of each kind are made.
"""
import os
import random
import re
import signal
import subprocess
import sys
import threading
import time
from typing import Callable, List

from .support import COMMAND, Case, Terminal, children_of, environment

KILLS = int(os.environ.get("TMHOST_KILLS", "12"))
LINES = [f"say answer {number}" for number in range(2000)]  # more than are answered before a kill: one that waits for a line sees no end of the program


def kill_program(pid: int) -> None:
    for child in children_of(pid):
        os.kill(child, signal.SIGKILL)


def kill_command(pid: int) -> None:
    os.kill(pid, signal.SIGKILL)


class Kills(Case):
    def setUp(self) -> None:
        super().setUp()
        self.random = random.Random(self.id())

    def holds(self, shown: List[str]) -> None:
        """The worksheet has what was shown, in its order, and at most one line more; no line twice, none left out."""
        pairs = self.pairs()
        self.assertEqual([input for input, _ in pairs], LINES[: len(pairs)])
        self.assertEqual([answer for _, answer in pairs][: len(shown)], shown)
        self.assertLessEqual(len(pairs), len(shown) + 1)

    def in_a_pipe(self, kill: Callable[[int], None]) -> int:
        self.make()
        with subprocess.Popen(
            [sys.executable, "-B", COMMAND, self.sheet, "t"], stdin=subprocess.PIPE, stdout=subprocess.PIPE, stderr=subprocess.PIPE,
            env=environment(),
        ) as command:
            assert command.stdin and command.stdout and command.stderr
            command.stdin.write("".join(line + "\n" for line in LINES).encode())
            command.stdin.flush()
            first = command.stdout.readline()
            after = self.random.random() * 0.3
            killer = threading.Timer(after, kill, [command.pid])
            killer.start()
            reported = (first + command.stdout.read()).decode()
            killer.join()
            command.stdin.close()
            self.assertEqual(command.wait(120), -9 if kill is kill_command else 1)
            if kill is kill_program:
                self.assertRegex(command.stderr.read(), b"by signal 9")
        # Each line of output is written whole, by one write.
        self.assertTrue(reported.endswith("\n"))
        shown = reported.splitlines()
        self.assertEqual(shown, [line[4:] for line in LINES[: len(shown)]])
        self.holds(shown)
        return len(shown)

    def at_a_terminal(self, kill: Callable[[int], None]) -> int:
        self.make()
        terminal = Terminal([self.sheet, "t"])
        self.addCleanup(terminal.close)
        terminal.sees("t>")
        terminal.send(LINES[0] + "\r")
        terminal.sees("\nanswer 0")
        until = time.monotonic() + self.random.random()
        sent = 1
        while time.monotonic() < until:
            if terminal.screen.text().count("\nanswer") >= sent and sent < len(LINES):
                terminal.send(LINES[sent] + "\r")
                sent += 1
            terminal.look()
        kill(terminal.pid)
        if kill is kill_program:
            terminal.send("one more\r")
        status = terminal.ends()
        self.assertEqual(status, -9 if kill is kill_command else 1)
        shown = re.findall(r"^answer \d+$", terminal.screen.text(), re.MULTILINE)
        if kill is kill_program:
            self.assertIn("by signal 9", terminal.screen.text())
        self.holds(shown)
        return len(shown)

    def many(self, one: Callable[[Callable[[int], None]], int], kill: Callable[[int], None]) -> None:
        shown = 0
        for _ in range(KILLS):
            for name in (self.sheet, self.sheet + ".alt"):
                if os.path.exists(name):
                    os.remove(name)
            shown += one(kill)
        print(f"{self.id().split('.')[-1]}: {KILLS} kills, {shown} answers shown, all there", file=sys.stderr)
        self.assertGreaterEqual(shown, KILLS)

    def test_command_in_a_pipe(self) -> None:
        self.many(self.in_a_pipe, kill_command)

    def test_program_in_a_pipe(self) -> None:
        self.many(self.in_a_pipe, kill_program)

    def test_command_at_a_terminal(self) -> None:
        self.many(self.at_a_terminal, kill_command)

    def test_program_at_a_terminal(self) -> None:
        self.many(self.at_a_terminal, kill_program)
