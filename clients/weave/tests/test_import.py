"""A woven text as `tmhost-import` reads it: the fields of the weave's worksheet, without the answers in the text."""
import os
import subprocess
import sys
import unittest
from typing import List

from .support import PROGRAM, ROOT, Case, environment, fences

IMPORT = os.path.join(ROOT, "clients/import/tmhost-import")


@unittest.skipIf(sys.version_info < (3, 11), "tmhost-import wants Python 3.11")
class Import(Case):
    def lines(self, path: str) -> List[str]:
        """The sessions and fields of a worksheet as lines of a script."""
        shown = subprocess.run([PROGRAM, "export", "script", path], capture_output=True, check=True).stdout.decode()
        return [line for line in shown.split("\n")[:-1] if not line.startswith("session tmhost-weave ")]

    def test_woven_text(self) -> None:
        blocks = [("a", "x\n  y\n\nz"), ("b {fold}", "u"), ("a", "say ```"), ("{.b .hide}", "v"), ("a", "say ~~~\n  w"), ("b", "latex $x$")]
        self.weave(self.front("a", "b") + "> ```a\n> quoted\n> ```\n\n" + fences(blocks))
        new = self.place("new")
        done = subprocess.run([sys.executable, "-B", IMPORT, "--no-prose", self.text, new], capture_output=True, env=environment())
        self.assertEqual(done.returncode, 0, done.stderr.decode())
        self.assertEqual(self.lines(new), self.lines(self.sheet))
        self.assertEqual(len(self.lines(new)), 10)

    def test_prose_of_a_woven_text(self) -> None:
        """The text between the fences, without an answer that stands there."""
        self.weave(self.front("a", "b") + "# Title\n\n" + fences([("a", "x"), ("b {fold}", "latex $x$"), ("b", "latex $y$")]) + "\n- text\n")
        with open(self.text, encoding="utf-8") as file:
            self.assertGreater(file.read().count("tmhost-answer"), 4)
        done = subprocess.run([sys.executable, "-B", IMPORT, "--script", self.text], capture_output=True, env=environment())
        lines = [line.split(" ", 2)[2] for line in done.stdout.decode().split("\n") if line.startswith("new ")]
        texts = ["prose # Title\u2028\u2028Text 0.", "prose Text 1.", "prose Text 2.", "prose - text"]
        self.assertEqual(lines, [texts[0], "a x", texts[1], "b latex $x$", texts[2], "b latex $y$", texts[3]])
