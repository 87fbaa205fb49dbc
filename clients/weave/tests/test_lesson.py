"""The lesson of examples, which wants Python and a shell alone, and the first lesson of README."""
import os
import re
import shutil
import subprocess
import sys
import unittest

from .support import PROGRAM, ROOT, Case, answers

PAGES = os.path.join(ROOT, ".ci", "commands")


class Lesson(Case):
    def test_a_copy_is_woven(self) -> None:
        text = self.read(os.path.join(ROOT, "examples", "lesson.md"))
        woven = self.weave(text, LC_ALL="C")
        self.assertEqual(answers(woven), ["      2 to\n      2 be", "[('to', 2), ('be', 2)]", "0", "13"])
        self.assertEqual(re.sub(r"\n```tmhost-answer\n.*?\n```\n", "", woven, flags=re.DOTALL), text)

    @unittest.skipUnless(os.path.exists(PAGES) and shutil.which("git"), "this is no checkout, or there is no git")
    def test_the_first_lesson_is_as_its_page_shows(self) -> None:
        path = os.pathsep.join([os.path.dirname(sys.executable), os.environ["PATH"]])  # the first python3 there has what a weave wants
        ran = subprocess.run([PAGES, "clients/weave/README.md"], cwd=ROOT, env={**os.environ, "PATH": path, "TMHOST": PROGRAM}, capture_output=True, text=True, timeout=300)
        self.assertEqual((ran.returncode, " 0 not, 0 skipped\n" in ran.stdout), (0, True), ran.stdout + ran.stderr)
