"""Forty lines in each of three systems, completions, and an interrupt."""
import shutil
import time

from .lines import BUSY, COMPLETED, LINES, PROGRAMS
from .support import Case


class Systems(Case):
    def evaluated(self, name: str) -> None:
        if shutil.which(PROGRAMS[name]) is None:
            self.skipTest(f"there is no {PROGRAMS[name]}")
        texmacs = self.texmacs(f"{name}:x")
        shown, before = {}, ""
        for line, has in LINES[name]:
            reported = texmacs.evaluate(line, before=before)
            with self.subTest(line=line):
                self.assertIn(has, reported.text)
            shown[reported.id], before = line, reported.id
        self.assertEqual(len(shown), 40)
        text, has = COMPLETED[name]
        self.assertIn(has, texmacs.completes(text))
        texmacs.begin(BUSY[name], before=before)
        time.sleep(2)
        texmacs.interrupt()
        texmacs.answer()
        self.assertIn("42", texmacs.evaluate("6 * 7").text)
        kept = self.kept()
        self.assertEqual({id: kept[id][0].replace("\u2028", "\n") for id in shown}, shown)
        self.assertNotIn(None, [answer for _, answer in kept.values()])

    def test_gp(self) -> None:
        self.evaluated("gp")

    def test_python(self) -> None:
        self.evaluated("python")

    def test_maxima(self) -> None:
        self.evaluated("maxima")
