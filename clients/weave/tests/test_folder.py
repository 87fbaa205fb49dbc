"""Where interpreters start: in the current folder, or in that which the front matter names, seen from the text."""
import os
import subprocess
import sys
from typing import List

from .support import PROGRAM, Case, Outcome, answers, command_words, environment, fences

WHERE = """import os, sys
sys.stdout.write("\\2verbatim:\\5"); sys.stdout.flush()
for line in sys.stdin:
    sys.stdout.write("\\2verbatim:" + os.getcwd() + "\\5"); sys.stdout.flush()
"""


class Folder(Case):
    """`here` is the current folder of weave."""

    def setUp(self) -> None:
        super().setUp()
        self.folder = os.path.realpath(self.folder)
        self.here, self.course = self.place("here"), self.place("course")
        for folder in (self.here, self.course, self.place("course/data")):
            os.mkdir(folder)
        self.write(WHERE, self.place("where.py"))
        self.text = self.place("course/text.md")

    def run_here(self, *words: str, **more: str) -> Outcome:
        done = subprocess.run(command_words(*words), capture_output=True, text=True, env=environment(**more), cwd=self.here, timeout=60)
        return Outcome(done.returncode, done.stdout, done.stderr)

    def document(self, *keys: str, **words: List[str]) -> str:
        front = self.front(**(words or {"a": [sys.executable, self.place("where.py")]}))
        return front.replace("---\n", "".join(f"{line}\n" for line in ("---", *keys)), 1) + fences([("a", "x")])

    def started_in(self, *keys: str) -> str:
        self.write(self.document(*keys))
        done = self.run_here("../course/text.md", TMHOST=os.path.relpath(PROGRAM, self.here))
        self.assertEqual(done.status, 0, done.errors)
        os.unlink(self.place("course/text.sheet"))
        os.unlink(self.place("course/text.sheet.alt"))
        return answers(self.read())[0]

    def test_where_they_start(self) -> None:
        self.assertEqual(self.started_in(), self.here)
        for key, folder in (
            ("folder: .", self.course), ("folder: data", self.place("course/data")), ("folder: ..", self.folder), (f"folder: {self.here}", self.here),
        ):
            self.assertEqual(self.started_in(key), folder, key)

    def test_each_text_has_its_own(self) -> None:
        """The next one starts from the current folder again. A relative name of it, and of a page, is meant from there, too."""
        self.write(self.document("folder: ."))
        self.write(self.document(), self.place("other.md"))
        done = self.run_here("--html", "pages", "../course/text.md", "../other.md")
        self.assertEqual(done.status, 0, done.errors)
        self.assertEqual([answers(self.read(path)) for path in (self.text, self.place("other.md"))], [[self.course], [self.here]])
        self.assertEqual(sorted(os.listdir(self.place("here/pages"))), ["other.html", "text.html"])
        self.assertEqual(self.run_here("--test", "../course/text.md", "../other.md").status, 0)

    def test_words_are_seen_from_there(self) -> None:
        self.write(WHERE, self.place("course/near.py"))
        self.write(self.document("folder: .", a=[sys.executable, "near.py"]))
        self.assertEqual(self.run_here("../course/text.md").status, 0)
        self.write("exit 3\n", self.place("course/ends.sh"))
        self.write(self.document("folder: .", a=["sh", "ends.sh"]))
        self.assertIn("a: sh ends.sh ended with status 3\n", self.run_here("../course/text.md").errors)

    def test_what_is_no_folder(self) -> None:
        """It is said before anything is evaluated."""
        for key, why in (
            ("folder: none", f"`folder` of the front matter: there is no folder {self.course}/none"),
            ("folder: [a]", "`folder` of the front matter is no name of a folder, as in `folder: .`, which is that of the text"),
            ("fodler: .", "the front matter has 'fodler': is folder meant?"),
        ):
            self.write(self.document(key))
            for word in ("--seconds=9", "--check", "--test"):
                done = self.run_here(word, "../course/text.md")
                self.assertEqual((done.status, done.output, done.errors), (1, "", f"../course/text.md: {why}\n"))
            self.assertEqual(sorted(os.listdir(self.course)), ["data", "text.md"])

    def test_keys_of_others(self) -> None:
        """Where no session is named the key is somebody else's, and so are keys that look alike."""
        self.write("---\nfolder: [a]\n---\nText\n")
        self.assertEqual(self.run_here("../course/text.md").status, 0)
        self.write(self.document("order: 1", "header: x", "footer: y", "filter: z"))
        self.assertEqual(self.run_here("../course/text.md").status, 0)
