"""The suite of examples/suite, as its README says, and the first suite of tmhost-suite's own."""
import json
import os
import shutil
import subprocess
import sys
import unittest
from xml.etree import ElementTree

from .support import LIMIT, PROGRAM, ROOT, Case


def command_in(name: str, key: str) -> str:
    """The last command after this key of a nightly file."""
    with open(os.path.join(ROOT, "examples/suite", name), encoding="utf-8") as file:
        return [line.partition(key)[2].strip() for line in file if line.lstrip().startswith(key)][-1]


PAGES = os.path.join(ROOT, ".ci", "commands")


class First(Case):
    @unittest.skipUnless(os.path.exists(PAGES) and shutil.which("git"), "this is no checkout, or there is no git")
    def test_the_first_suite_is_as_its_page_shows(self) -> None:
        path = os.pathsep.join([os.path.dirname(sys.executable), os.environ["PATH"]])  # the first python3 there has what a suite wants
        ran = subprocess.run([PAGES, "clients/suite/README.md"], cwd=ROOT, env={**os.environ, "PATH": path, "TMHOST": PROGRAM}, capture_output=True, text=True, timeout=LIMIT)
        self.assertEqual((ran.returncode, " 0 not, 0 skipped\n" in ran.stdout), (0, True), ran.stdout + ran.stderr)


class Example(Case):
    def setUp(self) -> None:
        super().setUp()
        os.mkdir(self.place("suite"))
        shutil.copy(os.path.join(ROOT, "examples/suite/python.md"), self.place("suite"))
        shutil.copy(os.path.join(ROOT, "examples/python.py"), self.folder)
        os.symlink(os.path.join(ROOT, "clients"), self.place("clients"))
        self.top, self.folder = self.folder, self.place("suite")

    def test_it_passes(self) -> None:
        ran = self.run_suite("python.md")
        self.assertEqual((ran.status, ran.output.partition(" in ")[0], ran.errors), (0, "11 ok, 1 xfail, 1 skip", ""))

    def test_a_change_of_its_interpreter(self) -> None:
        with open(os.path.join(self.folder, "../python.py"), encoding="utf-8") as file:
            text = file.read()
        self.assertIn("print(repr(value))", text)
        with open(os.path.join(self.folder, "../python.py"), "w", encoding="utf-8") as file:
            file.write(text.replace("repr(value)", "str(value)"))
        ran = self.run_suite("python.md")
        reported = 'differs: python.md:33 "a" + "b"\n  @@ -1 +1 @@\n  -\'ab\'\n  +ab\n10 ok, 1 xfail, 1 skip, 1 differs'
        self.assertEqual((ran.status, ran.output.partition(" in ")[0]), (1, reported))

    def run_nightly(self, command: str, **variables: str) -> str:
        """What a step of a nightly file prints where the suite's folder is `examples/suite`; one case differs."""
        os.mkdir(os.path.join(self.top, "examples"))
        shutil.copy(os.path.join(self.top, "python.py"), os.path.join(self.top, "examples"))
        place = os.path.join(self.top, "examples/suite")
        os.rename(self.folder, place)
        with open(os.path.join(place, "python.md"), "a", encoding="utf-8") as file:
            file.write("\n```py\n1 + 1\n```\n\n```answer\n3\n```\n")
        ran = subprocess.run(["sh", "-c", command], capture_output=True, text=True, cwd=place, env={**os.environ, "TMHOST": PROGRAM, **variables}, timeout=LIMIT)
        self.assertEqual((ran.returncode, ran.stderr), (1, ""))
        # On a busy machine more of them may be over their time.
        self.assertGreaterEqual(int(ElementTree.parse(os.path.join(place, "report.xml")).getroot()[0].get("failures", "0")), 1)
        self.folder = place
        return ran.stdout

    def test_its_night_on_github(self) -> None:
        command = command_in("nightly.github.yml", "- run:")
        self.assertIn("::error file=examples/suite/python.md,line=119,", self.run_nightly(command, GITHUB_WORKSPACE=self.top))

    def test_its_night_on_gitlab(self) -> None:
        command = command_in("nightly.gitlab.yml", "- ").partition(" ")[2]
        self.run_nightly(command, CI_PROJECT_DIR=self.top)
        with open(os.path.join(self.folder, "quality.json"), encoding="utf-8") as file:
            self.assertIn({"path": "examples/suite/python.md", "lines": {"begin": 119}}, [one["location"] for one in json.load(file)])
