"""Where the worksheet of a kernel is."""
import os
import subprocess
import sys

from tests.support import CLIENT, Case
from tmhost_jupyter.sheet import Given, Place, place

SAYS = "from tmhost_jupyter.sheet import Given, place; print(*place(Given('kernel', 'a', (), False, '')))"
RUNS = "import subprocess, sys; sys.stdout.write(subprocess.run([sys.executable, '-c', {says!r}], stdout=subprocess.PIPE, text=True, cwd='/').stdout)"


def given(sheet: str = "") -> Given:
    return Given("kernel", "a", (), False, sheet)


class Places(Case):
    def setUp(self) -> None:
        super().setUp()
        self.set_environment(JPY_PARENT_PID=None, PYTHONPATH=os.pathsep.join([CLIENT, os.path.join(os.path.dirname(CLIENT), "python")]))

    def test_one_that_is_named(self) -> None:
        self.set_environment(TMHOST_SHEET="/x/mine", JPY_SESSION_NAME=self.place("lesson.ipynb"))
        self.assertEqual(place(given("/y/other")), Place("/y/other", True))
        self.assertEqual(place(given()), Place("/x/mine", True))

    def test_beside_the_notebook(self) -> None:
        for session, path, is_own in (
            (self.place("lesson.ipynb"), self.place("lesson.tmhost"), True),
            ("no folder/lesson.ipynb", "lesson.tmhost", True),  # seen from the server's folder, and a kernel's is the notebook's
            ("lesson.ipynb", "lesson.tmhost", True),
            ("console-1-0b4c", "kernel.tmhost", False),
        ):
            self.set_environment(JPY_SESSION_NAME=session)
            self.assertEqual(place(given()), Place(path, is_own))

    def run_by(self, program: str, *words: str) -> str:
        """Where the worksheet of a kernel is that a program of this name starts."""
        with open(self.place(program), "w", encoding="utf-8") as file:
            file.write(RUNS.format(says=SAYS))
        return subprocess.run([sys.executable, self.place(program), *words], stdout=subprocess.PIPE, text=True, cwd=self.folder).stdout.strip()

    def test_beside_a_notebook_that_is_run(self) -> None:
        os.mkdir(self.place("sub"))
        for name in ("in.ipynb", "sub/other.ipynb", "out.ipynb"):
            with open(self.place(name), "w", encoding="utf-8"):
                pass
        folder = os.path.realpath(self.folder)
        self.assertEqual(self.run_by("jupyter-nbconvert", "--execute", "--output", "out.ipynb", "sub/other.ipynb"), f"{folder}/sub/other.tmhost True")
        self.assertEqual(self.run_by("papermill", "in.ipynb", "made.ipynb"), f"{folder}/in.tmhost True")
        self.assertEqual(self.run_by("jupyter-execute", "none.ipynb"), "kernel.tmhost False")
        self.assertEqual(self.run_by("jupyter-notebook", "in.ipynb"), "kernel.tmhost False")  # which opens others, too
