"""What the tests share: the command in a folder of its own, and documents."""
import dataclasses
import importlib.util
import json
import os
import shutil
import subprocess
import tempfile
import unittest

from tested import PROGRAM as PROGRAM, InFolder

HERE = os.path.dirname(os.path.realpath(__file__))
ROOT = os.path.dirname(os.path.dirname(os.path.dirname(HERE)))
COMMAND = os.path.join(os.path.dirname(HERE), "tmhost-import")
LINE_END = "\u2028"
os.environ["PATH"] = os.pathsep.join([os.path.join(ROOT, "adapters", "bin"), os.environ.get("PATH", os.defpath)])  # where the program finds the adapters
PYTHON = {"kernelspec": {"name": "python3", "display_name": "Python 3", "language": "python"}, "language_info": {"name": "python"}}

needs_program = unittest.skipUnless(os.path.isfile(PROGRAM), "there is no built tmhost, and TMHOST names none")
needs_nbformat = unittest.skipUnless(importlib.util.find_spec("nbformat"), "there is no nbformat (Debian's package python3-nbformat)")
needs_markdown_it = unittest.skipUnless(importlib.util.find_spec("markdown_it"), "there is no markdown_it (Debian's package python3-markdown-it)")


@dataclasses.dataclass
class Done:
    status: int
    out: str
    errors: str


def code(source: object, session: object = None, **more: object) -> dict[str, object]:
    """A code cell."""
    about = {} if session is None else {"tmhost": {"session": session}}
    return {"cell_type": "code", "execution_count": None, "metadata": about, "outputs": [], "source": source, **more}


def notebook(*cells: object, **more: object) -> str:
    return json.dumps({"cells": cells, "metadata": PYTHON, "nbformat": 4, "nbformat_minor": 4, **more})


def without_nbformat(folder: str) -> dict[str, str]:
    """The environment in which there is no nbformat; the folder is made for it."""
    os.mkdir(folder)
    with open(os.path.join(folder, "nbformat.py"), "w", encoding="ascii") as file:
        file.write("raise ImportError")
    return {"PYTHONPATH": os.pathsep.join([folder, *filter(None, [os.environ.get("PYTHONPATH")])])}


class Case(InFolder):
    def setUp(self) -> None:
        self.folder = tempfile.mkdtemp(prefix="tmhost-import-test.")
        self.addCleanup(shutil.rmtree, self.folder)

    def write(self, name: str, data: str | bytes) -> str:
        with open(self.place(name), "wb") as file:
            file.write(data.encode("utf-8") if isinstance(data, str) else data)
        return self.place(name)

    def files(self) -> dict[str, bytes]:
        """The files of the folder, each with its bytes."""
        found = {}
        for name in os.listdir(self.folder):
            with open(self.place(name), "rb") as file:
                found[name] = file.read()
        return found

    def do(self, *words: str, data: str | bytes = b"", **environment: str) -> Done:
        """Runs the command in the folder."""
        sent = data.encode("utf-8") if isinstance(data, str) else data
        environment = {**os.environ, "TMHOST": PROGRAM, **environment}
        done = subprocess.run([COMMAND, *words], input=sent, capture_output=True, env=environment, cwd=self.folder, timeout=300)
        self.assertNotIn(b"Traceback", done.stderr)
        return Done(done.returncode, done.stdout.decode("utf-8"), done.stderr.decode("utf-8"))

    def script(self, text: str | bytes, *words: str, form: str = "notebook") -> list[str]:
        """The lines of the script for a document."""
        done = self.do("--script", "--format", form, *words, data=text)
        self.assertEqual((done.status, done.out[-1:]), (0, "\n"), done.errors)
        return done.out[:-1].split("\n")

    def inputs(self, text: str | bytes, *words: str, form: str = "notebook") -> list[tuple[str, str]]:
        """The sessions and the inputs of the fields that a document becomes."""
        news = [line.split(" ", 3) for line in self.script(text, *words, form=form) if line.startswith("new ")]
        self.assertEqual([int(parts[1]) for parts in news], list(range(len(news))))
        return [(parts[2], parts[3]) for parts in news]

    def refused(self, text: str | bytes, said: str, *words: str, form: str = "notebook") -> None:
        """A document of which nothing is made, and why."""
        before = self.files()
        done = self.do("--format", form, *words, "new", data=text)
        self.assertEqual((done.status, done.out), (1, ""), done.errors)
        self.assertIn(said, done.errors)
        self.assertEqual(self.files(), before)

    def host(self, *words: str, data: str = "") -> str:
        """What the program writes."""
        done = subprocess.run([PROGRAM, *words], input=data.encode("utf-8"), capture_output=True, cwd=self.folder, timeout=300)
        self.assertEqual((done.returncode, done.stderr), (0, b""))
        return done.stdout.decode("utf-8")
