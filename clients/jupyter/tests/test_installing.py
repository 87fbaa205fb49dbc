"""Kernels as Jupyter finds them."""
import json
import os
import subprocess
import sys
import unittest
from typing import Any, Dict, List, Tuple

from tests.support import COMMAND, INTERPRETER, PROGRAM, Case, Front, fields_of, needs_program
from tmhost.starting import PROGRAMS
from tmhost_fences.python import DEBIANS, count_there
from tmhost_jupyter.languages import LANGUAGES, PREFIX


class Languages(unittest.TestCase):
    def test_that_each_adapter_has_one(self) -> None:
        self.assertEqual({name: language.words[0] for name, language in LANGUAGES.items()}, {name: PREFIX + name for name in PROGRAMS})


@needs_program
class Installing(Case):
    def kernel(self, name: str) -> Dict[str, Any]:
        with open(self.place(f"share/jupyter/kernels/{name}/kernel.json"), encoding="utf-8") as file:
            found: Dict[str, Any] = json.load(file)
        return found

    def test_a_language(self) -> None:
        self.install("gp")
        found = self.kernel("tmhost-gp")
        self.assertEqual((found["display_name"], found["language"], found["env"]["TMHOST"]), ("PARI/GP (tmhost)", "gp", PROGRAM))
        at = found["argv"].index("--name")
        self.assertEqual(found["argv"][at:], ["--name", "tmhost-gp", "--session", "gp", "--tab", "--", "tmhost-gp", "--no-numbers"])
        self.assertIn(COMMAND, found["argv"])

    @unittest.skipUnless(count_there(["ipykernel", "jupyter_client"], (3, 9)) == 2, "Debian's Python has no Jupyter (python3-ipykernel)")
    def test_the_python_that_has_jupyter(self) -> None:
        """One that has no packages goes on in Debian's."""
        os.symlink(sys.executable, self.place("python3"))
        done = subprocess.run([self.place("python3"), "-S", "-B", COMMAND, "install", "--prefix", self.folder, "lua"], capture_output=True, text=True)
        self.assertEqual((done.returncode, done.stderr), (0, ""))
        self.assertEqual((self.kernel("tmhost-lua")["argv"][0], self.kernel("tmhost-lua")["argv"][-2:]), (DEBIANS, ["--", "tmhost-lua"]))

    def test_words(self) -> None:
        os.mkdir(self.place("bin"))
        with open(self.place("bin/mine"), "w", encoding="utf-8"):
            pass
        self.install("--name", "n", "--title", "Mine", "bin/mine", "--text", "a/b")
        found = self.kernel("n")
        self.assertEqual((found["display_name"], found["argv"][-4:]), ("Mine", ["--", self.place("bin/mine"), "--text", "a/b"]))

    def test_a_session_of_a_worksheet(self) -> None:
        script = f"session a plain {' '.join(INTERPRETER)}\nnew 0 a one\nsession b plain cat\n"
        subprocess.run([PROGRAM, "create", self.place("my sheet.tmhost")], check=True)
        subprocess.run([PROGRAM, "run", self.place("my sheet.tmhost")], input=script, text=True, stdout=subprocess.DEVNULL, check=True)
        done = self.command("install", "--prefix", self.folder, "--sheet", "my sheet.tmhost")
        self.assertEqual((done.returncode, done.stderr), (2, "tmhost-jupyter-kernel: --session has to name one of the sessions of my sheet.tmhost: a, b\n"))
        self.install("--sheet", "my sheet.tmhost", "--session", "a")
        self.assertEqual(self.kernel("tmhost-my-sheet-a")["display_name"], "my sheet: a (tmhost)")
        os.mkdir(self.place("elsewhere"))
        with Front(self.place("elsewhere"), "tmhost-my-sheet-a") as front:
            self.assertEqual(front.text("one"), "one 1")
        self.assertEqual([(field.session, str(field.answer)) for field in fields_of(self.place("my sheet.tmhost"))], [("a", "one 1")])

    def test_what_is_refused(self) -> None:
        refused: List[Tuple[List[str], str]] = [
            ([], "name a language"),
            (["--sheet", "none"], "No such file"),
            (["--session", "a b", "cat"], "1 to 32 letters"),
            (["--sheet", "x", "cat"], "--sheet goes with no others"),
        ]
        for words, why in refused:
            done = self.command("install", "--prefix", self.folder, *words)
            self.assertNotEqual(done.returncode, 0)
            self.assertIn(why, done.stderr)
        self.assertFalse(os.path.exists(self.place("share")))

    @unittest.skipUnless(os.path.exists("/dev/full"), "there is no /dev/full")
    def test_a_help_that_cannot_be_written(self) -> None:
        """On a full disk a line says why. Of a pipe whose reader has gone nothing is said: that has seen enough."""
        reader, writer = os.pipe()
        os.close(reader)
        with open("/dev/full", "wb") as full, os.fdopen(writer, "wb") as gone:
            for output, said in ((full, "tmhost-jupyter-kernel: No space left on device\n"), (gone, "")):
                done = subprocess.run([sys.executable, "-B", COMMAND, "--help"], stdout=output, stderr=subprocess.PIPE, text=True)
                self.assertEqual((done.returncode, done.stderr), (1, said))
