"""What the tests share: texts in a folder of their own, the command, and what is seen of the worksheet."""
import json
import os
import re
import shutil
import subprocess
import sys
import tempfile
import time
from typing import Any, Dict, List, NamedTuple, Sequence, Tuple

HERE = os.path.dirname(os.path.realpath(__file__))
ROOT = os.path.dirname(os.path.dirname(os.path.dirname(HERE)))
COMMAND = os.path.join(os.path.dirname(HERE), "tmhost-weave")
INTERPRETER = os.path.join(HERE, "interpreter.py")
KEPT = "; kept from an earlier weave: --all evaluates all again\n"  # what is said of errors, at their end
FENCED = re.compile(r"^```tmhost-answer\n(.*?)\n```$", re.MULTILINE | re.DOTALL)

sys.path[:0] = [os.path.dirname(HERE), *(os.path.join(ROOT, "clients", name) for name in ("", "python", "fences", "notebook"))]
from tested import PROGRAM as PROGRAM, WHY, InFolder, children_of as children_of, heed_interrupts as heed_interrupts  # noqa: E402


class Outcome(NamedTuple):
    status: int
    output: str
    errors: str


def environment(**more: str) -> Dict[str, str]:
    return {**os.environ, "TMHOST": PROGRAM, **more}


def command_words(*words: str) -> List[str]:
    return [sys.executable, "-B", COMMAND, *words]


def fences(blocks: Sequence[Tuple[str, str]]) -> str:
    """Fences with these info strings and codes, with a paragraph in front of each."""
    return "".join(f"Text {at}.\n\n```{info}\n{code}\n```\n\n" for at, (info, code) in enumerate(blocks))


class Case(InFolder):
    """`text` and `sheet` are the paths of a text and its worksheet."""

    def setUp(self) -> None:
        if WHY:
            self.skipTest(WHY)
        self.folder = tempfile.mkdtemp(prefix="tmhost-weave-test.")
        self.addCleanup(shutil.rmtree, self.folder)
        self.text, self.sheet = self.place("text.md"), self.place("text.sheet")

    def front(self, *names: str, **words: List[str]) -> str:
        """The front matter for sessions with these names, each of which has an interpreter that logs its lines."""
        found = {**{name: [sys.executable, INTERPRETER, self.place(name + ".log")] for name in names}, **words}
        return "---\nsessions:\n" + "".join(f"  {name}: {json.dumps(these)}\n" for name, these in found.items()) + "---\n"

    def write(self, text: str, path: str = "") -> None:
        with open(path or self.text, "w", encoding="utf-8", newline="") as file:
            file.write(text)

    def read(self, path: str = "") -> str:
        with open(path or self.text, encoding="utf-8", newline="") as file:
            return file.read()

    def run_weave(self, *words: str, **more: str) -> Outcome:
        done = subprocess.run(command_words(*(words or (self.text,))), capture_output=True, env=environment(**more), cwd=ROOT, timeout=300)
        return Outcome(done.returncode, done.stdout.decode("utf-8", "surrogateescape"), done.stderr.decode("utf-8", "backslashreplace"))

    def weave(self, text: str, status: int = 0, *words: str, **more: str) -> str:
        """The text woven."""
        self.write(text)
        done = self.run_weave(*words, self.text, **more)
        self.assertEqual(done.status, status, done.errors)
        return self.read()

    def logged(self, name: str) -> List[str]:
        """The lines that an interpreter got since this was asked last."""
        path = self.place(name + ".log")
        if not os.path.exists(path):
            return []
        lines = self.read(path).split("\n")[:-1]
        os.remove(path)
        return lines

    def fields(self, path: str = "") -> List[Dict[str, Any]]:
        """The fields of the worksheet. A program whose weave was killed may hold it for a moment still."""
        for _ in range(200):
            shown = subprocess.run([PROGRAM, "show", "--json", path or self.sheet], capture_output=True)
            if shown.returncode == 0:
                objects = [json.loads(line) for line in shown.stdout.splitlines()]
                return [one["field"] for one in objects if one["type"] == "field"]
            self.assertIn(b"fault 35", shown.stderr)
            time.sleep(0.05)
        raise AssertionError("the worksheet stays in use")


def answers(text: str) -> List[str]:
    """The answers in a text that have no backquotes."""
    return FENCED.findall(text)
