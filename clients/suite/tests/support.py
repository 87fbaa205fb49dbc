"""What the tests share: suites in a folder of their own, and the command over the real program."""
import contextlib
import json
import os
import re
import shutil
import signal
import subprocess
import sys
import tempfile
import time
from typing import Any, Dict, List, NamedTuple

HERE = os.path.dirname(os.path.realpath(__file__))
ROOT = os.path.dirname(os.path.dirname(os.path.dirname(HERE)))
COMMAND = os.path.join(os.path.dirname(HERE), "tmhost-suite")
# It answers a line by a value that depends on all lines that it has got; `say TEXT`, `die`, `stuck`, `sleep N` and the like are its words.
INTERPRETER = os.path.join(ROOT, "clients/weave/tests/interpreter.py")

LIMIT = 600.0  # seconds of a run, on a busy machine

sys.path[:0] = [os.path.dirname(HERE), *(os.path.join(ROOT, "clients", name) for name in ("", "python", "fences", "weave"))]
from tested import PROGRAM as PROGRAM, WHY, InFolder, heed_interrupts as heed_interrupts  # noqa: E402


class Outcome(NamedTuple):
    status: int
    output: str
    errors: str


def words(*more: str) -> List[str]:
    return [sys.executable, "-B", COMMAND, *more]


def environment() -> Dict[str, str]:
    return {**os.environ, "TMHOST": PROGRAM}


def case(code: str, wanted: "str | None" = None, info: str = "a") -> str:
    """A case of a text, in fences that are longer than any in it."""
    found = f"````{info}\n{code}\n````\n"
    return found if wanted is None else f"{found}\n````answer\n{wanted}\n````\n"


class Case(InFolder):
    """`path` is that of the suite."""

    maxDiff = None

    def setUp(self) -> None:
        if WHY:
            self.skipTest(WHY)
        self.folder = tempfile.mkdtemp(prefix="tmhost-suite-test.")
        self.addCleanup(shutil.rmtree, self.folder)
        self.path = self.place("suite.md")

    def front(self, *names: str, more: str = "") -> str:
        """The front matter for sessions with these names, each of which logs its lines."""
        found = {name: [sys.executable, INTERPRETER, self.place(name + ".log")] for name in names}
        return "---\nsessions:\n" + "".join(f"  {name}: {json.dumps(these)}\n" for name, these in found.items()) + more + "---\n"

    def write(self, *parts: str, path: str = "", more: str = "") -> None:
        with open(path or self.path, "w", encoding="utf-8", newline="") as file:
            file.write(self.front("a", "b", more=more) + "\n" + "\nText.\n\n".join(parts))

    def read(self, path: str = "") -> str:
        with open(path or self.path, encoding="utf-8", newline="") as file:
            return file.read()

    def log(self, name: str) -> List[str]:
        """The lines that an interpreter got, in its folder's file."""
        try:
            return self.read(self.place(name + ".log")).splitlines()
        except FileNotFoundError:
            return []

    def noted(self) -> int:
        """Of how many cases the worksheet of the run has what came."""
        count = 0
        for end in (".run", ".run.alt"):
            with contextlib.suppress(FileNotFoundError), open(self.path + end, "rb") as file:
                count += file.read().count(b'"verdict"')
        return count

    def waiting(self) -> str:
        """A case that waits until `cut_off` was there."""
        return case(f"until {self.place('go')}", None, "b {may_fail it waits}")

    def cut_off(self, done: int) -> None:
        """Runs the suite until so many of its cases are done, and kills the run and all that it started."""
        run = subprocess.Popen(words(self.path), stdout=subprocess.DEVNULL, stderr=subprocess.DEVNULL, env=environment(), cwd=self.folder, start_new_session=True)
        until = time.monotonic() + 60
        while self.noted() < done and time.monotonic() < until:
            time.sleep(0.05)
        os.killpg(run.pid, signal.SIGKILL)
        run.wait()
        self.assertEqual(self.noted(), done)
        self.make_file("go")

    def make_file(self, name: str, text: str = "") -> str:
        os.makedirs(os.path.dirname(self.place(name)), exist_ok=True)
        with open(self.place(name), "w", encoding="utf-8", newline="") as file:
            file.write(text)
        return self.place(name)

    def remove_file(self, name: str) -> None:
        with contextlib.suppress(FileNotFoundError):
            os.unlink(self.place(name))

    def wait_for(self, name: str, line: str) -> None:
        """Waits until this is the last line that an interpreter got."""
        until = time.monotonic() + 60
        while self.log(name)[-1:] != [line] and time.monotonic() < until:
            time.sleep(0.05)

    def run_suite(self, *more: str, given: str = "", **variables: str) -> Outcome:
        ran = subprocess.run(words(*more), input=given, capture_output=True, text=True, env={**environment(), **variables}, cwd=self.folder, timeout=LIMIT)
        return Outcome(ran.returncode, ran.stdout, ran.stderr)

    def objects(self, *more: str) -> List[Dict[str, Any]]:
        """What came of each case, by the report in lines of JSON."""
        report = self.place("report.jsonl")
        self.outcome = self.run_suite(*more, "--json", report)
        self.assertEqual(self.outcome.errors, "")
        return [json.loads(line) for line in self.read(report).split("\n") if line]

    def verdicts(self, *more: str) -> List[str]:
        return [str(one["verdict"]) for one in self.objects(*more)]


def without_seconds(text: str) -> str:
    return re.sub(r" in [\d.]+ s$", "", text, flags=re.MULTILINE)
