"""The program under test, in a folder of its own that goes when it is left."""

from __future__ import annotations

import os
import shutil
import subprocess
import tempfile
import time
from typing import Callable

from model import KINDS, Difference

ROOT = os.path.dirname(os.path.dirname(os.path.realpath(__file__)))


def built() -> str:
    """The path of the program: that of this repository, proved where that is needed, or the one that TMHOST names."""
    named = os.environ.get("TMHOST")
    if not named:
        subprocess.run([f"{ROOT}/install/proved"], stdin=subprocess.DEVNULL, check=True)
    return named or f"{ROOT}/crates/tmhost/out/tmhost"


class Program:
    """`path` is that of the program. `kinds` has the kind of each interpreter by the words that start it, and `completes` says whether
    the program knows completions."""

    def __enter__(self) -> "Program":
        self.path = built()
        self.folder = tempfile.mkdtemp(prefix="hostile.", dir=os.environ.get("FOLDER", "."))
        self.kinds: dict[str, str] = {}
        for kind, of in KINDS.items():
            file = self.write(f"{kind}.sh", of.shell)
            self.kinds[f"sh {file}"] = kind
        sheet = self.create("completes")
        told = self.run(sheet, b"complete 1 0\n").stdout
        self.completes = told == b"refused 2 NoField\n"
        self.remove(sheet)
        return self

    def __exit__(self, *_: object) -> None:
        shutil.rmtree(self.folder)

    def write(self, name: str, text: str) -> str:
        file = f"{os.path.abspath(self.folder)}/{name}"
        with open(file, "w") as it:
            it.write(text)
        return file

    def create(self, name: str) -> str:
        """A new worksheet."""
        sheet = f"{self.folder}/{name}"
        subprocess.run([self.path, "create", sheet], check=True)
        return sheet

    def run(
        self, sheet: str, script: bytes, env: dict[str, str] | None = None, preexec_fn: Callable[[], None] | None = None
    ) -> subprocess.CompletedProcess[bytes]:
        return subprocess.run([self.path, "run", sheet], input=script, capture_output=True, env=env, preexec_fn=preexec_fn)

    def told(self, *words: str) -> tuple[int, bytes, bytes]:
        """The status of a task, and what it wrote on its two streams."""
        ended = subprocess.run([self.path, *words], stdin=subprocess.DEVNULL, capture_output=True)
        return ended.returncode, ended.stdout, ended.stderr

    def show(self, sheet: str) -> str:
        """What is printed of a worksheet. An interpreter that was just being started when its host was killed may have the lock for a moment
        more."""
        for _ in range(500):
            shown = subprocess.run([self.path, "show", sheet], capture_output=True)
            if shown.stderr != b"fault 35 InUse\n":
                break
            time.sleep(0.01)
        if shown.returncode or shown.stderr:
            raise Difference(f"show ended with {shown.returncode} and {shown.stderr!r}")
        return shown.stdout.decode()

    def remove(self, sheet: str) -> None:
        for file in (sheet, sheet + ".alt"):
            if os.path.exists(file):
                os.remove(file)
