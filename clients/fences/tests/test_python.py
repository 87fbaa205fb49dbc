"""Which Python runs a command."""
import os
import subprocess
import sys
import tempfile
import unittest
from typing import List, Tuple
from unittest import mock

from tmhost_fences import python

HERE = os.path.dirname(os.path.realpath(__file__))
START = """
import os, signal, sys
print("begun", sys.argv[1:], flush=True)
signal.signal(signal.SIGINT, lambda *_: os._exit(130))
sys.path.insert(0, {!r})
from tmhost_fences import python
python.DEBIANS = {!r}
python.choose(["no_such_module", "nor_this_one"])
print("went on", flush=True)
"""


class Choice(unittest.TestCase):
    def chosen(self, here: int, there: int, executable: str = "/opt/python3", least: Tuple[int, int] = (3, 9)) -> List[str]:
        """The words with which Debian's Python goes on; none where this one does. `here` and `there` are how many of two modules are there."""
        with mock.patch.multiple(python, count_here=lambda modules: here, count_there=lambda modules, least: there), mock.patch("os.execv") as going:
            with mock.patch.object(sys, "executable", executable), mock.patch.object(sys, "argv", ["/a/tmhost-weave", "x.md"]):
                python.choose(["a", "b"], least)
        return list(going.call_args[0][1]) if going.called else []

    def test_the_one_with_more_of_the_modules(self) -> None:
        words = [python.DEBIANS, "-B", "/a/tmhost-weave", "x.md"]
        self.assertEqual([self.chosen(0, 2), self.chosen(1, 2)], [words, words])
        for here, there in ((2, 2), (2, 0), (0, 0), (1, 1), (0, -1)):
            self.assertEqual(self.chosen(here, there), [])
        self.assertEqual(self.chosen(0, 2, python.DEBIANS), [])

    def test_one_that_is_too_old(self) -> None:
        with self.assertRaisesRegex(SystemExit, r"tmhost-weave: it wants Python 9.9, and /opt/python3 is 3"):
            self.chosen(2, -1, least=(9, 9))
        with self.assertRaises(SystemExit):  # `execv` comes back here alone
            self.chosen(2, 0, least=(9, 9))

    def test_an_interrupt_while_the_other_one_starts(self) -> None:
        """It waits until that one reads its modules, and isn't held back any more then."""
        with tempfile.TemporaryDirectory() as folder:
            other, script = os.path.join(folder, "other"), os.path.join(folder, "script")
            with open(other, "w", encoding="utf-8") as file:
                # It counts the modules as Debian's does, and is interrupted before it is a Python.
                file.write(f'#!/bin/sh\n[ "$1" = -c ] && exit 102\nkill -INT $$\nshift\nexec {sys.executable} -B "$@" again\n')
            os.chmod(other, 0o755)
            with open(script, "w", encoding="utf-8") as file:
                file.write(START.format(os.path.dirname(HERE), other))
            done = subprocess.run([sys.executable, "-B", script], capture_output=True, text=True, timeout=60)
        self.assertEqual((done.returncode, done.stdout, done.stderr), (130, "begun []\nbegun ['again']\n", ""))

    def test_how_many_there_are(self) -> None:
        asked: List[List[str]] = [["json", "no_such_module"], [], ["json", "os"]]
        with mock.patch.object(python, "DEBIANS", sys.executable):
            self.assertEqual([python.count_there(names, (3, 9)) for names in asked], [1, 0, 2])
            self.assertLess(python.count_there(["json"], (9, 9)), 0)
        with mock.patch.object(python, "DEBIANS", "/nowhere/python3"):
            self.assertLess(python.count_there(["json"], (3, 9)), 0)
        self.assertEqual(python.count_here(["json", "no_such_module"]), 1)
