"""What is known before anything is started: where the program is, and of a session whether its words start an interpreter."""

import os
import shutil
import subprocess
import sys
import tempfile
import time
import unittest
from typing import Dict, Optional, Tuple
from unittest import mock

from support import PACKAGE, ROOT

from tmhost import starting

ASK = "import sys; sys.path.insert(0, sys.argv[1]); from tmhost import find_program; print(find_program())"
SHOW = "import sys; sys.path.insert(0, sys.argv[1]); from tmhost.program import show_building; show_building()"


class Program(unittest.TestCase):
    """Over copies of the package, in places where a program is, and where none is."""

    def setUp(self) -> None:
        self.folder = os.path.realpath(tempfile.mkdtemp(prefix="tmhost-python-test."))
        self.addCleanup(shutil.rmtree, self.folder)

    def put(self, *names: str) -> str:
        path = os.path.join(self.folder, *names)
        os.makedirs(os.path.dirname(path), exist_ok=True)
        with open(path, "w", encoding="utf-8") as file:
            file.write("#!/bin/sh\n")
        os.chmod(path, 0o755)
        return path

    def found(self, *place: str, **more: str) -> str:
        """The program that the package finds which lies in this place of the folder, or what it says."""
        package = os.path.join(self.folder, *place, "clients", "python")
        shutil.copytree(os.path.join(PACKAGE, "tmhost"), os.path.join(package, "tmhost"), dirs_exist_ok=True)
        environment: Dict[str, str] = {"PATH": "/nowhere", **more}
        reported = subprocess.run([sys.executable, "-B", "-c", ASK, package], capture_output=True, text=True, env=environment)
        return reported.stdout.strip() or reported.stderr.strip().split("\n")[-1].partition(": ")[2]

    def test_a_repository(self) -> None:
        self.assertEqual(self.found(), "there is no tmhost on PATH, and TMHOST names none")
        script = self.put("tmhost")
        self.assertEqual(self.found(), f"there is no tmhost on PATH, and TMHOST names none; {script} --version builds one")
        self.put("crates", "tmhost", "out", "checked", "tmhost")
        self.assertEqual(self.found(), script)
        other = self.put("bin", "tmhost")
        self.assertEqual(self.found(PATH=os.path.dirname(other)), other)
        named = self.put("named", "tmhost")
        self.assertEqual(self.found(PATH=os.path.dirname(other), TMHOST=named), named)
        self.assertEqual(self.found(PATH=os.path.dirname(named), TMHOST="tmhost"), "tmhost")
        for missing in ("/nope/tmhost", "no-such-program", self.folder):
            self.assertEqual(self.found(PATH=os.path.dirname(other), TMHOST=missing), f"TMHOST names no program: {missing}")

    def test_where_it_is_installed(self) -> None:
        self.assertEqual(self.found("share", "tmhost"), "there is no tmhost on PATH, and TMHOST names none")
        program = self.put("bin", "tmhost")
        self.assertEqual(self.found("share", "tmhost"), program)


class Building(unittest.TestCase):
    """A script may have to build the program that it starts."""

    def said(self, program: str) -> Tuple[int, str, str]:
        """What is seen where it is asked for first: status, output and errors."""
        words = [sys.executable, "-B", "-c", SHOW, PACKAGE]
        reported = subprocess.run(words, capture_output=True, text=True, env={**os.environ, "TMHOST": program})
        return reported.returncode, reported.stdout, reported.stderr

    def test_what_a_script_says_is_seen(self) -> None:
        with tempfile.TemporaryDirectory(prefix="tmhost-python-test.") as folder:
            script = os.path.join(folder, "script")
            with open(script, "w", encoding="utf-8") as file:
                file.write('#!/bin/sh\necho "building for $*" >&2\necho its version\nexit 1\n')
            self.assertEqual(self.said(script), (0, "", ""))  # it can't be started
            os.chmod(script, 0o755)
            self.assertEqual(self.said(script), (0, "", "building for --version\n"))

    def test_other_programs(self) -> None:
        """One that is no script is there already, and one that isn't there is another call's matter."""
        for program in ("/bin/false", "/nowhere", "no-such-program"):
            self.assertEqual(self.said(program), (0, "", ""))


class Sessions(unittest.TestCase):
    def doubt(self, words: str, *there: str) -> Optional[str]:
        with mock.patch.object(starting, "is_found", lambda word: word in there):
            return starting.doubt(words.split())

    def test_what_is_missing(self) -> None:
        self.assertEqual(self.doubt("tmhost-gp --text"), "there is no program tmhost-gp")
        self.assertEqual(self.doubt("tmhost-gp --text", "tmhost-gp"), "there is no program gp, which tmhost-gp starts (Debian's package pari-gp)")
        self.assertIsNone(self.doubt("tmhost-gp --text", "tmhost-gp", "gp"))
        self.assertIsNone(self.doubt("tmhost-mine", "tmhost-mine"))
        self.assertEqual(self.doubt(""), "there is no program ")

    def test_a_misspelt_adapter(self) -> None:
        """Capitals, letters in another order, a letter or two of a longer name, and the name of its interpreter or of another one of it."""
        for word, meant in (
            ("tmhost-pg", "tmhost-gp"), ("tmhost-r", "tmhost-R"), ("tmhost-pyhton", "tmhost-python"), ("tmhost-octav", "tmhost-octave"), ("tmhost-bash", "tmhost-sh"),
            ("tmhost-python3", "tmhost-python"), ("tmhost-jupiter", "tmhost-jupyter"), ("tmhost-julia", "tmhost-jupyter KERNEL"), ("tmhots-python", "tmhost-python"), ("tmhost_gp", "tmhost-gp"),
        ):
            self.assertEqual(self.doubt(word + " --x"), f"there is no program {word}: is {meant} meant?")
        for word in ("tmhost-mine", "tmhost-xy", "./tmhost-pg", "mine", "tmhost-gp", "python9"):
            self.assertEqual(self.doubt(word), f"there is no program {word}")

    def test_an_interpreter_without_its_adapter(self) -> None:
        for words, adapter in (("python3", "python"), ("/bin/sh", "sh"), ("gp", "gp"), ("octave", "octave"), ("R", "R"), ("lua5.4", "lua"), ("tclsh8.6", "tcl"), ("guile-3.0", "guile"), ("python3.11", "python")):
            said = self.doubt(words, words)
            self.assertEqual(said, f"{os.path.basename(words)} by itself has no blocks for its answers: the words tmhost-{adapter} start it with an adapter")
        for words in ("sh mine.sh", "python3 -u mine.py", "gp --texmacs", "true", "./mine", "mine-2.0"):
            self.assertIsNone(self.doubt(words, words.split()[0]), words)

    def test_an_adapter_of_ours_by_its_path(self) -> None:
        """Nothing is said of it, though it has the name of its interpreter; by a link, too."""
        with tempfile.TemporaryDirectory(prefix="tmhost-python-test.") as folder:
            os.symlink(os.path.join(ROOT, "adapters"), os.path.join(folder, "adapters"))
            for path in (os.path.join(ROOT, "adapters", "python"), os.path.join(folder, "adapters", "python")):
                self.assertIsNone(starting.doubt([path]), path)

    def test_what_never_answers(self) -> None:
        """It is certain of a name that PATH finds, or of the same file, and not of an adapter that goes by that name."""
        with tempfile.TemporaryDirectory(prefix="tmhost-python-test.") as folder:
            names = ("sh", "python3", "julia", "gp", "R")
            for name in names:
                self.put(os.path.join(folder, name), "")
            os.mkdir(os.path.join(folder, "mine"))
            self.put(os.path.join(folder, "mine", "gp"), "")
            with mock.patch.dict(os.environ, PATH=folder):
                for words in ("sh", "sh -i", "python3 -u", "julia -q", "R --vanilla --quiet", f"{folder}/gp"):
                    said = starting.never_answers(words.split())
                    self.assertIn("by itself has no blocks for its answers: the words tmhost-", said or "", words)
                for words in ("", "sh mine.sh", "python3 -m mine", "gp --texmacs", f"{folder}/mine/gp", os.path.join(ROOT, "adapters", "gp"), "octave", "tmhost-gp"):
                    self.assertIsNone(starting.never_answers(words.split()), words)
            with mock.patch.dict(os.environ, PATH=os.path.join(ROOT, "adapters")):
                self.assertIsNone(starting.never_answers(["gp"]))

    def put(self, path: str, text: str) -> None:
        with open(path, "w", encoding="utf-8") as file:
            file.write(f"#!/bin/sh\n{text}\n")
        os.chmod(path, 0o755)

    def test_why_an_interpreter_ends(self) -> None:
        """Its status or signal and the last lines that it says, where it ends so by itself, of an adapter and of any other words."""
        with tempfile.TemporaryDirectory(prefix="tmhost-python-test.") as folder:
            for name, text in (
                ("tmhost-mine", 'cat; echo "usage: mine" >&2; echo "no option $1" >&2; echo >&2; exit 2'), ("tmhost-well", "echo careful >&2"), ("tmhost-mute", "exit 1"),
                ("tmhost-slow", "echo late >&2; exec sleep 60"), ("other", "echo no >&2; exit 2"), ("well", "exit 0"), ("waits", "cat; echo its end >&2; exit 1"),
                ("long", 'for at in 1 2 3 4 5; do printf "%0300d\\033$at\\n" $at >&2; done; exit 3'), ("killed", "kill -SEGV $$"), ("leaves", "sleep 60 & echo gone >&2; exit 4"),
                ("red", "printf '\\033[31mred\\n' >&2; exit 5"),
            ):
                self.put(os.path.join(folder, name), text)
            path = os.pathsep.join([folder, os.environ.get("PATH", os.defpath)])
            with mock.patch.dict(os.environ, PATH=path), mock.patch.object(starting, "SHIPPED_ENDS_WITHIN", 1.0):
                begun = time.monotonic()
                zeros = "0" * 299
                for words, why in (
                    ("tmhost-mine --x", "ended with status 2: no option --x"), ("tmhost-well", None), ("tmhost-mute", "ended with status 1"), ("tmhost-slow", None),
                    ("other", "ended with status 2: no"), ("well", "ended with status 0"), ("waits", None), ("killed", "was ended by SIGSEGV"),
                    ("long", f"ended with status 3: {zeros}3.. | {zeros}4.. | {zeros}5.."), ("leaves", "ended with status 4: gone"),
                    ("red", "ended with status 5: \\x1b[31mred"),
                    ("sh nothere.sh", "nothere.sh"), ("tmhost-nowhere", None), ("", None),
                ):
                    said = starting.why_it_ends(words.split())
                    if why is None or words != "sh nothere.sh":
                        self.assertEqual(said, why and f"{words} {why}", words)
                    else:
                        self.assertRegex(said or "", r"\Ash nothere\.sh ended with status [1-9]\d*: .*nothere\.sh")
                self.assertLess(time.monotonic() - begun, 30)

    def test_that_the_adapters_start_these(self) -> None:
        sys.path.insert(0, os.path.join(ROOT, "adapters"))
        from languages import PROFILES  # type: ignore[import]

        self.assertEqual({*starting.PROGRAMS}, {*PROFILES, "gp"})
        for name, profile in PROFILES.items():
            words = profile.words[2].split()[1:] if profile.words[0] == "sh" else profile.words
            self.assertEqual(starting.PROGRAMS[name][0], words[0])
        for name in starting.PROGRAMS:
            self.assertTrue(os.path.isfile(os.path.join(ROOT, "adapters", "bin", starting.COMMAND + name)), name)

    def test_a_path(self) -> None:
        self.assertTrue(starting.is_found(sys.executable))
        self.assertFalse(starting.is_found("/nowhere/python3"))
        self.assertFalse(starting.is_found("no-such-program"))


if __name__ == "__main__":
    unittest.main()
