"""What can't be read, can't be answered or can't be written is said at once, with the status 1."""
import os
import shutil
import subprocess
import time
import unittest

from .support import LIMIT, Case, case, environment, words

BARE = "python3 by itself has no blocks for its answers: the words tmhost-python start it with an adapter"
NO_FILE = "it is no plain file"


class Files(Case):
    def test_a_named_pipe(self) -> None:
        """Nobody writes into it, so to read it would wait for ever. What else is named is run."""
        self.write(case("say 1", "1"))
        os.mkfifo(self.place("pipe"))
        os.mkdir(self.place("folder"))
        os.mkfifo(self.place("folder/pipe.md"))
        for name in ("pipe", "folder", "/dev/null"):
            ran = self.run_suite(name, self.path)
            path = "folder/pipe.md" if name == "folder" else name
            self.assertEqual((ran.status, ran.output[:5], ran.errors), (1, "1 ok ", f"tmhost-suite: {path}: {NO_FILE}\n"))
        ran = self.run_suite("--convert", "pipe")
        self.assertEqual((ran.status, ran.output, ran.errors), (1, "", f"tmhost-suite: pipe: {NO_FILE}\n"))


@unittest.skipUnless(shutil.which("python3"), "there is no python3 on PATH")
class WithoutAdapter(Case):
    def of_python(self, *parts: str) -> None:
        self.write(*parts)
        text = self.read().replace("sessions:\n", "sessions:\n  py: [python3]\n")
        self.make_file("suite.md", text)

    def test_its_suite_is_not_run(self) -> None:
        """Each case would wait until its time is over. Another suite is run."""
        other = self.place("other.md")
        self.write(case("say 3", "3", "b"), path=other)
        self.of_python(case("1", "1", "py"), case("say 1", "1"))
        began = time.monotonic()
        ran = self.run_suite(self.path, other, "--seconds", "300", "--junit", self.place("report.xml"))
        self.assertLess(time.monotonic() - began, 200)
        self.assertEqual((ran.status, ran.output[:5], ran.errors), (1, "1 ok ", f"tmhost-suite: {self.path}: the session py: {BARE}\n"))
        self.assertEqual((self.log("a"), self.log("b")), ([], ["say 3"]))
        self.assertIn(f'<error message="the session py: {BARE}"/>', self.read(self.place("report.xml")))
        ran = self.run_suite(self.path, "--only", "1")
        self.assertEqual((ran.status, ran.errors), (1, f"tmhost-suite: {self.path}: the session py: {BARE}\n"))

    def test_where_nothing_of_it_is_evaluated(self) -> None:
        self.of_python(case("1", "1", "py {skip}"), case("say 1", "1"))
        self.assertEqual(self.verdicts(self.path), ["skip", "ok"])
        self.of_python(case("1", "1", "py"), case("say 1", "1"))
        self.assertEqual(self.verdicts(self.path, "--only", "say 1"), ["ok"])

    def test_of_another_form(self) -> None:
        self.make_file("code.txt", ">>> 1\n1\n")
        ran = self.run_suite("code.txt", "--words", "python3")
        self.assertEqual((ran.status, ran.errors), (1, f"tmhost-suite: code.txt: the session python3: {BARE}\n"))


class Output(Case):
    def to_full_disk(self, *more: str, **variables: str) -> "subprocess.CompletedProcess[str]":
        with open("/dev/full", "w", encoding="utf-8") as full:
            return subprocess.run(words(*more), stdout=full, stderr=subprocess.PIPE, text=True, env={**environment(), **variables}, cwd=self.folder, timeout=LIMIT)

    @unittest.skipUnless(os.path.exists("/dev/full"), "there is no /dev/full")
    def test_a_full_disk(self) -> None:
        """Nothing of what is asked for came there."""
        self.write(case("say 1", "1"))
        self.make_file("code.txt", ">>> 1\n1\n")
        for more in (["--help"], ["-h"], ["--version"], [self.path], [self.path, "--tap", "-"], ["--convert", "code.txt"]):
            for unbuffered in ("", "1"):
                with self.subTest(more, unbuffered=unbuffered):
                    ran = self.to_full_disk(*more, PYTHONUNBUFFERED=unbuffered)
                    self.assertEqual((ran.returncode, ran.stderr), (1, "tmhost-suite: No space left on device\n"))

    def test_a_reader_that_has_gone(self) -> None:
        """It has seen enough, as `head` has, so nothing is said."""
        self.write(case("say 1", "1"))
        for more in (["--help"], [self.path]):
            for unbuffered in ("", "1"):
                reader, writer = os.pipe()
                os.close(reader)
                with self.subTest(more, unbuffered=unbuffered), os.fdopen(writer, "wb") as gone:
                    variables = {**environment(), "PYTHONUNBUFFERED": unbuffered}
                    ran = subprocess.run(words(*more), stdout=gone, stderr=subprocess.PIPE, text=True, env=variables, cwd=self.folder, timeout=LIMIT)
                    self.assertEqual((ran.returncode, ran.stderr), (1, ""))

    def test_an_output_that_is_closed(self) -> None:
        """By `>&-` of a shell."""
        self.write(case("say 1", "1"))
        for more in (["--help"], [self.path]):
            started = ["sh", "-c", 'exec "$@" >&-', "", *words(*more)]
            ran = subprocess.run(started, stderr=subprocess.PIPE, text=True, env=environment(), cwd=self.folder, timeout=LIMIT)
            self.assertEqual((ran.returncode, ran.stderr), (1, "tmhost-suite: Bad file descriptor\n"))
