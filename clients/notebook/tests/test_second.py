"""What a second server says that can't open its worksheet, and other ends at the start."""

import os
import signal
import subprocess
import time
import unittest
from typing import Dict, Tuple

import harness
from harness import NOTEBOOK, PROGRAM, Case, Page, Server, needs_program

COMMAND = os.path.join(NOTEBOOK, "tmhost-notebook")
# A program that is asked for its version for a minute, as one that is built first.
BUILDS = "#!/bin/sh\ntouch $BEGUN\nexec sleep 60\n"


def heed_interrupts() -> None:
    """For a process that is about to start: tests that a script runs in the background ignore SIGINT, and so would what they start."""
    signal.signal(signal.SIGINT, signal.SIG_DFL)


@needs_program
class Second(Case):
    def said(self, *words: str) -> Tuple[int, str]:
        """The status and the last line of a server that doesn't begin."""
        done = subprocess.run([COMMAND, "--no-browser", *words], capture_output=True, text=True, timeout=120, env=harness.environment())
        self.assertEqual(done.stdout, "")
        return done.returncode, done.stderr.splitlines()[-1]

    def in_use(self, who: str) -> None:
        line = f"tmhost-notebook: {self.sheet} is in use: {who}; --look shows it as it is on the disk"
        self.assertEqual(self.said(self.sheet), (1, line))

    def test_the_address_of_the_first(self) -> None:
        server = self.serve()
        self.in_use(f"it is open at {server.address}")
        looker = self.serve("--look")  # which has it not
        self.in_use(f"it is open at {server.address}")
        looker.stop()

    def test_another_program(self) -> None:
        """Also where a server had it before, and where the server of its folder runs and has it not."""
        self.serve().stop()
        folder = Server(self.folder)
        self.addCleanup(folder.kill)
        with subprocess.Popen([PROGRAM or "", "live", self.sheet], stdin=subprocess.PIPE, stdout=subprocess.PIPE, text=True) as other:
            assert other.stdin and other.stdout
            other.stdin.write("sync\n")
            other.stdin.flush()
            other.stdout.readline()
            self.in_use("another program, as a second tmhost-notebook, has it open")

    def test_the_server_of_its_folder(self) -> None:
        subprocess.run([PROGRAM or "", "create", self.sheet], check=True, stdout=subprocess.DEVNULL)
        folder = Server(self.folder)
        self.addCleanup(folder.kill)
        page = Page(folder)
        page.request("GET", page.path + "sheet/sheet/", {"Cookie": page.cookie})
        self.in_use(f"it is open at {folder.address}")

    def test_what_is_no_worksheet(self) -> None:
        for name, hint in (
            ("text.md", "; for a Markdown text use tmhost-weave or tmhost-import"), ("a.Rmd", "; for a Markdown text use tmhost-weave or tmhost-import"),
            ("a.ipynb", "; tmhost-import makes one of it"), ("sheet", ", or it was cut or is empty; look at the path"),
        ):
            path = os.path.join(self.folder, name)
            with open(path, "w", encoding="ascii") as file:
                file.write("# This is no worksheet at all\n")
            self.assertEqual(self.said(path), (1, f"tmhost-notebook: {path} can't be opened: fault 31 NotASheet: it is no worksheet{hint}"))

    def test_the_version(self) -> None:
        said = subprocess.run([PROGRAM or "", "--version"], stdout=subprocess.PIPE, text=True, check=True).stdout
        done = subprocess.run([COMMAND, "--version"], capture_output=True, text=True, timeout=120, env=harness.environment())
        self.assertEqual((done.returncode, done.stdout, done.stderr), (0, f"tmhost-notebook: {said}", ""))


class Interrupts(Case):
    """Control-C before there is a page ends it in silence."""

    def environment(self, **more: str) -> Dict[str, str]:
        return {**harness.environment(), **more}

    def test_while_it_reads_its_modules(self) -> None:
        with open(os.path.join(self.folder, "argparse.py"), "w", encoding="ascii") as file:
            file.write("import os, signal, time\nos.kill(os.getpid(), signal.SIGINT)\ntime.sleep(60)\n")
        words = [COMMAND, "--no-browser", self.sheet]
        done = subprocess.run(words, capture_output=True, env=self.environment(PYTHONPATH=self.folder), preexec_fn=heed_interrupts)
        self.assertEqual((done.returncode, done.stdout, done.stderr), (130, b"", b""))

    def test_while_its_program_is_built(self) -> None:
        builds, begun = (os.path.join(self.folder, name) for name in ("builds", "begun"))
        with open(builds, "w", encoding="ascii") as file:
            file.write(BUILDS)
        os.chmod(builds, 0o700)
        words = [COMMAND, "--no-browser", self.sheet]
        environment = self.environment(TMHOST=builds, BEGUN=begun)
        with subprocess.Popen(words, stdout=subprocess.PIPE, stderr=subprocess.PIPE, text=True, env=environment, preexec_fn=heed_interrupts) as process:
            while not os.path.exists(begun):
                self.assertIsNone(process.poll())
                time.sleep(0.01)
            process.send_signal(signal.SIGINT)
            reported = process.communicate(timeout=30)
        self.assertEqual((process.returncode, *reported), (130, "", f"tmhost-notebook: opening {self.sheet}; the address of its page follows\n"))


if __name__ == "__main__":
    unittest.main()
