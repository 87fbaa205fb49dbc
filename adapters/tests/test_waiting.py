"""Which programs wait for their input, as `waiting.py` tells it."""
import os
import subprocess
import sys
import time
import unittest

import waiting

BEGUN = "print(flush=True); "
WITHIN = 60.0  # seconds in which a program comes to what it waits in


def is_reported() -> bool:
    """Whether the kernel tells what a process waits in."""
    try:
        with open("/proc/self/syscall", "rb") as reported:
            return bool(reported.read())
    except OSError:
        return False


@unittest.skipUnless(is_reported(), "the kernel doesn't tell what a process waits in")
class Waiting(unittest.TestCase):
    def reads(self, code: str, wanted: bool) -> None:
        """Whether a program of Python is reported to read its input, when it stands still."""
        ours, kept = os.pipe()
        with subprocess.Popen([sys.executable, "-c", "import os, select, sys, time\n" + BEGUN + code], stdin=ours, stdout=subprocess.PIPE) as process:
            files = [os.readlink(f"/proc/self/fd/{ours}")]
            os.close(ours)
            try:
                assert process.stdout
                process.stdout.readline()
                until = time.monotonic() + (WITHIN if wanted else 0.5)
                while not (found := waiting.reads(process.pid, files)) and time.monotonic() < until:
                    time.sleep(0.02)
                self.assertEqual(found, wanted, code)
            finally:
                process.kill()
                os.close(kept)

    def test_who_reads(self) -> None:
        for code in ("sys.stdin.read()", "select.select([0], [], [])", "pipe = os.dup(0); select.select([0, pipe], [], [])"):
            self.reads(code, True)

    def test_who_does_something_else(self) -> None:
        for code in ("time.sleep(100)", "select.select([0], [], [], 100)", "select.select([], [], [])", "select.select([], [0], [], 100)",
                "os.read(os.pipe()[0], 1)", "pipe = os.pipe(); select.select([pipe[0]], [], [])"):
            self.reads(code, False)


if __name__ == "__main__":
    unittest.main()
