"""What the adapter for Python says of an error doesn't depend on how many lines were before it."""
import pathlib
import re
import subprocess
import sys
import unittest
from typing import List

ADAPTER = pathlib.Path(__file__).resolve().parent.parent / "python"
ERROR = re.compile(r"\x02output#\x02output#(.*?)\x05\x05", re.DOTALL)
F = "def f(n):\u2028    return 1 / n"


def answered(lines: List[str]) -> str:
    done = subprocess.run([sys.executable, ADAPTER], input="".join(line + "\n" for line in lines), capture_output=True, text=True, timeout=60)
    return re.sub(r"\x02prompt#[^\x05]*\x05", "", done.stdout)


class Tracebacks(unittest.TestCase):
    def test_which_line_of_which_input(self) -> None:
        """Of the input itself, and of one before it, whose line is shown as it is."""
        (found,) = ERROR.findall(answered([F, "def f2(n): return 0", "x = 1\u2028f(0)"]))
        self.assertEqual(re.findall(r'  File "(.*)", line (\d+), in (\S+)\n +(.*)\n', found), [
            ("<input>", "2", "<module>", "f(0)"), ("<earlier input>", "2", "f", "return 1 / n"),
        ])

    def test_lines_before_change_nothing(self) -> None:
        """Errors of the parser, causes, warnings, and what a line reports itself."""
        lines = [
            F, "f(0)", "x = = 1", "try:\u2028    f(0)\u2028except ZeroDivisionError as error:\u2028    raise ValueError(2) from error",
            "import warnings; warnings.warn('mine')", "import traceback\u2028try:\u2028    f(0)\u2028except ZeroDivisionError: traceback.print_exc()",
        ]
        alone, after = answered(lines), answered(["1", "2", *lines])
        self.assertEqual(alone.count("ZeroDivisionError: "), 3)
        self.assertTrue(after.endswith(alone[alone.index("\2", 1) :]), after)


if __name__ == "__main__":
    unittest.main()
