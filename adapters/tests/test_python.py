"""What the adapter for Python shows of a line: a warning by the name that lines have, no value before a last semicolon, and figures as a whole."""
import pathlib
import re
import subprocess
import sys
import unittest
from typing import Any, List

ADAPTER = pathlib.Path(__file__).resolve().parent.parent / "python"
WITH_MATPLOTLIB = subprocess.run([sys.executable, "-c", "import matplotlib"], stderr=subprocess.DEVNULL).returncode == 0
SIZE = re.compile(r'<svg\b[^>]* width="([\d.]+)pt" height="([\d.]+)pt"')


def shown(*lines: str) -> List[str]:
    """What is shown of each line."""
    done = subprocess.run([sys.executable, ADAPTER], input="".join(line + "\n" for line in lines), capture_output=True, text=True, timeout=120)
    return [one.removeprefix("\2verbatim:") for one in re.split(r"\x02prompt#[^\x05]*\x05\x05", done.stdout)[1:-1]]


class Python(unittest.TestCase):
    def test_a_warning_has_the_name_of_its_line(self) -> None:
        """That name doesn't change with the line's code, as in a traceback."""
        said = shown("import warnings; warnings.warn('careful')", "def f(): warnings.warn('early')", "0;\u2028f()", "x = 5 is 5;", "warnings.warn_explicit('other', UserWarning, 'a.py', 3)")
        self.assertEqual(said[:3], ["<input>:1: UserWarning: careful\n  import warnings; warnings.warn('careful')", "", "<earlier input>:1: UserWarning: early\n  def f(): warnings.warn('early')"])
        self.assertRegex(said[3], r'\A<input>:1: SyntaxWarning: "is" with .*\n  x = 5 is 5;\Z')
        self.assertEqual(said[4], "a.py:3: UserWarning: other")

    def test_a_semicolon_at_the_end(self) -> None:
        """No value is shown then, and none is the last one; what is printed is, and so are errors."""
        given = ["1;", "2", "3 ; # so", "_", "4 # a;", "';'", "[5,\u20286];", "print('a'); 7;", "1/0;", "for k in 1, 2: k;", "x = 8;", "x", "9;\u2028# b", "9;\u202810"]
        self.assertEqual([re.sub(r"(?s)\x02output#.*", "error", one) for one in shown(*given)], ["", "2", "", "2", "4", "';'", "", "a", "error", "", "", "8", "", "10"])

    @unittest.skipUnless(WITH_MATPLOTLIB, "there is no matplotlib")
    def test_a_figure_is_as_large_as_what_is_drawn(self) -> None:
        """A label that stands beyond a small figure is there, and a semicolon silences the value beside it."""
        small = "p = plt.figure(figsize=(2, 1)).gca().set_ylabel('a long label of an axis')"
        wide = "f = plt.figure(figsize=(2, 1)); p = f.text(0, 0.5, 'a'), f.text(1.5, 0.5, 'beyond')"
        _, first, again, beyond, silent = shown("import matplotlib.pyplot as plt", small, small, wide, "plt.title('f');")
        sizes: List[Any] = [SIZE.search(one) for one in (first, beyond)]
        self.assertTrue(all(sizes), (first[:500], beyond[:500]))
        self.assertEqual(first, again)
        self.assertGreater(float(sizes[0][2]), 72)
        self.assertGreater(float(sizes[1][1]), 144)
        self.assertTrue(silent.startswith("\2image/svg+xml:<svg") and "Text(" not in silent.partition("</svg>")[2], silent[-200:])


if __name__ == "__main__":
    unittest.main()
