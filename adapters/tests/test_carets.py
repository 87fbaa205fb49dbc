"""Where the adapter for Python points in a line that fails."""
import pathlib
import subprocess
import sys
import tempfile
import unittest

ADAPTER = pathlib.Path(__file__).resolve().parent.parent / "python"


class Carets(unittest.TestCase):
    def test_they_stand_as_in_a_file(self) -> None:
        """Those of Python's own traceback of the same line, where this Python has any."""
        for line in ("1/0", "x = [1]; x[2]", "print(1 + 'a')"):
            with tempfile.TemporaryDirectory() as folder:
                file = pathlib.Path(folder, "line.py")
                file.write_text(line + "\n")
                wanted = subprocess.run([sys.executable, file], capture_output=True, text=True).stderr.split("\n")[2:]
            got = subprocess.run([sys.executable, ADAPTER], input=line + "\n", capture_output=True, text=True, timeout=60).stdout
            self.assertIn("\n".join(wanted).rstrip(), got, line)


if __name__ == "__main__":
    unittest.main()
