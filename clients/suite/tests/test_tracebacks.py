"""Tracebacks of Python, whose numbers of fields change where something is put in front of them."""
from typing import List

from .support import Case, case

CODE = "def f(n):\n    return 1 / n\n\nf(0)"
WANTED = """Traceback (most recent call last):
  File "<input>", line 1, in <module>
    f(0)
  File "<earlier input>", line 2, in f
    return 1 / n
           ~~^~~
ZeroDivisionError: division by zero"""


class Tracebacks(Case):
    def put(self, *parts: str, words: str = "tmhost-python", more: str = "") -> List[str]:
        self.write(*parts, more=more)
        with open(self.path, encoding="utf-8") as file:
            text = file.read()
        with open(self.path, "w", encoding="utf-8") as file:
            file.write(text.replace("sessions:\n", f"sessions:\n  py: [{words}]\n"))
        return self.verdicts(self.path)

    def test_a_new_case_changes_no_other(self) -> None:
        before = case("a = 1\nb = 2\na + b", "3", "py")
        first = case(CODE, WANTED, "py")
        if self.put(first) != ["ok"]:
            self.skipTest("this Python has other tracebacks")
        self.assertEqual(self.put(before, first), ["ok", "ok"])
        # What is accepted is what came, and passes wherever it stands.
        self.put(before, case(CODE, None, "py"))
        self.run_suite(self.path, "--accept")
        self.assertIn('File "<input>", line 1, in <module>', self.read())
        self.assertEqual(self.verdicts(self.path), ["ok", "ok"])
        # So does one of an adapter that counted fields.
        self.assertEqual(self.put(case(CODE, WANTED.replace("<input>", "<line 9>").replace("<earlier input>", "<line 8>"), "py")), ["ok"])

    def test_other_numbers_are_compared(self) -> None:
        self.assertEqual(self.put(case(CODE, WANTED.replace("line 2, in f", "line 3, in f").replace("<input>", "<line 9>"), "py")), ["differs"])
        # The first frame is shown as one that is alike.
        self.assertIn('     File "<input>", line 1, in <module>\n       f(0)\n  -  File "<earlier input>", line 3, in f\n  +  File "<earlier input>", line 2, in f\n', self.outcome.output)
        said = 'say File "<line 3>", line 1'
        self.assertEqual(self.put(case(said, 'File "<line 4>", line 1'), case(said, 'File "<line 3>", line 1')), ["differs", "ok"])

    def test_patterns_that_have_numbers_match_as_before(self) -> None:
        error = "x = 0\n1 / x"
        for line in (r'  File "<(input|x)>", line 1, in <module> (re)', '  File "<line 2>", line 1, in <module>', '  File "<input>", line 1, in <module>', '  File "<line *>", line 1, in * (glob)', r'  File "<line [0-9]+>", .* (re)'):
            self.assertEqual(self.put(case(error, f"...\n{line}\n...", "py")), ["ok"], line)
        self.assertEqual(self.put(case(error, "...\n  File FIELD, line 1, in <module>\n...", "py"), more="normal: {'\"<line [0-9]+>\"': FIELD}\n"), ["ok"])
        self.assertNotIn("found nothing", self.outcome.output)
