"""Lines of Python that are a part of a statement: more is asked for."""
import unittest
from typing import List

from .support import INTERPRETER, LINE_END, Case  # the module puts the packages on the path

from tmhost_repl.statements import is_open

PYTHON = [*INTERPRETER, "tmhost-python"]  # by its last word it counts as one of Python

OPEN = (
    "def f(n):", "def f(n):\n    return n", "if x:  # a remark", "class A(\n    B\n):", "x = [1,", "f(", "x = (1,\n\n2,", '"""a', "'''a\n\nb", 'x = """a\\"""', "@cache", "x = (1) + \\\n2 + \\", "x = {1:",
    "def f():\n    '''a\n\n", "for i in x:\n    if i:\n        print(i)",
)
WHOLE = (
    "x", "", "if x: y", "def f(n): return n", "x = {1: 2}", "x = {1:\n2}", "x = [1,\n2]", "print('a:')", "# a remark:", "print('(')", '"""a"""', "'''a\n\nb'''", "def f(n):\n    return n\n", "x[1:\n2]",
    "@cache\ndef f(): pass", "%timeit (", "%%time:", 'print("""a:""")', "x @ y", "x = (1) + \\\n2", "'a' # '''", "def f():\n    '''a\n\n    b:'''\n",
)


class Rules(unittest.TestCase):
    def test_what_is_open(self) -> None:
        for text in OPEN:
            self.assertTrue(is_open(text.split("\n")), text)
        for text in WHOLE:
            self.assertFalse(is_open(text.split("\n")), text)

    def test_an_empty_line(self) -> None:
        """It ends brackets and blocks, and belongs to a text."""
        for text, is_within in (("f(", False), ("if x:", False), ("if x:\n    f(", False), ('"""a', True), ("def f():\n    '''a", True)):
            self.assertEqual(is_open([*text.split("\n"), ""]), is_within, text)


class Typed(Case):
    def test_a_block(self) -> None:
        self.make_of_python()
        terminal = self.terminal()
        terminal.sees("t>")
        terminal.send("def f(n):\r")
        terminal.sees(r"^t> def f\(n\):\n..>\Z")
        terminal.send("    return n\r")
        terminal.sees(r"^..>     return n\n..>\Z")
        terminal.send("\r")
        terminal.sees(r"^1\] def f\(n\):\n       return n\ndef f\(n\):\n    return n\n2\]\Z")
        terminal.send("f(2)\r")
        terminal.sees(r"^2\] f\(2\)\nf\(2\)\n3\]\Z")
        terminal.send("x = (1,\r")
        terminal.sees(r"^..>\Z")
        terminal.gives_up()
        terminal.sees(r"^3\]\Z")
        terminal.send("\x04")
        self.assertEqual(terminal.ends(), 0)
        self.assertEqual(self.inputs(), ["def f(n):\n    return n", "f(2)"])

    def make_of_python(self) -> None:
        self.pipe(f"%session t {' '.join(PYTHON)}\n", "--create", self.sheet, "t", *PYTHON)

    def inputs(self) -> List[str]:
        return [field.input.replace(LINE_END, "\n") for field in self.fields()]

    def test_what_is_pasted_is_whole(self) -> None:
        self.make_of_python()
        terminal = self.terminal()
        terminal.sees("t>")
        terminal.send("\x1b[200~def f(n):\r    return n\x1b[201~\r")
        terminal.sees(r"^def f\(n\):\n    return n\n2\]\Z")
        terminal.send("\x04")
        terminal.ends()
        self.assertEqual(self.inputs(), ["def f(n):\n    return n"])


class Piped(Case):
    def inputs_of(self, text: str, *words: str) -> List[str]:
        status, _, errors = self.pipe(text, "--create", self.sheet, "t", *words)
        self.assertEqual((status, errors), (0, ""))
        return [field.input.replace(LINE_END, "\n") for field in self.fields()]

    def test_statements(self) -> None:
        parts = ["@d\ndef f(n):\n    return n + \\\n        1", "f(2)", "x = [1,\n 2]", "y = '''a\n\nb'''", "if x: y", "for i in x:\n    print(i)"]
        text = f"{parts[0]}\n\n" + "\n".join(parts[1:])
        self.assertEqual(self.inputs_of(text, *PYTHON), parts)

    def test_backslashes_as_ever(self) -> None:
        """Where the first line has one, they go, and the line without one is the last."""
        self.assertEqual(self.inputs_of("def f(n):\\\n    return n\nf(2)\n", *PYTHON), ["def f(n):\n    return n", "f(2)"])

    def test_in_other_sessions_a_line_is_a_field(self) -> None:
        self.assertEqual(self.inputs_of("def f(n):\n    return n\nx = [1,\n", *INTERPRETER), ["def f(n):", "    return n", "x = [1,"])
