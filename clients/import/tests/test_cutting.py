"""Cells of more bytes than a field holds, and what in cells of Python is IPython's own."""
import ast
import os
import random
import unittest

from tmhost_fences.fields import LONGEST_INPUT
from tmhost_fences import ipython
from tmhost_import import cutting
from tmhost_import.prose import size_of

from .support import LINE_END, Case, code, needs_program, notebook

FILL = "x" * 1800  # two of these fit into a field, three don't
# Code of several languages, each with the lines that must stay together, after FILL.
TOGETHER: dict[str, list[str]] = {
    "python": ['s = """a\n\nb\n"""', "@d\n\n\ndef f():\n  1\n\n  2", "if x:\n  1\nelse:\n  2", "x = (1,\n\n2)", "x = 1; y = (\n2)", "x = \\\n2", "# a remark\nf()"],
    "gp": ["f(n) = {\nn + 1\n\n}", "/* a\n\nb */", "x = 1 + \\\n2", "[1,\n2]"],
    "maxima": ["f(x) :=\nx + 1;", "x :\n\n1$", 's : "a;\n\nb";', "/* a;\n\nb */ x;", "block([a],\n\na);"],
    "octave": ["function f\n\nx = 'it(';\n\nend", "for i=1:2\n\nx = a(end)';\nend", "%{\n\nx\n%}", "if x\n1\nelse\n2\nendif", "x = [1 ...\n2]", "do\n\nx\nuntil y"],
    "R": ["f <- function(x) {\n\nx\n}", 'x <- "a\n\nb"', "x |>\nf()", "x %>%\nf", "if (x) {\n1\n} else {\n2\n}", "x <-\n1"],
    "julia": ["function f(x)\n\nx[end]\nend", "for i in 1:2\n\n1\nend", '"""\na\n\nb"""', "map(x) do y\n\ny\nend", "x = [i for i in 1:2\n\n]", "#= a\n\nb =#"],
    "sh": ["if x\nthen\n\ny\nfi", "for i in a\ndo\n\necho if\ndone", "cat <<E\na\n\nb\nE", "case x in\na) y;;\n\nesac", "echo 'a\n\nb'", "f() {\n\nx\n}"],
    "gap": ["f := function(x)\n\nreturn x;\nend;", "x :=\n1;", "if x then\n\ny;\nfi;"],
    "lua": ["function f()\nlocal x = 'end'\n\nend", "repeat\n\nx()\nuntil y", "--[[ a\n\nb ]]\nf()", "x = [[\n\na]]", "for i = 1, 2\ndo\n\nif x then\ny()\nend\nend"],
    "sqlite3": ["select a,\nb\n\nfrom t;", "-- it's\nselect 1;", "select ';\n\n';", "/* a;\n\nb */ x;"],
    "M2": ["f = x -> (\n\nx)", "x =\n1"],
}


def fill(language: str) -> str:
    """A statement that is long."""
    return f"{FILL};" if language in ("maxima", "gap", "sqlite3") else f"{FILL} = 1"


class Cutting(unittest.TestCase):
    def test_what_belongs_together_stays_together(self) -> None:
        for language, blocks in TOGETHER.items():
            for block in blocks:
                with self.subTest(language, block=block):
                    whole = "\n".join([fill(language), fill(language), block, fill(language), fill(language)])
                    parts = cutting.cut(whole, language)
                    assert parts
                    self.assertEqual("\n".join(parts), whole)
                    self.assertEqual(len(parts), 2)
                    self.assertEqual([block in part for part in parts].count(True), 1, parts)

    def test_a_cut_is_made_at_an_empty_line_where_one_is_near(self) -> None:
        for language in TOGETHER:
            paragraphs = [f"{fill(language)}\n{fill(language)}", f"{fill(language)}\n{fill(language)}"]
            self.assertEqual(cutting.cut("\n\n\n".join(paragraphs), language), paragraphs)

    def test_a_statement_that_is_too_long(self) -> None:
        for text, language in (("x" * 4096, "sh"), (f"x = '''{FILL}\n{FILL}\n{FILL}'''", "python"), ("f() = {\n" + f"{FILL};\n" * 3 + "}", "gp")):
            self.assertIsNone(cutting.cut(f"a = 1\n{text}\nb = 2", language))

    def test_python_that_does_not_parse(self) -> None:
        whole = "\n".join(["print 1", fill("python"), "if x:\n  print 2\nelse:\n  y", fill("python"), fill("python")])
        parts = cutting.cut(whole, "python")
        assert parts
        self.assertEqual("\n".join(parts), whole)
        self.assertEqual(len(parts), 2)

    def test_random_python(self) -> None:
        """Each piece is a program, and all together they have the statements of the whole."""
        kinds = ["x = 1", "def f(n):\n    '''a\n\nb'''\n    return n", "@d\nclass A:\n    y = 2", "if x:\n    1\nelif y:\n    2\nelse:\n    3", "s = '''\n\n#('''", "# remark (", "", "x = [\n1,\n]; y = 2", "try:\n    1\nfinally:\n    2"]
        cuts = 0
        for seed in range(60):
            rng = random.Random(seed)
            whole = "\n".join(f"{rng.choice(kinds)}\n{'z' * rng.randint(1, 1500)} = 0" for _ in range(rng.randint(2, 12)))
            parts = cutting.cut(whole, "python")
            assert parts
            self.assertTrue(all(size_of(part) <= LONGEST_INPUT for part in parts))
            dumped = [ast.dump(one) for part in parts for one in ast.parse(part).body]
            self.assertEqual(dumped, [ast.dump(one) for one in ast.parse(whole).body])
            cuts += len(parts) - 1
        self.assertGreater(cuts, 40)


class IPython(unittest.TestCase):
    def test_lines_that_are_no_python(self) -> None:
        for given, wanted, left in (
            ("%matplotlib inline\nimport math", "import math", ["%matplotlib"]),
            ("%load_ext a\n%config b.c = 'd'\n!pip install e\n!!ls\nf?\n?g\nh.i??\nx", "x", ["%load_ext", "%config", "!pip", "!!ls", "?", "?", "?"]),
            ("if x:\n    %cd a\n    y", "if x:\n    pass\n    y", ["%cd"]),
            ("%time x = f(1)\n%timeit f(2)", "x = f(1)", ["%time", "%timeit"]),
            ("x = (a\n%b)\ny = '''\n%c\n!d\n'''\nz = a \\\n%b\n%e", "x = (a\n%b)\ny = '''\n%c\n!d\n'''\nz = a \\\n%b", ["%e"]),
            ("!echo \"it's (\n%ls [\nx", "x", ["!echo", "%ls"]),
            ("\n%%time\n%pylab\nx = 1", "x = 1", ["%%time", "%pylab"]),
            ("%%capture out\nx", "x", ["%%capture"]),
            ("x % y\n# %a", "x % y\n# %a", []),
        ):
            made = ipython.plain_python(given)
            self.assertEqual((made.code, [ipython.beginning(line) for line in made.left_out], made.other), (wanted, left, None), given)

    def test_cells_of_another_language(self) -> None:
        for given in ("%%bash\nls", "\n%%html\n<b>", "%%writefile a.py\nx"):
            made = ipython.plain_python(given)
            self.assertEqual((made.code, made.left_out, made.other), (given, [], given.strip().split()[0]))


class Cells(Case):
    def test_a_long_cell_is_cut_and_all_others_stay(self) -> None:
        long = "\n\n".join(f"def f{number}():\n    return '{'y' * 1500}'" for number in range(4)) + "\nf3()[:2]"
        never = f"x = '{'z' * 5000}'"
        document = notebook(code("1"), code(long), code(never), code("2"))
        done = self.do("--script", "--lossy", data=document)
        self.assertIn("cell 2 is cut between statements into 2 fields: it has 6,129 bytes as an input, and a field has at most 4,095\n", done.errors)
        self.assertIn("cell 3 is left out, since a statement of it is too long: it has 5,006 bytes as an input, and a field has at most 4,095\n", done.errors)
        inputs = [given for _, given in self.inputs(document, "--lossy")]
        self.assertEqual((len(inputs), inputs[0], inputs[-1]), (4, "1", "2"))
        self.assertEqual(inputs[2].split(LINE_END)[-1], "f3()[:2]")

    def test_a_long_block_of_markdown(self) -> None:
        """Of a block with a statement that no field can hold nothing is taken, since what stands after it may need it."""
        long = "f() = {\n" + f"{FILL};\n" * 3 + "}"
        document = f"a\n\n```gp\nx = 1\n{long}\n2\n```\n\n```gp\n3\n```\n"
        self.assertEqual(self.inputs(document, "--lossy", form="markdown"), [("prose", "a"), ("gp", "3")])
        said = "the block in line 3, its line 2 is left out, since a statement of it is too long: it has 5,"
        self.assertIn(said, self.do("--script", "--lossy", "--format", "markdown", data=document).errors)
        self.refused(document, "the block in line 3, its line 2 can't be taken, since a statement", form="markdown")

    def test_code_that_no_field_can_hold(self) -> None:
        """Nothing is made without it, since other cells may need it, but where that is wanted."""
        methods = "".join(f"    def method_{number}(self, x):\n        return x + {number}\n" for number in range(120))
        document = notebook(code(f"class Big:\n{methods}"), code("Big().method_3(4)"))
        for words in ("--script", "new"):
            done = self.do("--format", "notebook", words, data=document)
            first, second = done.errors.splitlines()
            self.assertEqual((done.status, done.out, os.listdir(self.folder)), (1, "", []))
            self.assertEqual(first, "tmhost-import: cell 1 can't be taken, since a statement of it is too long: it has 6,510 bytes as an input, and a field has at most 4,095")
            self.assertRegex(second, "^tmhost-import: nothing is made, since .*: make shorter statements of it .*; --lossy leaves it out$")
        done = self.do("--script", "--lossy", "--format", "notebook", data=document)
        self.assertEqual(done.errors, "tmhost-import: cell 1 is left out, since a statement of it is too long: it has 6,510 bytes as an input, and a field has at most 4,095\n")
        self.assertEqual((done.status, self.inputs(document, "--lossy")), (0, [("python3", "Big().method_3(4)")]))
        many = self.do("--format", "notebook", "new", data=notebook(*[code(f"x = '{'y' * 5000}'")] * 15)).errors.splitlines()
        self.assertEqual((len(many), many[10]), (12, "tmhost-import: and 5 more like these"))

    def test_what_is_left_out_and_no_code(self) -> None:
        """Prose that no field can hold, outputs and lines of IPython keep nothing from being made."""
        long = {"cell_type": "markdown", "metadata": {}, "source": "x" * 5000}
        outputs = [{"output_type": "stream", "name": "stdout", "text": "y" * 5000}]
        done = self.do("--script", data=notebook(long, code("%matplotlib inline\nx", outputs=outputs)))
        self.assertEqual(done.status, 0, done.errors)
        self.assertIn("cell 1 is left out: a paragraph, an item or a fence of it has 5,000 bytes", done.errors)
        self.assertTrue(done.out.endswith("new 0 python3 x\n"), done.out)

    @needs_program
    def test_what_is_cut_is_evaluated_as_before(self) -> None:
        long = "\n".join(f"v{number} = '{'y' * 900}'  # 'it" for number in range(9)) + "\nlen(v0 + v8)"
        done = self.do("new", data=notebook(code("%matplotlib inline\nimport math"), code(long), code("math.floor(2.5)")))
        self.assertEqual(done.status, 0, done.errors)
        self.assertIn("left out: lines %matplotlib: 1\n", done.errors)
        shown = self.host("run", "new", data="eval 1\neval 2\neval 3\neval 4\neval 5\nwait\nprint\n")
        self.assertIn("len(v0 + v8)\n1800\n", shown)
        self.assertTrue(shown.endswith("math.floor(2.5)\n2\n"), shown[-300:])

    def test_what_is_reported_of_magics(self) -> None:
        cells = [code("%matplotlib inline"), code("%matplotlib inline\nx"), code("!ls"), code("%%bash\nls")]
        done = self.do("--script", data=notebook(*cells))
        self.assertIn("left out: lines %matplotlib: 2; lines !ls: 1\n", done.errors)
        shown = LINE_END.join(["```python", "%%bash", "ls", "```"])
        self.assertEqual(self.inputs(notebook(*cells)), [("python3", "x"), ("prose", shown)])
        self.assertIn("cells %%bash: 1\n", self.do("--script", "--no-prose", data=notebook(*cells)).errors)

    def test_other_interpreters_get_their_cells_as_they_are(self) -> None:
        """One that is given may be IPython; in Octave and others a % begins a remark; what tmhost has written is as it was."""
        magics = "%cd a\n!ls"
        given: list[tuple[str, list[str]]] = [("python3", ["--session", "python3=my words"]), ("octave", ["--kernel", "octave"])]
        for name, words in given:
            self.assertEqual(self.inputs(notebook(code(magics)), *words), [(name, f"%cd a{LINE_END}!ls")])
        self.assertEqual(self.inputs(notebook(code(magics, "python3"))), [("python3", f"%cd a{LINE_END}!ls")])
