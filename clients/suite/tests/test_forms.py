"""Suites in the forms of others, over the real interpreters."""
import json
import os
import shutil
import subprocess
import sys
import tempfile
import unittest
from typing import Any, List

from .support import INTERPRETER, Case

HAS_GP = shutil.which("gp") is not None
PARI = r"""f(x) = x^2
f(3)
{g(x)=
  x+1;}
g(2)
2^400
[1,2;3,4]
1/0
/* a remark
of two lines */
print("a");print1("b")
f(5)
"""


# What the program of the form does around the cases of a file.
BROKEN = "setting it up went wrong, so none of its cases was run: "


class Forms(Case):
    def put(self, name: str, text: str) -> str:
        path = self.place(name)
        os.makedirs(os.path.dirname(path), exist_ok=True)
        with open(path, "w", encoding="utf-8", newline="") as file:
            file.write(text)
        return path

    def convert(self, path: str, *said: str) -> str:
        """The text form, where this is said of what it doesn't have."""
        ran = self.run_suite("--convert", path)
        self.assertEqual((ran.status, ran.errors), (0, "".join(f"tmhost-suite: {path}{line}\n" for line in said)))
        return ran.output

    def moved(self, *names: str) -> str:
        """Another folder, with these files alone. The suites run in a third one."""
        folder = tempfile.mkdtemp(prefix="tmhost-suite-test.")
        self.addCleanup(shutil.rmtree, folder)
        for name in names:
            shutil.move(self.place(name), folder)
        os.mkdir(self.place("third"))
        self.folder = self.place("third")
        return folder

    def points(self, path: str) -> List[str]:
        """The lines of TAP that are points, and what else was reported."""
        self.outcome = self.run_suite(path, "--tap", self.place("tap"))
        return [line for line in self.read(self.place("tap")).splitlines() if line.startswith(("ok", "not ok", "1.."))]

    def words_of_the_tests(self) -> str:
        return f"{sys.executable} {INTERPRETER} {self.place('a.log')}"


@unittest.skipUnless(HAS_GP, "there is no gp")
class Pari(Forms):
    def setUp(self) -> None:
        super().setUp()
        self.code = self.put("in/first", PARI)
        # What PARI's own tests do.
        self.wanted = subprocess.run(["gp", "-q", "--test"], input=PARI, capture_output=True, text=True, check=True).stdout

    def test_what_its_own_tests_want(self) -> None:
        self.assertIn("\n[1 2]\n\n[3 4]\n\n", self.wanted)
        self.assertEqual(max(map(len, self.wanted.split("\n"))), 76)
        self.put("32/first", self.wanted + "Total time spent: 4\n")
        self.assertEqual(self.verdicts(self.code), ["ok"], self.outcome.output)

    def test_each_line_counts(self) -> None:
        lines = self.wanted.split("\n")
        self.put("32/first", self.wanted.replace("25\n", "26\n"))
        ran = self.run_suite(self.code)
        self.assertEqual(ran.status, 1)
        self.assertEqual([line for line in ran.output.split("\n") if line.startswith(("  -", "  +"))], ["  -26", "  +25"])
        # No line end within a number is left out of account.
        self.put("32/first", "\n".join(line[:10] + "\n" + line[10:] if len(line) == 76 else line for line in lines))
        self.assertEqual(self.verdicts(self.code), ["differs"])

    def test_messages_are_not_cut(self) -> None:
        code = 'error("' + "long " * 30 + '")\nprint("' + "long " * 30 + '")\n'
        wanted = subprocess.run(["gp", "-q", "--test"], input=code, capture_output=True, text=True, check=True).stdout
        self.assertGreater(max(map(len, wanted.split("\n"))), 76)
        self.put("32/second", wanted + '? print("Total time spent: ",gettime);\nTotal time spent: 4\n')
        self.assertEqual(self.verdicts(self.put("in/second", code)), ["ok"], self.outcome.output)

    def test_64_bits_come_first(self) -> None:
        self.put("32/first", "other\n")
        self.put("64/first", self.wanted)
        self.assertEqual(self.verdicts(self.code), ["ok"])

    def test_its_text_form_is_the_same(self) -> None:
        self.put("32/first", self.wanted)
        text = self.run_suite("--convert", self.code).output
        self.assertEqual(self.verdicts(self.put("first.md", text)), ["ok"], text)


class Doctest(Forms):
    def test_spaces_where_it_says_so(self) -> None:
        path = self.put("a.txt", ">>> print('a \\t b')  # doctest: +NORMALIZE_WHITESPACE\na b\n>>> print('a  b')\na b\n")
        self.assertEqual(self.verdicts(path), ["ok", "differs"])
        text = self.run_suite("--convert", path).output
        self.assertEqual(self.verdicts(self.put("a.md", text)), ["ok", "differs"], text)

    def test_other_words(self) -> None:
        path = self.put("a.rst", "Text.\n\n>>> say 1\n1\n>>> say 2\n3\n")
        self.assertEqual(self.verdicts(path, "--words", self.words_of_the_tests()), ["ok", "differs"])
        self.assertEqual(self.log("a"), ["say 1", "say 2"])

    def module(self) -> str:
        return self.put("a.py", '"""Of f.\n\n>>> f(2)\n4\n\nMore\nof it.\n\n>>> f(3)\n7\n"""\n\ndef f(x):\n    """Twice.\n\n      >>> f(0)\n      0\n\n    The end.\n    """\n    return 2 * x\n')

    def test_a_case_is_an_example(self) -> None:
        path = self.module()
        self.assertEqual(self.points(path), ["1..3", f"ok 1 - {path}:3 f(2)", f"not ok 2 - {path}:9 f(3)", f"ok 3 - {path}:16 f(0)"])
        self.assertEqual(self.outcome.output.splitlines()[-1].partition(" in ")[0], "2 ok, 1 differs")

    def test_a_module_that_cannot_be_loaded(self) -> None:
        path = self.put("a.py", '"""\n>>> 1\n1\n>>> 2\n2\n"""\nimport tmhost_no_such\n')
        points = self.points(path)
        self.assertEqual((self.outcome.status, self.outcome.output.partition(" in ")[0]), (1, "no cases, 2 left out"))
        self.assertIn(f"tmhost-suite: {path}: {BROKEN}Traceback", self.outcome.errors)
        self.assertIn("No module named 'tmhost_no_such'", self.outcome.errors)
        self.assertEqual((points[0], points[1].startswith(f"not ok 1 - {path}: {BROKEN}"), len(points)), ("1..1", True, 2))
        # What prints when it is loaded is as well as any other.
        self.assertEqual(self.verdicts(self.put("a.py", '"""\n>>> x\n1\n"""\nprint("loaded")\nx = 1\n')), ["ok"])

    def test_its_text_form_is_right_in_every_folder(self) -> None:
        path = self.module()
        text = self.convert(path)
        self.assertNotIn(self.folder, text)
        self.assertTrue("\nOf f.\n\n```py" in text and "\nMore\nof it.\n\n```py" in text and "\nTwice.\n\n```py" in text and text.endswith("\nThe end.\n"), text)
        self.put("a.md", text)
        self.assertEqual(self.verdicts(os.path.join(self.moved("a.py", "a.md"), "a.md")), ["ok", "ok", "differs", "ok"], text)


class Notebooks(Forms):
    def notebook(self, language: str, cells: List[Any]) -> str:
        """One as nbformat writes it."""
        whole = {
            "cells": [
                {"cell_type": "code", "execution_count": at, "id": f"c{at}", "metadata": {}, "outputs": outputs, "source": source}
                for at, (source, outputs) in enumerate(cells, 1)
            ],
            "metadata": {"kernelspec": {"display_name": language, "language": language, "name": language}},
            "nbformat": 4,
            "nbformat_minor": 5,
        }
        return self.put("a.ipynb", json.dumps(whole, indent=1))

    def result(self, text: str) -> Any:
        return {"output_type": "execute_result", "execution_count": 1, "metadata": {}, "data": {"text/plain": text}}

    def test_another_language(self) -> None:
        error = {"output_type": "error", "ename": "ERROR", "evalue": "Error in f(1): no x\n", "traceback": []}
        path = self.notebook("R", [("say 1", [self.result("1")]), ("say Error: no x", [error]), ("say 2", [error]), ("say 3", [self.result("4")])])
        self.assertEqual(self.verdicts(path, "--words", self.words_of_the_tests()), ["ok", "ok", "differs", "differs"])
        self.assertIn("the notebook is in R: --words names the interpreter", self.run_suite(path).errors)

    def test_one_that_was_never_run(self) -> None:
        """Nothing is wanted of its cells, nor is that they say nothing."""
        path = self.notebook("python", [("1 + 1", []), ("x = 3", []), ("# NBVAL_IGNORE_OUTPUT\nx", []), ("x", [self.result("3")])])
        self.assertEqual(self.verdicts(path), ["differs", "ok", "ok", "ok"])
        whole = json.loads(self.read(path))
        for cell in whole["cells"]:
            cell["execution_count"] = None
        self.put("a.ipynb", json.dumps(whole))
        self.assertEqual(self.verdicts(path), ["new", "ok", "ok", "ok"])
        self.put("a.md", self.convert(path))
        self.assertEqual(self.verdicts(self.place("a.md"), "--accept"), ["new", "ok", "ok", "ok"])
        self.assertEqual(self.verdicts(self.place("a.md")), ["ok"] * 4, self.read(self.place("a.md")))

    def test_in_python(self) -> None:
        stream = {"output_type": "stream", "name": "stdout", "text": ["a\n", "b\n"]}
        error = {"output_type": "error", "ename": "ZeroDivisionError", "evalue": "division by zero", "traceback": []}
        path = self.notebook("python", [("for c in 'ab':\n    print(c)\n1 + 1", [stream, self.result("2")]), ("1 / 0\nprint('no')", [error]), ("3", [self.result("4")])])
        self.assertEqual(self.verdicts(path), ["ok", "ok", "differs"])
        text = self.run_suite("--convert", path).output
        self.assertEqual(self.verdicts(self.put("a.md", text)), ["ok", "ok", "differs"], text)

    def test_lines_that_ipython_alone_knows(self) -> None:
        """They are left out, as tmhost-import does, and what stands beside them is evaluated."""
        cells: List[Any] = [
            ("1", [self.result("1")]), ("# NBVAL_SKIP\n%skipped", []), ("%matplotlib inline\nx = 2\nx", [self.result("2")]), ("!ls", []), ("%%bash\nls\npwd", []),
            ("%%time\nx + 1", [self.result("3")]), ("5 != 6\nx = (7\n % 2)", []),
        ]
        path = self.notebook("python", cells)
        ran = self.run_suite(path)
        said = f"{path}: left out: lines that IPython alone knows: 6, the first of cell 3: %matplotlib inline; --words 'tmhost-jupyter python3' evaluates them"
        self.assertEqual((ran.output.splitlines()[0], ran.output.count("IPython"), ran.status), (said, 1, 0))
        self.assertEqual(self.verdicts(path, "--words", "tmhost-python"), ["ok", "skip", "ok", "ok", "ok"])
        self.put("a.md", self.convert(path, ": 6 lines of IPython, left out"))
        self.assertEqual(self.verdicts(self.place("a.md")), ["ok", "skip", "ok", "ok", "ok"])
        self.assertNotIn("IPython", self.run_suite("--words", self.words_of_the_tests(), path).output)

    def test_tags_and_remarks_of_nbval(self) -> None:
        error = {"output_type": "error", "ename": "KeyError", "evalue": "1", "traceback": []}
        cells: List[Any] = [
            ("# NBVAL_SKIP\n1 / 0", []),
            ("#NBVAL_IGNORE_OUTPUT\n1", [self.result("7")]),
            ("# NBVAL_IGNORE_OUTPUT\n1 / 0", [self.result("7")]),
            ("# NBVAL_RAISES_EXCEPTION\n{}[1]", [error]),
            ("2", [self.result("2")]),
        ]
        path = self.notebook("python", cells)
        whole = json.loads(self.read(path))
        whole["cells"][4]["metadata"] = {"tags": ["skip-execution", "a b"]}
        prose = [{"cell_type": "markdown", "metadata": {}, "source": text} for text in ("# Title", "More.\n\n- a list", "The end.")]
        whole["cells"] = prose[:2] + whole["cells"] + prose[2:]
        self.put("a.ipynb", json.dumps(whole))
        wanted = ["skip", "ok", "differs", "ok", "skip"]
        self.assertEqual(self.verdicts(path), wanted, self.outcome.output)
        text = self.run_suite("--convert", path).output
        self.assertTrue("\n# Title\n\nMore.\n\n- a list\n" in text and text.endswith("\nThe end.\n"), text)
        self.assertEqual(self.verdicts(self.put("a.md", text)), wanted, text)

    def test_prose_that_would_be_a_case_is_left_out(self) -> None:
        path = self.notebook("python", [("1", [self.result("1")])])
        whole = json.loads(self.read(path))
        for prose in ("```py\n2\n```", "<!-- never closed", "~~~~py\n2"):
            whole["cells"] = [{"cell_type": "markdown", "metadata": {}, "source": prose}, whole["cells"][-1]]
            self.put("a.ipynb", json.dumps(whole))
            count = prose.count("\n") + 1
            text = self.convert(path, f":2: in front of this case {count} line{'s' if count > 1 else ''} of prose, left out, since with it the text would have other cases")
            self.assertNotIn(prose, text)
            self.assertEqual(self.verdicts(self.put("a.md", text)), ["ok"], text)

    def test_prose_with_a_fence_that_looks_like_a_case_stays(self) -> None:
        """A suite asks whether a case is meant, so the text says that none is."""
        path = self.notebook("python", [("1", [self.result("1")])])
        whole = json.loads(self.read(path))
        whole["cells"].insert(0, {"cell_type": "markdown", "metadata": {}, "source": "So:\n\n```python\n2\n```"})
        with open(path, "w", encoding="utf-8") as file:
            json.dump(whole, file)
        text = self.convert(path, ": fences of its prose whose words look like py have {literal} now, which says that they are text")
        self.assertIn("So:\n\n```python {literal}\n2\n```\n", text)
        self.assertEqual(self.verdicts(self.put("a.md", text)), ["ok"], text)

    def test_the_rest_of_the_prose_stays(self) -> None:
        path = self.notebook("python", [("1", [self.result("1")]), ("2", []), ("3", [self.result("3")])])
        whole = json.loads(self.read(path))
        first, second, third = whole["cells"]
        prose = [{"cell_type": "markdown", "metadata": {}, "source": text} for text in ("# Title", "````\nnever closed", "Kept.\n\nToo.", "```answer\n2\n```")]
        raw = {"cell_type": "raw", "metadata": {}, "source": "one\ntwo"}
        whole["cells"] = [prose[0], first, prose[1], second, prose[2], third, prose[3], raw]
        self.put("a.ipynb", json.dumps(whole))
        why = "of prose, left out, since with it the text would have other cases"
        text = self.convert(path, ": 2 lines of raw cells, which are no Markdown, left out", f":4: in front of this case 2 lines {why}", f": after the last case 3 lines {why}")
        self.assertTrue("\n# Title\n" in text and "\nKept.\n\nToo.\n" in text, text)
        self.assertEqual(self.verdicts(self.put("a.md", text)), ["ok", "differs", "ok"], text)

    def test_prose_wants_a_package(self) -> None:
        """Without it nothing is known of the prose, so nothing is written."""
        path = self.notebook("python", [("1", [self.result("1")])])
        whole = json.loads(self.read(path))
        whole["cells"].insert(0, {"cell_type": "markdown", "metadata": {}, "source": "A paragraph."})
        self.put("a.ipynb", json.dumps(whole))
        self.put("lacking/markdown_it.py", "raise ImportError\n")
        lacking = os.pathsep.join([self.place("lacking"), os.environ.get("PYTHONPATH", "")])
        ran = self.run_suite("--convert", path, PYTHONPATH=lacking)
        self.assertEqual((ran.status, ran.output), (1, ""))
        self.assertEqual(ran.errors, f"tmhost-suite: {path}: there is no markdown_it: install Debian's package python3-markdown-it (apt-get install python3-markdown-it), or {sys.executable} -m pip install markdown-it-py\n")

    def test_it_runs_in_its_folder(self) -> None:
        path = self.notebook("python", [("open('a.ipynb').read(1)", [self.result("'{'")])])
        os.mkdir(self.place("other"))
        self.folder = self.place("other")
        self.assertEqual(self.verdicts(path), ["ok"], self.outcome.output)

    def test_formulas_and_pictures(self) -> None:
        formula = {"output_type": "execute_result", "execution_count": 1, "metadata": {}, "data": {"text/latex": "$\\displaystyle x^{2}$", "text/plain": "x**2"}}
        picture = {"output_type": "display_data", "metadata": {}, "data": {"image/png": "iVBORw0KGgo=", "text/plain": "<Figure>"}}
        cells: List[Any] = [
            ("class F:\n    def _repr_latex_(self): return r'$\\displaystyle  x^{2}$'\nF()", [formula]),
            ("class P:\n    def _repr_svg_(self): return '<svg xmlns=\"http://www.w3.org/2000/svg\"/>'\nP()", [picture]),
            ("print('a'); P()", [picture]),
        ]
        path = self.notebook("python", cells)
        self.assertEqual(self.verdicts(path), ["ok", "ok", "differs"], self.outcome.output)
        text = self.run_suite("--convert", path).output
        self.assertEqual(self.verdicts(self.put("a.md", text)), ["ok", "ok", "differs"], text)

    def test_only_the_last_value_is_shown(self) -> None:
        cells: List[Any] = [("x = 3\nx\nx + 1", [self.result("4")]), ("x;", []), ("x\ny = 2", [])]
        path = self.notebook("python", cells)
        self.assertEqual(self.verdicts(path), ["ok"] * 3, self.outcome.output)
        text = self.run_suite("--convert", path).output
        self.assertEqual(self.verdicts(self.put("a.md", text)), ["ok"] * 3, text)


class Cram(Forms):
    def test_a_shell(self) -> None:
        path = self.put("a.t", "Text:\n\n  $ echo a; echo b\n  a\n  b\n\n  $ false\n  [1]\n\n  $ for x in 1 2; do\n  >   echo x$x\n  > done\n  x1\n  x? (glob)\n\n  $ echo no\n  yes\n")
        self.assertEqual(self.verdicts(path), ["ok", "ok", "ok", "differs"], self.outcome.output)

    def test_a_folder_of_its_own(self) -> None:
        """Nothing is left beside the suite, and nothing of the folder in which it ran."""
        kept = self.place("folder")
        path = self.put("a.t", f'  $ touch x; ls\n  x\n  $ echo $TESTFILE $TZ "$TESTDIR"\n  a.t GMT {self.folder}\n  $ pwd >{kept}\n')
        self.assertEqual(self.verdicts(path), ["ok"] * 3, self.outcome.output)
        self.assertEqual(sorted(os.listdir(self.folder)), ["a.t", "folder", "report.jsonl"])
        self.assertFalse(os.path.exists(self.read(kept).strip()))

    def test_a_case_is_a_command(self) -> None:
        path = self.put("a.t", "  $ echo a\n  a\n  $ echo b\n  c\n")
        self.assertEqual(self.points(path), ["1..2", f"ok 1 - {path}:1 echo a", f"not ok 2 - {path}:3 echo b"])
        self.assertEqual(self.outcome.output.splitlines()[-1].partition(" in ")[0], "1 ok, 1 differs")
        self.assertEqual(self.verdicts("--only", "1", path), ["ok"])
        self.assertIn("no case is one of those", self.run_suite("--only", "CRAMTMP=*", path).errors)

    def test_no_command_runs_where_its_folder_cannot_be_made(self) -> None:
        path = self.put("a.t", f"  $ touch {self.place('here')}\n")
        ran = self.run_suite(path, TMPDIR=self.place("none"))
        self.assertEqual((ran.status, ran.output.partition(" in ")[0]), (1, "no cases, 1 left out"))
        self.assertIn(f"tmhost-suite: {path}: {BROKEN}mktemp: ", ran.errors)
        self.assertEqual(self.run_suite("--resume", path, TMPDIR=self.place("none")).errors, ran.errors)
        self.assertFalse(os.path.exists(self.place("here")))
        # None of its cases passed, so all are run again.
        self.assertEqual(self.verdicts("--rerun", "failed", path), ["ok"])

    def test_nor_where_it_cannot_be_made_again(self) -> None:
        folder = self.place("tmp")
        os.mkdir(folder)
        path = self.put("a.t", f"  $ cd / && rm -rf {folder} && kill -9 $$\n  $ touch {self.place('here')}\n")
        found = self.objects_in(folder, path)
        self.assertEqual([str(one["came"]).partition(": mktemp: ")[0] for one in found], ["? Ended", "? setting up again went wrong"])
        self.assertFalse(os.path.exists(self.place("here")))

    def objects_in(self, folder: str, path: str) -> List[Any]:
        report = self.place("lines")
        self.assertEqual(self.run_suite(path, "--json", report, TMPDIR=folder).status, 1)
        return [json.loads(line) for line in self.read(report).splitlines()]

    def test_what_cannot_be_taken_down_is_said(self) -> None:
        path = self.put("a.t", "  $ rm () { echo no; }\n")
        ran = self.run_suite(path)
        self.assertEqual((ran.status, ran.output.partition(" in ")[0]), (1, "1 ok"))
        self.assertEqual(ran.errors, f"tmhost-suite: {path}: taking it down went wrong: no\n")

    def test_its_text_form_is_right_in_every_folder(self) -> None:
        path = self.put("a.t", 'Text:\n\n  $ . "$TESTDIR"/more; echo $TESTFILE; f\n  a.t\n  3\n\nMore\ntext.\n\n  $ ls\nThe end.\n')
        self.put("more", "f () { echo 3; }\n")
        self.assertEqual(self.verdicts(path), ["ok", "ok"], self.outcome.output)
        text = self.convert(path)
        self.assertNotIn(self.folder, text)
        self.assertTrue("\nText:\n\n```sh" in text and "\nMore\ntext.\n\n```sh" in text and "\nThe end.\n\n```sh {teardown}\n" in text, text)
        self.put("a.md", text)
        folder = self.moved("more", "a.md")
        self.assertEqual(self.verdicts(os.path.join(folder, "a.md")), ["ok"] * 4, text)

    def test_its_patterns(self) -> None:
        commands = [
            ("printf 'a\\033\\tb\\n'", "a\\x1b\\tb (esc)"),
            ("echo 'x (esc)'", "x (esc)"),
            ("printf '\\303\\251\\n'", "\\xc3\\xa9 (esc)"),
            ("echo 'a*[1]'", "?\\*[1] (glob)"),
            ("printf foo", "foo (no-eol)"),
            ("echo foo", "foo (no-eol)"),
            ("echo 'ab[1]'", "a\\*[1] (glob)"),
        ]
        path = self.put("a.t", "".join(f"  $ {command}\n  {wanted}\n" for command, wanted in commands))
        self.assertEqual(self.verdicts(path), ["ok"] * 5 + ["differs"] * 2, self.outcome.output)

    def test_output_is_no_terminal(self) -> None:
        path = self.put("a.t", "  $ [ -t 1 ] || [ -t 2 ] || echo file\n  file\n  $ touch x y; ls\n  x\n  y\n  $ x=3\n  $ echo $x >&2\n  3\n")
        self.assertEqual(self.verdicts(path), ["ok"] * 4, self.outcome.output)

    def test_one_that_exits_with_80_is_skipped_from_there_on(self) -> None:
        path = self.put("a.t", "  $ echo 1\n  1\n  $ (exit 80)\n  [80]\n  $ false || exit 80; echo no\n  $ echo 2\n  2\n")
        self.assertEqual(self.verdicts(path), ["ok", "ok", "skip", "skip"], self.outcome.output)

    def test_a_pattern_that_is_none(self) -> None:
        path = self.put("a.t", "  $ echo 1\n  +++ (re)\n")
        self.assertEqual(self.verdicts(path), ["differs"])
