"""What stands at a fence, what its fields are, and what front matter says."""
import os
import shutil
import subprocess
import tempfile
import unittest
from typing import List, Optional, Tuple

from tmhost_fences.blocks import blocks_of
from tmhost_fences.fields import LINE_END, groups, language_in
from tmhost_fences.front import KEY_OF_MAPPING, front_of, matter_end, refuse_misspelt, sessions_meant
from tmhost_fences.info import info_of, is_evaluated, is_hidden, is_without_text, wants_errors
from tmhost_fences.troubles import Trouble


# Code of R, each with its fields.
R_CODE: List[Tuple[str, List[str]]] = [
    ("y <- 1:3 |>\nrev()\ny", ["y <- 1:3 |>|rev()", "y"]), ("w +\n1\n2", ["w +|1", "2"]), ("x %in%\ny\nx %% 2\nz", ["x %in%|y", "x %% 2", "z"]), ("x <-\n1 ->\ny\n~\nz", ["x <-|1 ->|y", "~|z"]),
    ("x &&\ny ||\n! z ==\n1", ["x &&|y |||! z ==|1"]), ("w + # (\n\n# a remark\n1\n2", ["w + # (||# a remark|1", "2"]), ("f <- function(n)\n{\nn + 1\n}\nf(1)", ["f <- function(n)|{|n + 1|}", "f(1)"]),
    ("f <- function(a,\nb = c(1, 2))\n{\na\n}\nf", ["f <- function(a,|b = c(1, 2))|{|a|}", "f"]), ("g <- \\(x)\nx + 1\ng(2)", ["g <- \\(x)|x + 1", "g(2)"]),
    ("if (f(x) > 1)\n{\ny\n} else\n{\nz\n}\nx", ["if (f(x) > 1)|{|y|} else|{|z|}", "x"]), ("for (i in 1:3)\nwhile (x)\n{\ny\n}\nrepeat\n{\nbreak\n}", ["for (i in 1:3)|while (x)|{|y|}", "repeat|{|break|}"]),
    ("x <- 1\n{\n2\n}\nf(x)\n{\n3\n}", ["x <- 1", "{|2|}", "f(x)", "{|3|}"]), ("x\nend <- 1\ndone = 2\nelsewhere", ["x", "end <- 1", "done = 2", "elsewhere"]),
    ("s <- 'a +'\nt <- \"b {\n+\n\"\nu <- `b-`\n`if`(x)\ny", ["s <- 'a +'", 't <- "b {|+|"', "u <- `b-`", "`if`(x)", "y"]), ("x # +\ny # it's {\nz", ["x # +", "y # it's {", "z"]),
    ('r"(\\)"\nR"-[]"(]-"\nx', ['r"(\\)"', 'R"-[]"(]-"', "x"]), ("", []),
]
# The same of Octave.
OCTAVE_CODE: List[Tuple[str, List[str]]] = [
    ("try\nerror('a');\ncatch e\ndisp(e.message)\nend\nx = 1;", ["try|error('a');|catch e|disp(e.message)|end", "x = 1;"]), ("try, error('a'), catch e, disp(1), end_try_catch\nx = 1;", ["try, error('a'), catch e, disp(1), end_try_catch", "x = 1;"]),
    ("switch 1\ncase 1\n2\ncase {3, 4}\n5\notherwise\n6\nendswitch\n7", ["switch 1|case 1|2|case {3, 4}|5|otherwise|6|endswitch", "7"]), ("x = 2;\ndo\nx--;\nuntil x < 0 # (\nx", ["x = 2;", "do|x--;|until x < 0 # (", "x"]),
    ("unwind_protect\n1;\n\nunwind_protect_cleanup\n2;\nend_unwind_protect\n3", ["unwind_protect|1;||unwind_protect_cleanup|2;|end_unwind_protect", "3"]), ("%{\nif (\n%}\n1\n#{\n%{\n%}\nend\n#}\n2", ["%{|if (|%}", "1", "#{|%{|%}|end|#}", "2"]),
    ("for i=1:2\nif i > 1\n'a (';\nelse if true\n3;\nend\nend\nend\n4", ["for i=1:2|if i > 1|'a (';|else if true|3;|end|end|end", "4"]), ("x = [1 2]; if x(end) > 1\nx(end)\nend\nparfor i=1:2\ni;\nendparfor", ["x = [1 2]; if x(end) > 1|x(end)|end", "parfor i=1:2|i;|endparfor"]),
    ("function r = f(x)\n\n# it's (\nr = x';\nend\nf(1)", ["function r = f(x)||# it's (|r = x';|end", "f(1)"]), ("while true\nbreak\nendwhile\nspmd\n1;\nend\nx = 1 + ... (\n2;\n3", ["while true|break|endwhile", "spmd|1;|end", "x = 1 + ... (|2;", "3"]),
    ("s.a = 'it''s ('; # if\nt = \"a \\\" (\";\nc = {1, ...\n@(x) x(end)};\nformat long\ny = [s.a' t'];", ["s.a = 'it''s ('; # if", 't = "a \\" (";', "c = {1, ...|@(x) x(end)};", "format long", "y = [s.a' t'];"]), ("disp some[(\nhelp if;\nx = [1 2\n3 4];\nx", ["disp some[(", "help if;", "x = [1 2|3 4];", "x"]),
]
# It says which of its files R takes for whole code.
WHOLE_FOR_R = "for (name in commandArgs(TRUE)) cat(tryCatch({parse(name); 'whole'}, error = conditionMessage), '\\n')"


# It says which of the files `f0.m` and so on of a folder Octave takes for whole code.
WHOLE_FOR_OCTAVE = "for k = 0:%d, try, __parse_file__(fullfile(pwd, sprintf('f%%d.m', k))); disp('whole'), catch e, disp(e.message), end, end"


class Infos(unittest.TestCase):
    def test_names_and_words(self) -> None:
        for text, name, words, is_chunk in (
            ("py", "py", [], False), ("py {hide}", "py", ["hide"], False), ("py {.hide fold}", "py", [".hide", "fold"], False), ("py {whole, hide}", "py", ["whole", "hide"], False), ("{.py .hide}", "py", [".hide"], False),
            ("py{hide}", "py{hide}", ["hide"], False), ("", "", [], False), ("{}", "", [], False), ("{hide=1}", "", [], False), ("{#py}", "", [], False),
            ("{py}", "py", [], True), ("{r, echo=FALSE}", "r", [], True), ("{r setup, eval=F}", "r", [], True), ("{ python }", "python", [], True), ("{code-cell} ipython3", "code-cell", [], True),
        ):
            info = info_of(text)
            self.assertEqual((info.name, list(info.words), info.is_chunk), (name, words, is_chunk), text)
        self.assertEqual(info_of("{.py .hide hide x}").flags(["hide", "x"]), {"hide", "x"})

    def test_what_is_to_be_evaluated(self) -> None:
        asked: List[Tuple[str, List[str], bool]] = [
            ("{r}", [], True), ("{r, eval=FALSE}", [], False), ("{r, eval = F}", [], False), ("{r eval='no'}", [], False), ("{r, eval=c(1, 3)}", [], True), ("{r, Eval=false}", [], False),
            ("{r, evaluate=FALSE}", [], True), ('py active="md"', [], False), ('py active="ipynb,py"', [], True), ("py {eval=false}", [], False),
            ("{r}", ["#| eval: false"], False), ("{js}", ["//| echo: true", "//| eval: no"], False), ("{r}", ["x", "#| eval: false"], True), ("{r, eval=FALSE}", ["#| eval: true"], True),
        ]
        for text, code, wanted in asked:
            self.assertEqual(is_evaluated(info_of(text).options, code), wanted, (text, code))

    def test_what_says_that_it_is_text(self) -> None:
        for text, wanted in (("py {literal}", False), ("{.py .literal}", False), ("py {whole, literal}", False), ("py literal", True), ("{py literal}", True), ("py {eval=FALSE}", False), ("py", True)):
            self.assertEqual(blocks_of([f"~~~ {text}", "~~~"])[0].is_evaluated, wanted, text)

    def test_what_is_to_be_seen(self) -> None:
        """Options of knitr and Quarto that are obeyed, and the others, which are ignored. Other words with values are none of them."""
        asked: List[Tuple[str, List[str], bool, bool, List[str]]] = [
            ("{r}", [], False, False, []), ("{r, include=FALSE}", [], True, False, []), ("{r, include=TRUE, echo=T}", [], False, False, []), ("{r}", ["#| include: false"], True, False, []),
            ("{r}", ["#| output: false", "#| label: a"], True, False, []), ("{r, results='hide'}", [], False, True, []), ('{r results = "hide"}', [], False, True, []), ("{r, results=FALSE}", [], False, True, []),
            ("{r, results='asis'}", [], False, False, ["results"]), ("{r, results='markup', label=b}", [], False, False, []), ("{r, include=FALSE}", ["#| include: true"], False, False, []),
            ("{r, echo=FALSE, fig.width=4}", ["#| fig-cap: a"], False, False, ["echo", "fig.width", "fig-cap"]), ("{r, eval=c(1, 3)}", [], False, False, ["eval"]), ("{r, include=x}", [], False, False, ["include"]),
            ("py title=x {whole}", [], False, False, []), ("py", ["#| echo: false", "x", "#| cache: true"], False, False, ["echo"]),
        ]
        for text, code, hidden, textless, others in asked:
            block = blocks_of([f"~~~ {text}", *code, "~~~"])[0]
            self.assertEqual((is_hidden(block.options), is_without_text(block.options), block.ignored), (hidden, textless, others), (text, code))

    def test_which_errors_are_wanted(self) -> None:
        asked: List[Tuple[str, List[str], Optional[bool]]] = [("{r, error=TRUE}", [], True), ("{r}", ["#| error: true"], True), ("{r, error=F}", [], False), ("py {error=no}", [], False), ("{r, error=x}", [], None), ("{r}", [], None)]
        for text, code, wanted in asked:
            block = blocks_of([f"~~~ {text}", *code, "~~~"])[0]
            self.assertEqual((wants_errors(block.options), block.ignored), (wanted, ["error"] * (wanted is None and "error" in text)), (text, code))


class Fields(unittest.TestCase):
    def inputs(self, code: str, words: str) -> List[str]:
        return [group.input.replace(LINE_END, "|") for group in groups(code.split("\n"), language_in(words.split()))]

    def test_texts_of_python_over_several_lines(self) -> None:
        """They hold their lines together, and brackets in them don't count."""
        python = "adapters/python"
        for code, wanted in (
            ('x = """a\nb\n\nc"""\ny', ['x = """a|b||c"""', "y"]), ("f('''\nb)''')\ny", ["f('''|b)''')", "y"]), ('def f():\n  """a\n\nb"""\n  1\ny', ['def f():|  """a||b"""|  1', "y"]),
            ("x = '(' # (\ny", ["x = '(' # (", "y"]), ('x = "it\'s ("\ny', ['x = "it\'s ("', "y"]), ('x = """a\\"""\nb"""\ny', ['x = """a\\"""|b"""', "y"]), ('x = """a\ny', ['x = """a|y']),
            ("# it's '''\nx\ny", ["# it's '''", "x", "y"]), ("x = ''\ny = ''\nz", ["x = ''", "y = ''", "z"]), ("# x =\ny", ["# x =", "y"]),
        ):
            self.assertEqual(self.inputs(code, python), wanted, code)
        self.assertEqual(self.inputs('x = """a\nb"""', "tmhost-tcl"), ['x = """a', 'b"""'])
        self.assertEqual([language_in(words.split()) for words in ("python3 /a/python", "python3 a.py", "a/gp --text", "")], ["python", "", "gp", ""])

    def test_what_is_longer_than_a_field_is_no_other_code(self) -> None:
        """In a language whose texts are known a text and what stands in brackets stay one input, which no field takes: pieces of them would be
        evaluated as other code. An end of a line counts three bytes."""
        text = ["x = \"\"\"", *["a line of a text"] * 280, "\"\"\"", "y"]
        numbers = ["v = [", *["1,"] * 1_500, "1]", "w"]
        for code, language, length in ((text, "python", 5_333), (numbers, "gp", 7_510), ((*numbers[:-1], "-- a remark (", "w"), "lua", 7_510)):
            first, *others = groups(list(code), language)
            self.assertEqual(first.misfit, f"refused: it has {length:,} bytes (each end of a line counts three), and a field has at most 4,095: cut it into several, or load it from a file")
            self.assertEqual([it.input for it in others], list(code)[-len(others):])
        self.assertGreater(len(list(groups(numbers, ""))), 1_000)
        self.assertEqual([it.misfit for it in groups(["x" * 4_096], "python")], ["refused: it has 4,096 bytes, and a field has at most 4,095: cut it into several, or load it from a file"])

    def test_remarks_at_the_left_edge_within_a_block(self) -> None:
        """A block goes on over them, where it goes on after them at all."""
        for code, wanted in (
            ("def f():\n    a = 1\n# remark\n    return a\nf()", ["def f():|    a = 1|# remark|    return a", "f()"]),
            ("if x:\n    1\n# hm\n\n# and\nelse:\n    2\ny", ["if x:|    1|# hm||# and|else:|    2", "y"]),
            ("for i in x:\n    i\n# next\ny = 1", ["for i in x:|    i", "# next", "y = 1"]), ("def f():\n    1\n#)\n    2", ["def f():|    1|#)|    2"]),
            ("# first\n    x", ["# first|    x"]), ("x\n# last", ["x", "# last"]),
        ):
            self.assertEqual(self.inputs(code, "tmhost-python"), wanted, code)
        self.assertEqual(self.inputs("while true; do\n  x\n# hm\ndone\ny", "tmhost-sh"), ["while true; do|  x|# hm|done", "y"])
        self.assertEqual(self.inputs("f <- function(n) {\n  1\n# hm\n  n\n}\nf", "tmhost-R"), ["f <- function(n) {|  1|# hm|  n|}", "f"])

    def test_blocks_and_texts_of_lua(self) -> None:
        for code, wanted in (
            ("repeat\n  f()\nuntil x\ny", ["repeat|  f()|until x", "y"]), ("-- it's (\nx", ["-- it's (", "x"]), ("x = [[\n(\n]]\ny", ["x = [[|(|]]", "y"]), ("--[==[ a\n]]\n]==]\ny", ["--[==[ a|]]|]==]", "y"]),
            ("function f(n)\n  return n\nend\nf(1)", ["function f(n)|  return n|end", "f(1)"]), ("f {\n1,\n}\n#t", ["f {|1,|}", "#t"]), ("x = ')'\ny", ["x = ')'", "y"]),
        ):
            self.assertEqual(self.inputs(code, "tmhost-lua"), wanted, code)
        self.assertEqual(self.inputs("x\nuntil true; do\n  y\ndone", "tmhost-sh"), ["x", "until true; do|  y|done"])

        self.assertEqual(self.inputs("x = [[a]]\ny", "tmhost-lua"), ["x = [[a]]", "y"])

    def test_expressions_of_r(self) -> None:
        """An operator at the end of a line holds the next one, and so does what wants a body."""
        for code, wanted in R_CODE:
            self.assertEqual(self.inputs(code, "tmhost-R"), wanted, code)
        self.assertEqual(self.inputs("x +\ny", "adapters/prompted.py R"), ["x +|y"])
        self.assertEqual(self.inputs("x +\n", "tmhost-R"), ["x +"])
        self.assertEqual(self.inputs("w +\n1", "tmhost-gp"), ["w +", "1"])

    @unittest.skipUnless(shutil.which("R"), "there is no R")
    def test_r_takes_each_of_these_for_whole(self) -> None:
        fields = [group.input.replace(LINE_END, "\n") for code, _ in R_CODE for group in groups(code.split("\n"), "R")]
        with tempfile.TemporaryDirectory() as folder:
            names = [os.path.join(folder, str(at)) for at in range(len(fields))]
            for name, field in zip(names, fields):
                with open(name, "w", encoding="utf-8") as file:
                    file.write(field + "\n")
            done = subprocess.run(["R", "--no-echo", "--no-save", "-e", WHOLE_FOR_R, "--args", *names], stdout=subprocess.PIPE, check=True)
        self.assertEqual(done.stdout.decode().split(), ["whole"] * len(fields))

    def test_blocks_and_remarks_of_octave(self) -> None:
        """A field ends where no block is open. Places of a value (`end`), texts and the words of a command open and close none."""
        for code, wanted in OCTAVE_CODE:
            self.assertEqual(self.inputs(code, "tmhost-octave"), wanted, code)
        for code, wanted in (("if x\ny\nz", ["if x", "y", "z"]), ("%{\nx\ny", ["%{|x|y"]), ("s.end = 1;\ns.if\nx", ["s.end = 1;", "s.if", "x"]), ("x = [a b\nif c\nend_of 1];\ny", ["x = [a b|if c|end_of 1];", "y"])):
            self.assertEqual(self.inputs(code, "/a/prompted.py octave"), wanted, code)

    @unittest.skipUnless(shutil.which("octave"), "there is no octave")
    def test_octave_takes_each_of_these_for_whole(self) -> None:
        fields = [group.input.replace(LINE_END, "\n") for code, _ in OCTAVE_CODE for group in groups(code.split("\n"), "octave")]
        with tempfile.TemporaryDirectory() as folder:
            for at, field in enumerate(fields):
                with open(os.path.join(folder, f"f{at}.m"), "w", encoding="utf-8") as file:
                    file.write("1;\n" + field + "\n")
            command = WHOLE_FOR_OCTAVE % (len(fields) - 1)
            done = subprocess.run(["octave", "--no-gui", "--norc", "--quiet", "--eval", command], cwd=folder, stdout=subprocess.PIPE, stderr=subprocess.DEVNULL)
        self.assertEqual(done.stdout.decode().split("\n")[:-1], ["whole"] * len(fields))

    def test_remarks_of_maxima(self) -> None:
        """They stand with the statement after them: by themselves they are none. Those after all code are in no field."""
        for code, wanted in (
            ("/* a (\nb */\n1;\n2;", ["/* a (|b */|1;", "2;"]), ("/* a */\n\n/* b\n/* c */\nd */\nx: 1;\ny;", ["/* a */||/* b|/* c */|d */|x: 1;", "y;"]), ("x;\n/* a\nb */\n/* c */", ["x;"]), ("/* a", []),
            ("x: 1; /* a\nb */ y: 2;\nz;", ["x: 1; /* a|b */ y: 2;", "z;"]), ("f('a,\n2\n);\n'b;\nx: \\(;\ny;", ["f('a,|2|);", "'b;", "x: \\(;", "y;"]), ('s: "a (\n/*";\ny;', ['s: "a (|/*";', "y;"]),
            ("f(x) :=\nx^2;\ny: 1 + /* a */\n\n2;\nif y\nthen 1\nelse 2;", ["f(x) :=|x^2;", "y: 1 + /* a */||2;", "if y|then 1|else 2;"]), ("block([a],\n/* hm */\na)$\nz;", ["block([a],|/* hm */|a)$", "z;"]),
        ):
            self.assertEqual(self.inputs(code, "tmhost-maxima"), wanted, code)

    def test_statements_of_sql(self) -> None:
        """One goes on to its semicolon, but not beyond a command of the shell. Where there is none a line is one."""
        for code, wanted in (
            ("select a,\nb\n\nfrom t;\nselect 1;", ["select a,|b||from t;", "select 1;"]), ("select 1\nselect 2", ["select 1", "select 2"]), (".tables\nselect\n1;", [".tables", "select|1;"]),
            ("select 1\n.tables\nselect 2;", ["select 1", ".tables", "select 2;"]), ("select ';\n', 1;\nx;", ["select ';|', 1;", "x;"]), ("-- it's one;\nselect 1; -- (\nx;", ["-- it's one;|select 1; -- (", "x;"]),
            ("create table t(\na\n);\nx;", ["create table t(|a|);", "x;"]), ("create trigger r after insert on t begin\n  select 1;\nend;\nx;", ["create trigger r after insert on t begin|  select 1;|end;", "x;"]),
        ):
            self.assertEqual(self.inputs(code, "tmhost-sqlite3"), wanted, code)


class Front(unittest.TestCase):
    def test_where_it_ends(self) -> None:
        texts: List[Tuple[List[str], int]] = [(["---", "a", "---", "b"], 3), (["\ufeff--- ", "..."], 2), (["---", "a"], 0), (["a", "---", "---"], 0), ([], 0)]
        for lines, end in texts:
            self.assertEqual(matter_end(lines), end)

    def test_sessions(self) -> None:
        front = front_of(["---", "sessions: {a: b  c, d: [e]}", "...", "text"])
        self.assertEqual((front.lines, front.sessions), (3, {"a": ("b", "c"), "d": ("e",)}))
        self.assertEqual(front_of(["---", "title: sessions", "---"]).lines, 0)
        with self.assertRaisesRegex(Trouble, "no mapping of names, as in `sessions: {py"):
            front_of(["---", "sessions: [a]", "---"])

    def test_what_is_no_yaml(self) -> None:
        """Its lines are those of the file, from the first `---` on."""
        for lines, said in (
            (["title: a", "sessions: a: b"], "mapping values are not allowed here in line 3, column 12: "), (["sessions: {a: [b}"], "in line 2, column 15: .*'}' in line 2, column 17: "),
            (["sessions:", "  a: b", " c: d"], "while parsing a block mapping in line 2, column 1: .* in line 4, column 2: "),
        ):
            with self.assertRaisesRegex(Trouble, r"\Athe front matter is no YAML: .*" + said):
                front_of(["---", *lines, "---", "text"])

    def test_words_with_a_space(self) -> None:
        self.assertEqual(front_of(["---", "sessions: {a: tmhost-gp -q}", "---"]).sessions, {"a": ("tmhost-gp", "-q")})
        for words, meant in (("[gp -q]", "gp, -q"), ("['gp  -q ']", "gp, -q"), ("[a, b c]", "b, c")):
            with self.assertRaisesRegex(Trouble, rf"\Athe session a has a word with a space, '.*': write \[{meant}\]\Z"):
                front_of(["---", f"sessions: {{a: {words}}}", "---"])

    def test_whether_fences_are_whole(self) -> None:
        given: List[List[str]] = [[], ["fences: whole"]]
        self.assertEqual([front_of(["---", "sessions: {a: b}", *more, "---"]).is_whole for more in given], [False, True])
        self.assertFalse(front_of(["---", "fences: whole", "---"]).is_whole)  # it is no text of ours
        for word in ("lines", "[whole]", ""):
            with self.assertRaisesRegex(Trouble, "`fences` can only be `whole`"):
                front_of(["---", "sessions: {a: b}", f"fences: {word}", "---"])

    def test_keys_that_are_misspelt(self) -> None:
        """None is where the key that it looks like stands, too, nor one that other programs have."""
        known = ["sessions", "fences", "normal"]
        for keys, meant in ((["fence"], ["fences"]), (["Fences", "title"], ["fences"]), (["fense", "normals"], ["fences", "normal"])):
            with self.assertRaises(Trouble) as raised:
                refuse_misspelt(keys, known)
            self.assertEqual(raised.exception.lines, tuple(f"the front matter has {key!r}: is {name} meant?" for key, name in zip(keys, meant)))
        for keys in (["fence", "fences"], ["faces", "format"]):
            refuse_misspelt(keys, known)

    def test_sessions_that_are_misspelt(self) -> None:
        for text, meant, of_mapping in (
            ("session: {a: b}", "session", "session"), ("Sessions: # c\n  a: b", "Sessions", "Sessions"), ("session: 3", "session", None),
            ("session: {a: b}\nsessions: {c: d}", None, None), ("sections: {a: b}", None, None), ("other: {a: b}", None, None),
        ):
            lines = ["---", *text.split("\n"), "---", "session: {a: b}"]
            self.assertEqual((sessions_meant(lines), sessions_meant(lines, KEY_OF_MAPPING)), (meant, of_mapping), text)
