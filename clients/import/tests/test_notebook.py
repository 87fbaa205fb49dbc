"""Notebooks: what of them becomes fields, and which are refused."""
from .support import Case, LINE_END, PYTHON, code, needs_nbformat, notebook, without_nbformat

MARKDOWN = {"cell_type": "markdown", "metadata": {}, "source": "# Title"}
RAW = {"cell_type": "raw", "metadata": {}, "source": "raw"}
SAGE = {"kernelspec": {"name": "sagemath", "display_name": "SageMath 9.5", "language": "sage"}, "language_info": {"name": "python"}}
# Notebooks that are refused, each with what is said of it.
REFUSED: dict[str, tuple[str | bytes, str]] = {
    "an empty text": ("", "no notebook: line 1, column 1"),
    "JSON that ends early": (notebook(code("x"))[:-9], "no notebook: line 1, column"),
    "no object": ("[]", "no object with a member nbformat"),
    "another object": ('{"cells": []}', "no object with a member nbformat"),
    "an older version": ('{"nbformat": 3, "nbformat_minor": 0, "worksheets": []}', "nbformat is '3'"),
    "a newer version": (notebook(code("x"), nbformat=5), "nbformat is '5'"),
    "a version that is true": (notebook(code("x"), nbformat=True), "nbformat is 'True'"),
    "a text as minor version": (notebook(code("x"), nbformat_minor="4"), "nbformat_minor is no number"),
    "no cells": (notebook().replace('"cells": []', '"cells": {}'), "its cells are no array"),
    "nothing to make a field of": (notebook(RAW), "nothing in it"),
    "a cell that is a number": (notebook(MARKDOWN, 7), "cell 2"),
    "an id that is an array": (notebook(code("x", id=[]), nbformat_minor=5), "cell 1"),
    "a source that is a number": (notebook(code("x"), code(7)), "cell 2: its source is no text"),
    "a source with a number in it": (notebook(code(["x\n", 7])), "cell 1: its source is no text"),
    "NaN": (notebook(code("x", metadata={"a": float("nan")})), "NaN is no JSON"),
    "a number of 5,000 digits": (notebook(code("x")).replace('"execution_count": null', '"execution_count": ' + "9" * 5000), "too many digits"),
    "metadata 100,000 deep": (notebook(code("x")).replace("null", "[" * 100_000 + "]" * 100_000), "nested too deep"),
    "a key of a cell twice": (notebook(MARKDOWN, code("x")).replace('"outputs"', '"source": "y", "outputs"'), "cell 2: the key 'source' stands twice"),
    "a key of all twice": ('{"nbformat": 4, ' + notebook(code("x"))[1:], "the key 'nbformat' stands twice"),
    "a byte that is no UTF-8": (b'{\n"\xff"}', "line 2: it is no UTF-8 from its byte 3 on"),
    "UTF-16": (notebook(code("x")).encode("utf-16"), "no UTF-8"),
    "a NUL": (notebook(code("x"), code("a\0b")), "cell 2: no field can hold the control character U+0000"),
    "a control character in a later line": (notebook(code("a\nb\x1bc")), "cell 1: no field can hold the control character U+001B in line 2 of 2"),
    "a carriage return alone": (notebook(code("a\rb")), "U+000D"),
    "half of a character": (notebook(code("x")).replace('"x"', r'"\ud800"'), "cell 1: U+D800 is half of a character"),
    "nothing but an input of 4,096 bytes": (notebook(code("é" * 2048)), "cell 1 can't be taken, since a statement of it is too long: it has 4,096 bytes"),
    "10,001 code cells": (notebook(*[code("x")] * 10_001), "cell 10001"),
    "a session with a space": (notebook(code("x", "a b")), "cell 1: in its metadata tmhost.session is 'a b'"),
    "a session of 4,000 bytes": (notebook(code("x", "a" * 4000)), "cell 1: in its metadata tmhost.session is 'aaaa"),
    "a session that is a number": (notebook(code("x", 7)), "cell 1: in its metadata tmhost.session is"),
    "a session that isn't known": (notebook(code("x", "strange")), "--session 'strange=WORDS'"),
    "no kernel": (notebook(code("x"), metadata={}), "--kernel NAME"),
    "a kernel that isn't known": (notebook(code("x"), metadata={"kernelspec": {"name": "julia-1.9", "display_name": "Julia"}}), "'julia-1.9=WORDS'"),
    "Sage, which is coloured as Python": (notebook(code("2^3"), metadata=SAGE), "'sagemath=WORDS'"),
    "65 sessions": (notebook(*[code("x", f"s{number}") for number in range(65)]), "cell 65: a worksheet has at most 64 sessions"),
}
# Those that nbformat refuses alone: nothing of what is wrong in them would become a field.
INVALID: dict[str, tuple[str, str]] = {
    "a minor version that never was": (notebook(code("x"), nbformat_minor=-1), "no valid notebook"),
    "an output of no kind": (notebook(code("x", outputs=[{"output_type": "sound"}])), "no valid notebook: cell 1"),
}
ALL_SESSIONS = [word for number in range(65) for word in ("--session", f"s{number}=sh x")]


class Notebooks(Case):
    def test_code_cells_become_fields_in_order(self) -> None:
        text = notebook(MARKDOWN, code(["def f(n):\n", "    return n\n", "\n"]), RAW, code(""), code("f(2)"), MARKDOWN)
        code_alone = [("python3", f"def f(n):{LINE_END}    return n"), ("python3", ""), ("python3", "f(2)")]
        self.assertEqual(self.inputs(text, "--no-prose"), code_alone)
        self.assertEqual(self.inputs(text), [("prose", "# Title"), *code_alone, ("prose", "# Title")])

    def test_what_is_left_out_is_counted(self) -> None:
        done = self.do("--script", "--no-prose", data=notebook(MARKDOWN, code("x"), RAW, MARKDOWN))
        self.assertEqual(done.errors, "tmhost-import: left out: markdown cells: 2; raw cells: 1\n")

    def test_what_is_not_to_be_evaluated_is_prose(self) -> None:
        off = [code("#| label: a\n#| eval: false\nx ``` y"), code("y", metadata={"active": "py"}), code("#| eval: true\nz"), code("u\n#| eval: false")]
        kept = [("python3", f"#| eval: true{LINE_END}z"), ("python3", f"u{LINE_END}#| eval: false")]
        shown = ["````python|#| label: a|#| eval: false|x ``` y|````", "```python|y|```"]
        self.assertEqual(self.inputs(notebook(*off)), [*(("prose", one.replace("|", LINE_END).replace(f"#{LINE_END}", "#|")) for one in shown), *kept])
        done = self.do("--script", "--no-prose", data=notebook(*off))
        self.assertIn("left out: cells that aren't to be evaluated: 2\n", done.errors)
        self.assertEqual(self.inputs(notebook(*off), "--no-prose"), kept)
        self.assertEqual(self.inputs(notebook(code("#| eval: false", "python3"))), [("python3", "#| eval: false")])

    def test_the_kernel_says_which_interpreter(self) -> None:
        for name, language, words in (("ir", None, "R"), ("xeus", "Octave", "octave"), ("python3", "python", "python"), ("bash", "bash", "sh")):
            about = {"kernelspec": {"name": name, "display_name": "x"}, "language_info": {"name": language or name}}
            first = self.script(notebook(code("x"), metadata=about))[0]
            self.assertEqual(first, f"session {name} plain tmhost-{words}")

    def test_cells_may_name_sessions_of_their_own(self) -> None:
        lines = self.script(notebook(code("a", "gp"), code("b"), code("c", "mine"), code("d", "gp")), "--session", "mine=sh mine.sh")
        self.assertRegex(lines[0], r"^session gp plain (?:\S+ )*\S+$")
        self.assertEqual(lines[1], "session python3 plain tmhost-python")
        self.assertEqual(lines[2:], ["session mine plain sh mine.sh", "new 0 gp a", "new 1 python3 b", "new 2 mine c", "new 3 gp d"])

    def test_words_may_be_given_by_session_or_language(self) -> None:
        for name in ("python3", "python"):
            self.assertEqual(self.script(notebook(code("x")), "--session", f"{name}=my  words")[0], "session python3 plain my words")

    def test_a_kernel_may_be_given(self) -> None:
        for about in (dict[str, object](), PYTHON):
            self.assertEqual(self.inputs(notebook(code("x"), metadata=about), "--kernel", "octave"), [("octave", "x")])

    def test_names_that_no_session_may_have_are_changed_and_reported(self) -> None:
        for kernel, name in (("julia-1.9", "julia-1-9"), ("my env", "my-env"), ("日本", "session"), ("k" * 4000, "k" * 32), ("*R*", "R")):
            about = {"kernelspec": {"name": kernel, "display_name": "x"}}
            done = self.do("--script", "--session", f"{kernel}=sh x", data=notebook(code("x"), metadata=about))
            self.assertEqual(done.out, f"session {name} plain sh x\nnew 0 {name} x\n")
            self.assertIn(f"is named {name}\n", done.errors)

    def test_line_ends_and_bytes_that_fields_may_have(self) -> None:
        for source, given in (("a\r\nb\r\n", f"a{LINE_END}b"), (f"a{LINE_END}b", f"a{LINE_END}b"), (" \ta\u2029\x7f\x85 ", " \ta\u2029\x7f\x85 "), ("😀", "😀")):
            self.assertEqual(self.inputs(notebook(code(source))), [("python3", given)])

    def test_ends_of_lines_that_an_export_has_written(self) -> None:
        self.assertEqual(self.inputs(notebook(code("a\nb\n\n", "python3"))), [("python3", f"a{LINE_END}b{LINE_END}{LINE_END}")])

    def test_the_longest_input(self) -> None:
        for source in ("é" * 2047 + "x", "\n" + "x" * 4092):
            self.assertEqual(len(self.inputs(notebook(code(source)))[0][1].encode("utf-8")), 4095)

    def test_ten_thousand_cells(self) -> None:
        self.assertEqual(self.inputs(notebook(*[code(f"x{number}") for number in range(10_000)]))[-1], ("python3", "x9999"))

    def test_what_does_no_harm(self) -> None:
        deep = "[" * 900 + "]" * 900
        for text in (
            notebook(code("x")).replace('"metadata": {}', f'"metadata": {{"a": {deep}}}'),
            notebook(code("x", new=1), {"cell_type": "new", "metadata": {}, "source": ""}, nbformat_minor=99),
            notebook(code("x"), nbformat_minor=5),
            "\ufeff" + notebook(code("x")),
        ):
            self.assertEqual(self.inputs(text), [("python3", "x")])

    def test_refused_notebooks(self) -> None:
        for name, (text, said) in REFUSED.items():
            with self.subTest(name):
                self.refused(text, said, *(ALL_SESSIONS if name == "65 sessions" else []))

    @needs_nbformat
    def test_invalid_notebooks(self) -> None:
        for name, (text, said) in INVALID.items():
            with self.subTest(name):
                self.refused(text, said)

    def test_troubles_are_reported_together(self) -> None:
        done = self.do("new", data=notebook(*[code("\1"), code("x")] * 12))
        self.assertEqual((done.status, done.errors.count("\n"), done.errors.count("U+0001")), (1, 11, 10))
        self.assertIn("cell 19:", done.errors)
        self.assertIn("and 2 more like these", done.errors)

    def test_without_nbformat(self) -> None:
        """The same becomes a field, and what can't become one is refused as well."""
        text = notebook(MARKDOWN, code(["def f(n):\n", "    return n\n"]), RAW, code("f(2)", outputs=[{"output_type": "sound"}]))
        alone = without_nbformat(self.place("modules"))
        done = self.do("--script", data=text, **alone)
        news = [line for line in done.out.split("\n") if line.startswith("new ")]
        self.assertEqual(news, ["new 0 prose # Title", f"new 1 python3 def f(n):{LINE_END}    return n", "new 2 python3 f(2)"])
        self.assertEqual((done.status, done.errors.split("\n")[0]), (0, "tmhost-import: left out: raw cells: 1"))
        for name, (refused, said) in REFUSED.items():
            with self.subTest(name):
                done = self.do("--format", "notebook", *(ALL_SESSIONS if name == "65 sessions" else []), "new", data=refused, **alone)
                self.assertEqual((done.status, said in done.errors), (1, True), done.errors)
