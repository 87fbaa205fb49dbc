"""Org files and texts with fences."""
from tmhost.starting import PROGRAMS
from tmhost_import import fences, org
from tmhost_import.sessions import ALIASES, LANGUAGES, language_of

from .support import LINE_END, Case, needs_markdown_it

# Texts in Org, each with the places, sessions, languages and texts of its blocks.
ORG: dict[str, list[tuple[int, str | None, str, str]]] = {
    "#+begin_src python\nx\n#+end_src": [(1, None, "python", "x")],
    "text\n  #+BEGIN_SRC R :session *R* :results output\n    a\n\n      b\n\t c\n  #+End_Src\n": [(2, "*R*", "R", "a\n\n  b\n     c")],
    "#+begin_src sh -n 5 :exports both :session a b :x\n1\n#+end_src": [(1, "a b", "sh", "1")],
    "#+begin_src sh :session none\n1\n#+end_src\n#+begin_src sh :session\n2\n#+end_src": [(1, None, "sh", "1"), (4, None, "sh", "2")],
    "#+begin_src sh :session a :session b\n1\n#+end_src": [(1, "b", "sh", "1")],
    "#+begin_src org\n,* a\n,,* b\n  ,#+c\n, d\n,e\n#+end_src": [(1, None, "org", "* a\n,* b\n  #+c\n, d\n,e")],
    "#+begin_src c -i\n  a\n #+end_src": [(1, None, "c", "  a")],
    "#+begin_src make\n\ta:\n\t\tb\n \tc\n#+end_src": [(1, None, "make", "a:\n\tb\nc")],
    "#+begin_src make\n   a\n\tb\n#+end_src": [(1, None, "make", "a\n     b")],
    "#+begin_src x\n  \n#+end_src": [(1, None, "x", "")],
    "#+begin_src x :eval no-export\n1\n#+end_src": [(1, None, "x", "1")],
    "#+begin_example\n#+begin_src x\n#+end_example\n#+begin_src y\n#+end_src": [(4, None, "y", "")],
    "#+begin_example\n#+begin_src x\n1\n#+end_src": [(2, None, "x", "1")],
    "#+begin_srcx\n#+begin_src y\r\n1\r\n#+end_src\r\n": [(2, None, "y", "1")],
}
# Texts in CommonMark, each with the lines and info strings of its fences, and what stands in them.
FENCES: dict[str, list[tuple[int, str, list[str]]]] = {
    "```python\nx\n```": [(1, "python", ["x"])],
    "~~~~ r  \n~~~\n```\n~~~~~  \n": [(1, "r", ["~~~", "```"])],
    "   ```x\n   a\n b\n    c\n    ```\n  ```\n": [(1, "x", ["a", "b", " c", " ```"])],
    "    ```x\n    ```\n": [],
    "``` a`b\n": [],
    "text\n```x\n1": [(2, "x", ["1"])],
    "> ```x\n> 1\n>2\n> ```\n> ~~~y\ntext\n": [(1, "x", ["1", "2"]), (5, "y", [])],
    "- ```x\n  1\n   2\n  ```\n- text\n\n      ```y\n      ```\n": [(1, "x", ["1", " 2"])],
    "1.  a\n\n    ~~~x\n    1\n\n    2\n\n```y\n": [(3, "x", ["1", "", "2", ""]), (8, "y", [])],
    "- a\n  > ```x\n  > 1\n  > ```\n": [(2, "x", ["1"])],
    "-\n\n  ```x\n a\n": [(3, "x", ["a"])],
    "-\n  ```x\n  1\n": [(2, "x", ["1"])],
    "<!--\n```x\n-->\n```y\n": [(4, "y", [])],
    "<div>\n```x\n\n```y\n": [(4, "y", [])],
    "<b c='d'>\n```x\n\n```y\n": [(4, "y", [])],
    "text <pre>\n```x\n": [(2, "x", [])],
    "* * *\n\t```x\n": [],
    "*\t```x\n\t1\n": [(1, "x", ["1"])],
    "a\n2. ```x\n": [],
    "a\n1. ```x\n": [(2, "x", [])],
    "```x\r\n1\r2\r\n```": [(1, "x", ["1", "2"])],
}
MARKDOWN = "```{python, echo=FALSE}\na\n\n  b\n```\n\n- ~~~ {.R .numberLines}\n  1\n  ~~~\n\n```json\n{}\n```\n\ntext\n\n```\nout\n```\n\n``` Py x=1\nc\n```\n"


class Languages(Case):
    def test_that_each_adapter_has_one(self) -> None:
        """In capitals or not, and by its other names."""
        self.assertEqual({*LANGUAGES}, {*PROGRAMS})
        for hint, wanted in [("LUA", "lua"), ("Tcl", "tcl"), ("js", "node"), ("JavaScript", "node"), ("tclsh", "tcl"), ("Haskell", "ghci"), ("c", None), *ALIASES.items()]:
            self.assertEqual(language_of(hint), wanted, hint)


class Org(Case):
    def test_blocks(self) -> None:
        for text, blocks in ORG.items():
            with self.subTest(text):
                found = [(cell.place, cell.session, cell.hints[0], cell.text) for cell in org.read(text).cells]
                self.assertEqual(found, [(f"the block in line {line}", *rest) for line, *rest in blocks])

    def test_blocks_that_are_left_out(self) -> None:
        blocks = ["python", "R :eval no", "R :eval never :x y", "", "dot :eval yes", "R"]
        text = "#+header: :eval no\n" + "".join(f"#+begin_src {block}\n1\n#+end_src\n" for block in blocks)
        done = self.do("--script", "--format", "org", data=text)
        self.assertEqual([line.split(" ")[:3] for line in done.out.split("\n")[2:4]], [["new", "0", "python"], ["new", "1", "R"]])
        self.assertEqual(
            done.errors.split("\n")[:2],
            [
                "tmhost-import: left out: blocks with :eval no: 2; blocks without a language: 1; blocks of dot, for which there is no session: 1",
                "tmhost-import: header arguments beside those of #+begin_src are not read: 1 lines have some",
            ],
        )

    def test_sessions_that_org_keeps_apart(self) -> None:
        blocks = ["python :session s", "R :session s", "python :session s", "python", "python :session *python*", "python :session python"]
        text = "".join(f"#+begin_src {block}\n1\n#+end_src\n" for block in blocks)
        self.assertEqual([name for name, _ in self.inputs(text, form="org")], ["s", "s-2", "s", "python", "python-2", "python"])

    def test_blocks_without_an_end(self) -> None:
        self.refused("\n#+begin_src python\n1\n", "line 2: the block that begins here has no end", form="org")
        self.refused("#+begin_src python\n* 1\n#+end_src\n", "line 1: the block that begins here has no end before the headline in line 2", form="org")

    def test_many_blocks_without_an_end_that_are_no_code(self) -> None:
        self.assertEqual(org.read("#+begin_example\n" * 200_000).cells, [])

    def test_a_block_that_no_field_can_hold(self) -> None:
        self.refused("#+begin_src R\n1\n#+end_src\n#+begin_src R\na\n\fb\n#+end_src\n", "the block in line 4: no field can hold the control character U+000C", form="org")


class Fences(Case):
    def test_fences(self) -> None:
        for text, blocks in FENCES.items():
            with self.subTest(text):
                self.assertEqual([(fence.line, fence.info, fence.lines) for fence in fences.fences_of(text)], blocks)

    @needs_markdown_it
    def test_languages(self) -> None:
        wanted = [("python", f"a{LINE_END}{LINE_END}  b"), ("R", "1"), ("python", "c")]
        self.assertEqual(self.inputs(MARKDOWN, "--no-prose", form="markdown"), wanted)
        self.assertEqual([field for field in self.inputs(MARKDOWN, form="markdown") if field[0] != "prose"], wanted)
        done = self.do("--script", "--no-prose", "--format", "markdown", "--session", "json=sh x", data=MARKDOWN)
        self.assertIn("session json plain sh x\n", done.out)
        self.assertIn("left out: blocks without a language: 1\n", done.errors)

    @needs_markdown_it
    def test_a_text_without_code(self) -> None:
        self.refused("# Title\n\n```julia\n1\n```\n", "nothing in it to make a field of", "--no-prose", form="markdown")

    @needs_markdown_it
    def test_fields_are_those_of_weave(self) -> None:
        """A field for each statement, but where the fence says that it is one."""
        gp = "f(n) =\n{\n  n + 1\n}\nm = [1,2;\n3,4]\n"
        python = 'def f():\n    """a\n\nb"""\n    return 1\nx = """c\n\nd"""\nf()\n'
        for info, text, wanted in (
            ("gp", gp, ["f(n) =|{|  n + 1|}", "m = [1,2;|3,4]"]), ("python", python, ['def f():|    """a||b"""|    return 1', 'x = """c||d"""', "f()"]),
            ("gp {whole}", gp, [gp[:-1].replace("\n", "|")]), ("{.python .pure}", python, [python[:-1].replace("\n", "|")]),
        ):
            document = f"```{info}\n{text}```\n"
            self.assertEqual([given.replace(LINE_END, "|") for _, given in self.inputs(document, form="markdown")], wanted)
            whole = [text[:-1].replace("\n", "|")]
            self.assertEqual([given.replace(LINE_END, "|") for _, given in self.inputs(document, "--whole", form="markdown")], whole)

    @needs_markdown_it
    def test_what_is_not_to_be_evaluated(self) -> None:
        """It stays in the text, as its author shows it; where no text is taken it is counted."""
        off = ["{r, eval=FALSE}", "{r eval = F}", "r {eval=no}", 'python active="md"', '{python active="py,md"}', "{.python eval=false}"]
        on = ["{r, eval=TRUE}", "{r, eval=run_it}", 'python active="ipynb,md"', "{r, echo=FALSE, include=FALSE}"]
        for info in off:
            document = f"```{info}\nx\n```\n"
            self.assertEqual(self.inputs(document, form="markdown"), [("prose", document[:-1].replace("\n", LINE_END))])
            done = self.do("--script", "--no-prose", "--format", "markdown", data=document + "```sh\ny\n```\n")
            self.assertIn("left out: blocks that aren't to be evaluated: 1\n", done.errors)
        for info in on:
            self.assertEqual([given for _, given in self.inputs(f"```{info}\nx\n```\n", form="markdown")], ["x"], info)
        quarto = "```{python}\n#| echo: false\n#| eval: false\nx\n```\n```{python}\n#| eval: true\ny\n```\n"
        self.assertEqual([name for name, _ in self.inputs(quarto, form="markdown")], ["prose", "python", "python"])

    @needs_markdown_it
    def test_blocks_of_knitr_and_quarto(self) -> None:
        """In a text of these only chunks are evaluated, and other blocks are shown."""
        document = "```r\nx\n```\n\n```{r}\ny\n```\n"
        for name in ("a.Rmd", "a.qmd"):
            done = self.do("--script", self.write(name, document))
            self.assertEqual(done.out.split("\n")[2:], [f"new 0 prose {LINE_END.join(['```r', 'x', '```'])}", "new 1 R y", ""], done.errors)
        self.assertEqual(self.inputs(document, form="markdown"), [("R", "x"), ("R", "y")])

    def test_deep_containers(self) -> None:
        for text in (">" * 100_000 + "```x\n", "- " * 100_000 + "```x\n", " " * 100_000 + "```x\n"):
            self.assertEqual(fences.fences_of(text), [])


class Split(Case):
    @needs_markdown_it
    def test_lines_and_those_that_go_on(self) -> None:
        source = "x = 1\n\ny = 2\nif x:\n    a\n\n    b\nelse:\n    c\n@d\ndef f():\n\treturn [\n\t1\n]\nendpoint = 3\nprint(\n  1\n)\nwhile y\n y--\nendwhile\n"
        wanted = ["x = 1", "y = 2", "if x:|    a||    b|else:|    c", "@d|def f():|\treturn [|\t1|]", "endpoint = 3", "print(|  1|)", "while y| y--|endwhile"]
        documents = {"markdown": f"```python\n{source}```\n", "org": f"#+begin_src python\n{source}#+end_src\n"}
        for form, text in documents.items():
            self.assertEqual([given.replace(LINE_END, "|") for _, given in self.inputs(text, "--split", form=form)], wanted)
        self.assertEqual(len(self.inputs(documents["org"], form="org")), 1)

    @needs_markdown_it
    def test_places(self) -> None:
        self.refused("```sh\na\n\nb\x01\n```\n", "the block in line 1, its line 3: no field can hold the control character U+0001", "--split", form="markdown")

    @needs_markdown_it
    def test_a_long_block_of_short_lines(self) -> None:
        text = "```sh\n" + "echo a line\n" * 2000 + "```\n"
        self.assertEqual(len(self.inputs(text, form="markdown")), 2000)
        self.assertEqual(len(self.inputs(text, "--split", form="markdown")), 2000)
        done = self.do("--script", "--whole", "--format", "markdown", data=text)
        said = "the block in line 1 is cut between statements into 7 fields: it has 27,997 bytes as an input, and a field has at most 4,095\n"
        self.assertIn(said, done.errors)
        self.assertEqual(done.out.count("new "), 7)
        self.assertEqual(done.out.count("echo a line"), 2000)


class Front(Case):
    def first(self, front: str, *words: str) -> list[str]:
        return self.script(f"{front}```mine {{fold}}\nx\n```\n\n```tmhost-answer\n1\n```\n\n```sh\ny\n```\n", *words, form="markdown")

    @needs_markdown_it
    def test_sessions_of_a_woven_text(self) -> None:
        """Its fences are those of its sessions, as tmhost-weave has it: another one is shown there and never evaluated."""
        for front in ("---\nsessions: {mine: [a, b]}\n---\n", "---\r\ntitle: x\r\nsessions:\r\n  mine: a  b\r\n...\r\n"):
            self.assertEqual(self.first(front, "--no-prose"), ["session mine plain a b", "new 0 mine x"])
            self.assertEqual(self.first(front)[1:], ["session prose plain true", "new 0 mine x", f"new 1 prose {LINE_END.join(['```sh', 'y', '```'])}"])
            self.assertEqual(self.first(front, "--no-prose", "--session", "sh=c")[2:], ["new 0 mine x", "new 1 sh y"])
        self.assertEqual(self.first("---\nsessions: {mine: [a, b], sh: no}\n---\n", "--session", "mine=c")[:2], ["session mine plain c", "session sh plain no"])
        chunk = "---\nsessions: {r: [a]}\n---\n```{r}\nx\n```\n\n```r\ny\n```\n"
        self.assertEqual(self.inputs(chunk, form="markdown"), [("r", "x"), ("r", "y")])
        done = self.do("--script", self.write("a.Rmd", chunk))
        self.assertEqual(done.out.split("\n")[1:], ["new 0 r x", "new 1 r y", ""], done.errors)

    @needs_markdown_it
    def test_other_front_matter(self) -> None:
        for front in ("---\ntitle: sessions\n---\n", "---\nsessions:\n---\n", "text\n\n---\nsessions: {mine: [a]}\n---\n", "---\nsessions: {mine: [a]}\n"):
            self.assertEqual([line for line in self.first(front, "--no-prose") if line.startswith("new")], ["new 0 sh y"], front)

    @needs_markdown_it
    def test_front_matter_that_is_misspelt(self) -> None:
        """A mapping by a name that is nearly `sessions` is refused, as weave and suite refuse it. Another value of such a name is its own."""
        for key in ("session", "Sessions", "sesions"):
            self.refused(f"---\n{key}: {{py: [tmhost-python]}}\n---\n```py\n1\n```\n", f"the front matter has '{key}': is sessions meant?", form="markdown")
        self.assertEqual(self.inputs("---\nsession: 3\n---\n```python\n1\n```\n", form="markdown"), [("python", "1")])

    def test_front_matter_that_is_wrong(self) -> None:
        for sessions, said in (
            ("{", "no YAML"), ("{mine: {a: b}}", "no list of words"), ("{mine: []}", "it must be 1 to 16"), ("{mine: [a b]}", "the session mine has a word with a space, 'a b': write [a, b]"), ("[a]", "no mapping of names"),
            ("{a-b: [x]}", "can't have the name 'a-b'"),
        ):
            self.refused(f"---\nsessions: {sessions}\n---\n```mine\nx\n```\n", said, form="markdown")
