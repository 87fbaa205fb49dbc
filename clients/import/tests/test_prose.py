"""Text between code: what of it becomes fields of prose, and what tmhost-prose makes of exports."""
import importlib
import json
import os
import random
import re
import shutil
import subprocess
import unittest

from tmhost_import import prose
from tmhost_import.exported import markdown_with_prose, notebook_with_prose, with_prose
from tmhost_import.fences import fences_of
from tmhost_import.prose import ITEM, open_end, parts_of

from .support import COMMAND, LINE_END, PROGRAM, ROOT, Case, Done, code, needs_nbformat, needs_program, notebook

PROSE = COMMAND.replace("tmhost-import", "tmhost-prose")
TYPESET = f"{ROOT}/clients/typeset/tmhost-typeset"
MARKDOWN_IT = ("/usr/share/javascript/markdown-it/markdown-it.js", "/usr/share/nodejs/markdown-it/dist/markdown-it.js")
ECHO = f"sh {ROOT}/examples/echo.sh"


def text(source: object, session: object = None, **more: object) -> dict[str, object]:
    """A cell of Markdown."""
    about = {} if session is None else {"tmhost": {"session": session}}
    return {"cell_type": "markdown", "metadata": about, "source": source, **more}


# Texts in Markdown, each with the sessions and inputs of its fields; | stands between lines.
MARKDOWN: dict[str, list[tuple[str, str]]] = {
    "# Title\n\ntext\n\n```python\nx\n```\n\n- end\n": [("prose", "# Title||text"), ("python", "x"), ("prose", "- end")],
    "```python\nx\n```\n```python\ny\n```\n": [("python", "x"), ("python", "y")],
    "\n\n  a  \n b\n\n": [("prose", "  a  | b")],
    "a\n\n```json\n{}\n```\n\n```\nout\n```\n\n~~~ R\ny\n~~~\nb": [("prose", "a||```json|{}|```||```|out|```"), ("R", "y"), ("prose", "b")],
    "---\ntitle: x\n---\na\n\n```sh\nx\n```\n": [("prose", "a"), ("sh", "x")],
    "---\n\na\n\n---\n": [("prose", "---||a||---")],
    "1. a\n\n   ```sh\n   x\n   ```\n\n   b\n": [("prose", "1. a"), ("sh", "x"), ("prose", "   b")],
    "> a\n> ```sh\n> x\n> ```\n> b\n": [("prose", "> a"), ("sh", "x"), ("prose", "> b")],
    "a\tb\n-\tc\n\n```sh\n\tx\n```": [("prose", "a   b|-   c"), ("sh", "\tx")],
    "a\r\n\r\nb\r\n": [("prose", "a||b")],
    "a\n\n```sh\nx": [("prose", "a"), ("sh", "x")],
    "```prose\na\n\n```\n\n```prose-2\nb\n```\n": [("prose", "a"), ("prose-2", "b")],
    # What tmhost-weave has put there.
    "a\n\n```sh\nx\n```\n\n```tmhost-answer\n1\n```\n\nb": [("prose", "a"), ("sh", "x"), ("prose", "b")],
    "```sh\nx\n```\n\n<!-- tmhost-answer --><details><summary>Answer</summary>\n\n<!-- tmhost-answer -->\n\n$x$\n\n<!-- /tmhost-answer -->\n\n"
    "<!-- tmhost-answer --></details>\n\nb\n": [("sh", "x"), ("prose", "b")],
    # Answers of an export, where each field has one.
    "a\n\n```sh\nx\n```\n\n```\n1\n```\n\nb\n\n```sh\ny\n```\n\n*no answer: Ended*\n\n```sh\nz\n```\n\n````\n```\n````\n\n$x$\n\nc\n\n```sh\nu\n```\n\n$y$\n": [
        ("prose", "a"), ("sh", "x"), ("prose", "b"), ("sh", "y"), ("sh", "z"), ("prose", "c"), ("sh", "u"),
    ],
    # A field that shows nothing has none: the next field follows, or the end.
    "```sh\nx\n```\n\n```\n1\n```\n\n```sh\ny\nz\n```\n": [("sh", "x"), ("sh", "y|z")],
    "```sh\nx\ny\n```\n\n```sh\nz\n```\n\n```\n1\n```\n\na\n": [("sh", "x|y"), ("sh", "z"), ("prose", "a")],
    "```sh\nx\n```\n\n```\n1\n```\n\n```sh\ny\n```\n\na\n": [("sh", "x"), ("prose", "```|1|```"), ("sh", "y"), ("prose", "a")],
    "```sh\nx\n```\n\n```\n1\n```\n\n```sh\ny\n```\n```sh\nz\n```\n": [("sh", "x"), ("prose", "```|1|```"), ("sh", "y"), ("sh", "z")],
    "```sh\nx\ny\n```\n\n```sh\nz\n```\n": [("sh", "x"), ("sh", "y"), ("sh", "z")],
    "```sh\nx\n```\n\n$x$ is\n": [("sh", "x"), ("prose", "$x$ is")],
}
# Prose that would take in what stands after it, to CommonMark or to pandoc.
OPEN = [
    "```", "~~~", "a\n````\n```", "<!--", "text\n\n<pre>", "<script>\nx", "<?", "<!A", "<![CDATA[", "> a\n\n<!--\n\n-", "---\na: b", "a\n\n---\nb", "- -\nb", "--- ---\na b", "a\n---\n---\nb", "```\nx\n```\n---\nb",
    "a\n===\n---\nb", "|a|\n|-|\n---\nb",
    "\\begin{x}", "<div>\n~~~", "a <!-- b", "a <script>", 'a <b x="', "a </b", "\\foo{", "[a", "a [0, 1)", "$5 [a $6", "$5 [a\n\nb$", "] [", "^[a", "- a\n\n      ```",
]
CLOSED = [
    "", "a", "# a", "- a", "1. a\n   - b", "> a", "    a", "```\na\n```", "~~~x\n~~~", "- ```\n  a\n  ```", "> ```\n> ~~~\n> ```", "<!-- a -->", "<div>", "a `b", "*a", "$$", "$x", "---", "a\n---\nb",
    "a\n\n---\n\nb", "```\n---\nb\n```", "a\n-------\n\nb", "a | b\n--|--\n1 | 2", "\\begin{x}\\end{x}", "***\na", "&", "<b", "a < b", "\\", "\\[a", "$\\left[0, 1\\right)$ and $[0, 1)$", "$$\n\\frac{a}{b}\n$$", "[a](http://b) ![c][d]",
    "<pre>a</pre>", "<b x='1'>a</b>", "- [ ] a\n- [x] b", "| a |\n|---|\n| $x$ |\n\n*a* **b** `c` ~~d~~ <http://e>\n\n> f\n\n1. g", "a}", "{a",
]
# Lines of which random prose is made, and an answer with what may end what they begin.
LINES = [
    "```", "~~~", "<!--", "-->", "---", "***", "text", "", "", "- a", "  b", "> c", "# d", "<div>", "</div>", "<pre>", "| a |", "|---|", "[x]: y", "$$", "$x$", "`", "*", "    e", ":::", "...", "--- ---",
    "\\begin{x}", "\\end{x}", "1. f", "+++", "<b>", "[^1]: g", "===", ": h", "text <!-- x", "a <pre> b", "a `", "a ``b", "text $$", "text $", "<a href='", "<a\n\nb>", "[a](", "![b][", "\\(", "\\[", "\\]",
    "<table>", "<td>", "</table>", "{", "}", "\\newcommand{\\a}{", "\\left[", "<svg>", "<math>", "<style>", "text <script>", "  ---", "  - - -", "-------", "<details>", "<p>", "&", "%%%", "\\", "+---+", "|   |",
    "<?", "@x", "```x `", "~~~~ y", "> ~~~", "- ```", "#+begin_src", "::: {.a}", "[[x", "^[", "*[a]: b",
]
HOSTILE = (
    "```\n-->\n~~~\n---\n\n<i>hostile</i> **hostile**\n\n...\n--- ---\n\n<i>hostile</i>\n\\end{x}\n$$ <i>hostile</i> $ </a>' >\n</pre></script></style></div></table>\n"
    "`` ` ) ] } \\) \\] \\right] <i>hostile</i>\n+---+\n|<i>hostile</i>|\n+---+\n ?> ::: \n-------\n\n<i>hostile</i>\n```"
)
READERS = (["cmark", "--unsafe"], ["pandoc", "-f", "markdown", "-t", "html"], ["pandoc", "-f", "gfm", "-t", "html"])



class Imports(Case):
    def fields(self, document: str, *words: str, form: str = "notebook") -> list[tuple[str, str]]:
        return [(session, given.replace(LINE_END, "|")) for session, given in self.inputs(document, "--prose", *words, form=form)]

    def test_cells_of_markdown_become_fields(self) -> None:
        document = notebook(text("# a\n\n*b*\n"), code("x"), text(["c\n", "\n", "d"]), text(""), {"cell_type": "raw", "metadata": {}, "source": "raw"}, code("y"))
        done = self.do("--script", "--prose", data=document)
        self.assertEqual(done.out.split("\n")[0], "session prose plain true")
        self.assertIn("left out: raw cells: 1\n", done.errors)
        self.assertEqual(self.fields(document), [("prose", "# a||*b*"), ("python3", "x"), ("prose", "c||d"), ("prose", ""), ("python3", "y")])

    def test_it_is_taken_unless_it_is_not_wanted(self) -> None:
        for document, form, name in ((notebook(text("a"), code("x")), "notebook", "python3"), ("a\n\n```sh\nx\n```\n", "markdown", "sh")):
            self.assertEqual(self.inputs(document, form=form), [("prose", "a"), (name, "x")])
            self.assertEqual(self.inputs(document, "--no-prose", form=form), [(name, "x")])
        self.refused(notebook(text("a")), "nothing in it", "--no-prose")

    def test_the_text_of_org(self) -> None:
        """It is no Markdown, so what is asked for can't be, and what isn't asked for is left out with a word."""
        done = self.do("--script", "--format", "org", data="* a\n#+begin_src sh\nx\n#+end_src\n")
        self.assertEqual(done.out.split("\n")[1:], ["new 0 sh x", ""])
        self.assertIn("its text is left out: the text of an Org file isn't: make Markdown of it first (pandoc", done.errors)
        self.assertEqual(self.do("--script", "--no-prose", "--format", "org", data="#+begin_src sh\nx\n#+end_src\n").errors, "")

    def test_a_text_without_code(self) -> None:
        done = self.do("--script", "--format", "markdown", data="# Title\n\n```julia\n1\n```\n")
        self.assertEqual(done.out, f"session prose plain true\nnew 0 prose {LINE_END.join(['# Title', '', '```julia', '1', '```'])}\n")
        self.assertIn("no fence is of a language or a session that is known, so all of it is prose. Fences: julia\n", done.errors)

    def test_fences_that_are_taken_for_answers_are_reported(self) -> None:
        """A text of an author's own may have such fences, too, which are gone then."""
        one, two = "```sh\na\nb\n```\n\n```\nx\n```\n", "\ntext\n\n```sh\nc\n```\n\n```\ny\n```\n"
        after = ", and the code before each is one field. A fence with a word, as ```text, isn't taken\n"
        for text, said in (
            (one, "1 fence was taken for an answer of an export, the first in line 6: it is left out" + after),
            (one + two, "2 fences were taken for answers of an export, the first in line 6: they are left out" + after),
            (one + two.replace("```\ny\n```", "*no answer*"), "1 fence was taken for an answer of an export, the first in line 6: it is left out" + after),
        ):
            done = self.do("--script", "--format", "markdown", data=text)
            self.assertEqual(done.status, 0, done.errors)
            self.assertIn("tmhost-import: " + said, done.errors)
        for text in (one + two.replace("```\ny", "```text\ny"), one.replace("```\nx\n```", "*no answer*"), one.replace("```\nx\n```", "$x$")):
            done = self.do("--script", "--format", "markdown", data=text)
            self.assertEqual((done.status, "taken for" in done.errors), (0, False), done.errors)

    def test_texts_in_markdown(self) -> None:
        for document, fields in MARKDOWN.items():
            with self.subTest(document):
                self.assertEqual(self.fields(document, form="markdown"), fields)

    def test_blocks_of_given_languages_are_fields(self) -> None:
        given = self.fields("a\n\n```json\n{}\n```\n", "--session", "json=sh x", form="markdown")
        self.assertEqual(given, [("prose", "a"), ("json", "{}")])

    def test_sessions_of_prose(self) -> None:
        cells = [text("a", "prose-3"), code("b", "prose"), text("c"), text("d", "py"), code("x", "gp")]
        self.assertEqual([name for name, _ in self.fields(notebook(*cells))], ["prose-3", "prose", "prose", "prose", "gp"])
        lines = self.script(notebook(*cells), "--prose", "--session", "prose=sh x")
        self.assertEqual([line for line in lines if line.startswith("session prose")], ["session prose-3 plain true", "session prose plain sh x", "session prose-2 plain true"])
        self.assertEqual([line.split(" ")[2] for line in lines if line.startswith("new")], ["prose-3", "prose", "prose-2", "prose-2", "gp"])

    def test_what_is_answered_is_no_prose(self) -> None:
        """A session of that name may have an interpreter, whose words the document hasn't."""
        answered = code("b", "prose", outputs=[{"output_type": "stream", "name": "stdout", "text": "1"}])
        self.refused(notebook(code("a", "prose"), answered), "cell 2: no interpreter is known for its session: say --session 'prose=WORDS'", "--prose")
        self.assertEqual(self.fields("```prose\na\n```\n\n*no answer*\n\n```prose\nb\n```\n\n```\n1\n```\n", form="markdown"), [("prose", "a")])

    def test_prose_is_not_split(self) -> None:
        self.assertEqual(self.fields(notebook(text("a\nb"), code("x\ny")), "--split"), [("prose", "a|b"), ("python3", "x"), ("python3", "y")])

    def test_what_is_reported(self) -> None:
        attached = text("![a](attachment:a.png)", attachments={"a.png": {"image/png": "AAAA"}})
        self.assertIn("left out: attachments of markdown cells: 1\n", self.do("--script", "--prose", data=notebook(attached)).errors)
        self.assertIn("a reference like [1]", self.do("--script", "--prose", "--format", "markdown", data="[a][1]\n\n```sh\nx\n```\n\n[1]: b\n").errors)
        self.refused(notebook(text("a\fb")), "cell 1: no field can hold the control character U+000C", "--prose")
        long = self.do("--script", data=notebook(code("x"), text("a\n\n" + "b" * 4096 + "\n\nc")))
        self.assertIn("cell 2 is left out: a paragraph, an item or a fence of it has 4,096 bytes as an input, and a field has at most 4,095\n", long.errors)
        self.assertEqual(long.out.split("\n")[2:], ["new 0 python3 x", "new 1 prose a", "new 2 prose c", ""])
        self.refused("a\n\n```sh\nx\n```\n\nb\0\n", "the text from line 7 on: no field can hold", "--prose", form="markdown")
        self.refused("* a\n", "make Markdown of it first (pandoc --from org --to gfm)", "--prose", form="org")
        self.refused("```sh\nx\n```\n<!-- tmhost-answer -->\n\n$x$\n", "line 4 begins an answer that has no end", "--prose", form="markdown")

    @unittest.skipUnless(shutil.which("pandoc"), "there is no pandoc")
    def test_org_through_pandoc(self) -> None:
        made = subprocess.run(["pandoc", "--from", "org", "--to", "gfm"], input=b"* Head\ntext /it/\n#+begin_src python\nx\n#+end_src\n", capture_output=True, check=True).stdout
        self.assertEqual(self.fields(made.decode(), form="markdown"), [("prose", "# Head||text *it*"), ("python", "x")])


class Cutting(unittest.TestCase):
    def test_long_prose_is_cut_at_empty_lines(self) -> None:
        blocks = ["word " * 300 + "end", "```\n" + "code\n\n" * 300 + "```", "1. " + "é" * 700, "   " + "b" * 1400, "<!--\n\nno cut " + "c" * 2000 + "\n\n-->", "d"]
        parts = parts_of("\n\n".join(blocks))
        self.assertGreater(len(parts), 2)
        self.assertEqual("\n\n".join(parts), "\n\n".join(blocks))
        self.assertTrue(all(prose.size_of(part) <= 4095 for part in parts), [prose.size_of(part) for part in parts])
        self.assertEqual([len(fences_of(part)) for part in parts if "```" in part], [1])

    def test_a_long_list_is_cut_at_its_items(self) -> None:
        for whole in ("\n".join(f"{number}. item\n   - within" for number in range(1, 400)), "text\n" + "- item\n" * 1000 + "end", "> " + "- a\n" * 1500):
            parts = parts_of(whole)
            self.assertGreater(len(parts), 1)
            self.assertEqual("\n".join(parts), whole.rstrip())
            self.assertTrue(all(ITEM.match(part) for part in parts[1:]))
        self.assertEqual(len(parts_of("text\n" + "2. no item\n" * 1000)), 1)

    def test_what_fits_is_not_cut(self) -> None:
        for whole in ("", "a\n\nb", "a" * 4095, "\n" * 1365, "a\n\n" * 585):
            self.assertEqual(parts_of(whole), [whole])

    def test_a_block_that_no_field_can_hold_stays_whole(self) -> None:
        self.assertEqual(parts_of("a\n\n" + "b" * 5000 + "\n\nc"), ["a", "b" * 5000, "c"])

    def test_random_texts(self) -> None:
        for seed in range(60):
            rng = random.Random(seed)
            whole = "\n".join(rng.choice(["", "", "text", "- item", "  more", "```", "> quote", "<!--", "-->", "é" * 200]) for _ in range(rng.randint(100, 900))) + "\nend"
            parts = parts_of(whole)
            self.assertEqual([line for part in parts for line in part.split("\n") if line], [line for line in whole.split("\n") if line])
            if all(prose.size_of(part) <= 4095 for part in parts):
                self.assertEqual([fence.lines for part in parts for fence in fences_of(part)], [fence.lines for fence in fences_of(whole)])


def field(session: str, given: str, answer: str) -> str:
    mark = "`" * max(3, 1 + max((len(run) for run in given.replace("\n", " ").split(" ") if set(run) == {"`"}), default=0))
    return f"{mark}{session}\n{given}\n{mark}\n\n{answer}\n"


def export(*fields: str) -> str:
    return "\n".join(fields)


NONE = "*no answer*"
GP = field("gp", "x^2", "$x^2$")


class Markdown(unittest.TestCase):
    def made(self, given: str, *names: str) -> tuple[str, int]:
        made = markdown_with_prose(given.encode(), names.__contains__ if names else prose.is_prose)
        return made.data.decode(), len(made.left)

    def test_prose_leaves_its_fence(self) -> None:
        shown = field("py", "print(1)", "```\n1\n```")
        given = export(field("prose", "# a\n\n*b*", NONE), shown, field("prose-2", "- c", "*no answer: Ended*"), GP, field("py", "y", "````\n```\n````\n\n$y$"))
        self.assertEqual(self.made(given), (export("# a\n\n*b*\n", shown, "- c\n", GP, field("py", "y", "````\n```\n````\n\n$y$")), 0))
        self.assertEqual(self.made(given, "py"), (given, 0))

    def test_fields_that_show_nothing(self) -> None:
        """Nothing stands after the fence of one, in front of another field, of prose, and at the end."""
        silent, text = "```py\nx = 1\n```\n", field("prose", "# a", NONE)
        self.assertEqual(self.made(export(silent, silent, text, silent, GP, silent)), (export(silent, silent, "# a\n", silent, GP, silent), 0))
        self.assertEqual(self.made("```prose\na\n```\n"), ("```prose\na\n```\n", 0))

    def test_what_is_no_prose_stays_byte_for_byte(self) -> None:
        for one in (field("prose", "a", "```\n1\n```"), field("prose", "a", "$x$"), field("prose-x", "a", NONE), field("py", "a", NONE), field("py", "a", f"```\n{NONE}\n```"),
                    field("py", "```prose\na\n```", NONE), field("py", "a", "````\n```prose\na\n```\n\n*no answer*\n````")):
            self.assertEqual(self.made(one), (one, 0))
        data = b"```prose\n\xff*a*\n```\n\n*no answer*\n\n```py\n\xfe\n```\n\n```\n\xfd\n```\n"
        self.assertEqual(markdown_with_prose(data, prose.is_prose).data, b"\xff*a*\n\n```py\n\xfe\n```\n\n```\n\xfd\n```\n")

    def test_empty_prose_goes(self) -> None:
        self.assertEqual(self.made(export(field("prose", "", NONE), GP, field("prose", "\n ", NONE))), (GP, 0))
        self.assertEqual(self.made(field("prose", "", NONE)), ("", 0))
        self.assertEqual(self.made(""), ("", 0))

    def test_prose_that_is_open_stays_in_its_fence(self) -> None:
        for one in OPEN:
            given = export(field("prose", one, NONE), GP)
            self.assertEqual(self.made(given), (given, 1), one)
            self.assertIsNotNone(open_end(one))
        for one in CLOSED:
            self.assertEqual(self.made(export(field("prose", one, NONE), GP)), (export(*([one + "\n"] if one else []), GP), 0), one)
            self.assertIsNone(open_end(one), one)

    def test_references_beside_formulas(self) -> None:
        reference = field("prose", "[a]: http://b", NONE)
        self.assertEqual(self.made(export(reference, GP))[1], 0)
        self.assertEqual(self.made(export(reference, field("gp", "x", "$[a]$")))[1], 1)
        self.assertEqual(self.made(export(reference, field("gp", "x", "```\n1\n```\n\n$[a]$")))[1], 1)
        self.assertEqual(self.made(export(reference, field("gp", "[a]", "```\n[a]\n```")))[1], 0)

    def test_what_is_no_export(self) -> None:
        for one in ("text\n", "```\na\n```\n", "```py\na\n```\n\n", "```py\na\n```\n```py\na\n```\n", "```py\na\n```\n\ntext\n", GP + "\n", GP + "\n\n" + GP, "```py\na\n", "{}", "{", '{"cells":[{}]}', '{"cells":7}'):
            done = subprocess.run([PROSE], input=one.encode(), capture_output=True)
            self.assertEqual((done.returncode, done.stdout), (1, b""), one)
            self.assertIn(b"it is", done.stderr.replace(b"it isn't", b"it is"))

    @unittest.skipUnless(shutil.which("cmark") and shutil.which("pandoc"), "there is no cmark or no pandoc")
    def test_answers_are_what_they_were_to_other_readers(self) -> None:
        """Random prose between answers that would be seen if they became markup."""
        count = left = 0
        for seed in range(8):
            rng = random.Random(seed)
            texts = ["\n".join(rng.choices(LINES, k=rng.randint(1, 4))) for _ in range(3)]
            made, kept = self.made(export(*[part for one in texts for part in (field("prose", one, NONE), field("py", "x", HOSTILE))]))
            count, left = count + 3, left + kept
            for reader in READERS:
                shown = subprocess.run(reader, input=made.encode(), capture_output=True, check=True).stdout.decode()
                self.assertEqual((shown.count("<i>"), shown.count("<strong>hostile"), shown.count("&lt;i&gt;hostile")), (0, 0, 18), (reader, texts, made))
        self.assertGreater(count - left, 5)



def exported(*cells: tuple[str, str, bool]) -> bytes:
    """A notebook as tmhost export writes it, of sessions, inputs, and whether they are answered."""
    output: dict[str, object] = {"data": {"text/plain": "1"}, "execution_count": None, "metadata": {}, "output_type": "execute_result"}
    made = [{"cell_type": "code", "execution_count": None, "id": f"field-{number}", "metadata": {"tmhost": {"session": session}}, "outputs": [output] if is_answered else [], "source": source}
            for number, (session, source, is_answered) in enumerate(cells, 1)]
    return (json.dumps({"cells": made, "metadata": {}, "nbformat": 4, "nbformat_minor": 5}, separators=(",", ":"), ensure_ascii=False) + "\n").encode()


class Notebooks(unittest.TestCase):
    HOSTILE = '"},{"cell_type":"code","execution_count":null,"id":"field-9","metadata":{"tmhost":{"session":"prose"}},"outputs":[],"source":"x"}'

    def test_cells_of_prose_are_cells_of_markdown(self) -> None:
        cells = [("prose", '# a "b"\\\n\n*c*\u2029é', False), ("py", "prose", True), ("prose-2", "", False), ("prose", "d", True), ("py", self.HOSTILE, False), ("prose", self.HOSTILE, False)]
        data = exported(*cells)
        made = notebook_with_prose(data, prose.is_prose)
        before, after = json.loads(data), json.loads(made.data)
        self.assertEqual(made.count, 3)
        for one, other, (session, _, is_answered) in zip(before["cells"], after["cells"], cells):
            if session.startswith("prose") and not is_answered:
                self.assertEqual(other, {"cell_type": "markdown", "id": one["id"], "metadata": one["metadata"], "source": one["source"]})
            else:
                self.assertEqual(other, one)
        self.assertEqual(notebook_with_prose(made.data, prose.is_prose).data, made.data)
        self.assertEqual(with_prose(data, {"py"}.__contains__).count, 1)

    def test_all_else_stays_byte_for_byte(self) -> None:
        for data in (exported(), exported(("py", "x", False), ("prose", "x", True)), exported(("py", self.HOSTILE, True))):
            self.assertEqual(notebook_with_prose(data, prose.is_prose).data, data)

    def test_what_another_program_has_written(self) -> None:
        data = json.dumps(json.loads(exported(("prose", "a", False))), indent=1).encode()
        done = subprocess.run([PROSE], input=data, capture_output=True)
        self.assertEqual((done.returncode, done.stdout), (1, b""))
        self.assertIn(b"another program has written it since", done.stderr)

    @needs_nbformat
    def test_the_notebook_is_valid(self) -> None:
        nbformat = importlib.import_module("nbformat")
        made = notebook_with_prose(exported(("prose", "a", False), ("py", "x", True)), prose.is_prose)
        book = nbformat.reads(made.data.decode(), 4)
        nbformat.validate(book)
        self.assertEqual([cell.cell_type for cell in book.cells], ["markdown", "code"])


@needs_program
class RoundTrips(Case):
    def prose(self, data: str, *words: str) -> Done:
        done = subprocess.run([PROSE, *words], input=data.encode(), capture_output=True, cwd=self.folder)
        return Done(done.returncode, done.stdout.decode(), done.stderr.decode())

    def test_a_notebook_with_prose(self) -> None:
        """A notebook becomes a worksheet, is evaluated, becomes a notebook with the same cells, and that one the same worksheet."""
        cells = [text("# Title\n\n- $x$\n- `b`"), code("x = 2\nx + 1"), text("é *c*\n\n```\ncode\n```"), text(""), code("x * 3"), text("a | b\n--|--\n1 | 2")]
        done = self.do("--prose", "one", data=notebook(*cells))
        self.assertEqual(done.status, 0, done.errors)
        self.host("run", "one", data="eval 2\neval 5\nwait\n")
        made = self.prose(self.host("export", "notebook", "one"))
        self.assertEqual((made.status, made.errors), (0, ""))
        found = json.loads(made.out)
        self.assertEqual([(cell["cell_type"], cell["source"]) for cell in found["cells"]], [(cell["cell_type"], cell["source"]) for cell in cells])
        self.assertEqual([cell["outputs"][0]["data"]["text/plain"] for cell in found["cells"] if cell["cell_type"] == "code"], ["3", "6"])
        words = self.host("export", "script", "one").split("\n")[1].partition(" plain ")[2]
        self.assertEqual(self.do("--prose", "--session", f"python3={words}", "two", data=made.out).status, 0)
        self.assertEqual(self.host("export", "script", "two"), self.host("export", "script", "one"))

    def test_markdown_with_prose(self) -> None:
        document = "# Title\n\n- a\n- b\n\n```python {whole}\nx = 2\nx + 1\n```\n\ntext $x$\n\n> quote\n\n```python\nx * 3\n```\n\nend\n"
        self.assertEqual(self.do("--prose", "--format", "markdown", "one", data=document).status, 0)
        self.host("run", "one", data="eval 2\neval 4\nwait\n")
        made = self.prose(self.host("export", "markdown", "one"))
        self.assertEqual(made.out, document.replace(" {whole}", "").replace("x + 1\n```", "x + 1\n```\n\n```\n3\n```").replace("x * 3\n```", "x * 3\n```\n\n```\n6\n```"))
        self.assertEqual(self.do("--prose", "--format", "markdown", "two", data=made.out).status, 0)
        self.assertEqual(self.host("export", "script", "two"), self.host("export", "script", "one"))

    @unittest.skipUnless(shutil.which("node") and any(map(os.path.exists, MARKDOWN_IT)), "there is no node, or no markdown-it")
    def test_a_page_with_prose(self) -> None:
        """Long prose is several fields, each as long as may be, and in the page it reads as before."""
        long = [f"Paragraph {number}, *é* & <b>: " + "word " * 150 for number in range(20)]
        document = notebook(text("# Title\n\n- a\n- `b`"), code("1 + 1"), text("\n\n".join(long)), code("'<p>'"))
        self.assertEqual(self.do("--prose", "one", data=document).status, 0)
        fields = [line.split(" ")[2] for line in self.host("export", "script", "one").split("\n") if line.startswith("new")]
        self.assertEqual((fields[:2], fields[-1], set(fields[2:-1])), (["prose", "python3"], "python3", {"prose"}))
        self.host("run", "one", data=f"eval 2\neval {len(fields)}\nwait\n")
        page = self.host("export", "html", "one")
        done = subprocess.run([TYPESET], input=page.encode(), capture_output=True)
        self.assertEqual((done.returncode, done.stderr), (0, b""))
        made = done.stdout.decode()
        wanted = "<h2>Title</h2><ul><li>a</li><li><code>b</code></li></ul>" + "".join(f"<p>{one.rstrip().replace('*é* & <b>', '<em>é</em> &amp; &lt;b&gt;')}</p>" for one in long)
        self.assertEqual("".join(re.findall(r'class="prose" dir="auto">\n(.*?)\n</section>', made, re.DOTALL)), wanted)
        for kept in re.findall(r'<section id="field-\d+">\n<header><a href="#field-\d+">#\d+</a> <bdi>python3<.*?</section>\n', page, re.DOTALL):
            self.assertIn(kept, made)

    def test_exports_without_prose_come_back_too(self) -> None:
        self.assertEqual(self.do("--prose", "one", data=notebook(text("# a\n\nb"), code("1"), text("c"))).status, 0)
        script = self.host("export", "script", "one")
        words = script.split("\n")[1].partition(" plain ")[2]
        for number, form in enumerate(("notebook", "markdown")):
            done = self.do("--prose", "--format", form, "--session", f"python3={words}", f"again{number}", data=self.host("export", form, "one"))
            self.assertEqual(done.status, 0, done.errors)
            self.assertEqual(self.host("export", "script", f"again{number}"), script)

    def test_random_prose_as_the_program_writes_it(self) -> None:
        letters = "ab *_`~#>-\n\n$[]()<>|\\\"'é\u2029😀"
        for seed in range(3):
            rng = random.Random(seed)
            texts = ["".join(rng.choices(letters, k=rng.choice([0, 5, 60, 700]))).rstrip("\n") for _ in range(10)]
            cells = [cell for one in texts for cell in (text(one), code(one, "mine"))]
            self.assertEqual(self.do("--prose", "--session", f"mine={ECHO}", f"s{seed}", data=notebook(*cells)).status, 0)
            self.host("run", f"s{seed}", data="".join(f"eval {2 * number}\n" for number in range(1, 6)) + "wait\n")
            export_of_it = self.host("export", "notebook", f"s{seed}")
            made = json.loads(self.prose(export_of_it).out)
            self.assertEqual([(cell["cell_type"], cell["source"]) for cell in made["cells"]], [(cell["cell_type"], cell["source"]) for cell in cells])
            self.assertEqual([cell for cell in made["cells"] if cell["cell_type"] == "code"], [cell for cell in json.loads(export_of_it)["cells"] if cell["metadata"]["tmhost"]["session"] == "mine"])
            shown = self.prose(self.host("export", "markdown", f"s{seed}"))
            self.assertEqual(shown.status, 0, shown.errors)
            blocks = [block for block in self.host("export", "markdown", f"s{seed}").split("\n\n") if block.startswith("```mine")]
            self.assertTrue(all(block in shown.out for block in blocks))


class Words(Case):
    def test_words(self) -> None:
        asked: list[tuple[list[str], int]] = [([], 0), (["--help"], 0), (["--nothing"], 2), (["a", "b"], 2), (["--prose"], 2), (["/nowhere"], 1)]
        for words, status in asked:
            done = subprocess.run([PROSE, *words], input=b"", capture_output=True)
            self.assertEqual(done.returncode, status, words)
        self.write("x.md", field("mine", "*a*", NONE))
        done = subprocess.run([PROSE, "--prose", "mine", self.place("x.md")], capture_output=True)
        self.assertEqual((done.returncode, done.stdout, done.stderr), (0, b"*a*\n", b""))

    def test_what_stays_is_reported(self) -> None:
        done = subprocess.run([PROSE], input=export(GP, field("prose", "~~~", NONE)).encode(), capture_output=True)
        self.assertEqual((done.returncode, done.stderr), (0, b"tmhost-prose: the field in line 7 stays in its fence: a fence or HTML in it has no end\n"))
        with open("/dev/full", "wb") as full:
            status = subprocess.run([PROSE], input=GP.encode(), stdout=full, stderr=subprocess.PIPE)
        self.assertEqual((status.returncode, status.stderr), (1, b"tmhost-prose: it can't be written: No space left on device\n"))
