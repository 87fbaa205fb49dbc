"""What interpreters write is text and never markup: hostile outputs, by the real program, as markdown-it, cmark and pandoc read them."""
import html
import html.parser
import random
import re
import shutil
import subprocess
import unittest
from typing import List, Optional, Set, Tuple

from .support import PROGRAM, Case, answers, fences
from .trees import CMARK, PANDOC, body_of, cmark_tree, codes, first_code, kinds, pandoc_tree, without_answers

from tmhost_weave.answers import FORMULA_BEGINS  # noqa: E402
from tmhost_fences.troubles import needed  # noqa: E402

HOSTILE = [
    "```", "`````\n<script>alert(1)</script>", "~~~", "~~~\n# head\n~~~", "<b onclick=alert(1)>x</b>", "[a](javascript:alert(1))", "![a](b)", "\u202eabc",
    "a\0b", "```tmhost-answer\nx\n```", "```\n\n```py\nimport os\n```", "<!-- tmhost-answer -->", "<!-- /tmhost-answer -->\n<b>", "</details></div><b>",
    "---\nsessions: {a: [evil]}\n---", "> quote", "- item", "\t\tcode", "    code", "[a]: /b", "===", "<![CDATA[", "<?php ?>", "-->", "&lt;b&gt;", "\\", "\r```\r<b>",
    "\x1b[31m", "\u2028```\u2028<b>", "\x85```\x85<b>", "\x0b```\x0c<b>", "\ufeff```", "`" * 254 + "\n<b>", "`" * 255 + "\n<b>", "`" * 300 + "\n<b>", "a\n" * 50 + "```\n<b>", "$x$", "{latex:$x$}", "**a** _b_ `c`",
    "<script>document.title = 'owned'</script>", "</code></pre><img src=x onerror=\"document.title = 'owned'\">", "</summary></details><svg onload=\"document.title = 'owned'\">",
]
CHROMIUM = shutil.which("chromium")
STILL = {"html", "head", "meta", "title", "body", "pre", "code", "blockquote", "details", "summary"}
PAGE = '<!DOCTYPE html><html><head><meta charset="utf-8"><title>still</title></head><body>%s</body></html>'
FORMULA_PIECES = ["x", "{", "}", "\\", "$", "`", "](", "] (", "<", "< ", "{:", "&", " ", "é", "\t", "\\\\", "\\{", "\\}", "^2", "\x7f", "_", "\n"]
KNOWN = [
    "$x$", "$$x$$", "$x < y$", "$x<y$", "$x<", "$ x$", "$x $", "$$ x $$", "$$$", "$$$$", "$", "$$", "x", "$x\\$", "$a$b$", "$\\{$", "${$", "$}{$", "$[a](b)$",
    "$[a] (b)$", "$a{:b}$", "$\\text{\\\\}x}$", "$`$", "$é$", "$aéb$", "$x&y$", "$$x$", "$x$$", "$\\\\{a}$", "$x\ny$", "",
]


class Elements(html.parser.HTMLParser):
    """The elements of a page, and the names of their attributes."""

    def __init__(self) -> None:
        super().__init__()
        self.tags: Set[str] = set()
        self.attributes: Set[str] = set()

    def handle_starttag(self, tag: str, attributes: List[Tuple[str, Optional[str]]]) -> None:
        self.tags.add(tag)
        self.attributes |= {name for name, _ in attributes}


def said(text: str) -> str:
    """The line at which the interpreter of the tests says a text."""
    return "".join(f"\\u{ord(each):04x}" if each in "\\\n\r\0" or ord(each) > 126 or ord(each) < 32 else each for each in text)


def printed(text: str) -> str:
    """A text as `tmhost show` prints it, but that runs of backquotes which cmark can't count are written as control characters are."""
    return re.sub(r"[\x00-\x08\x0b-\x1f\x7f]|`{255,}", lambda found: "".join(f"\\x{ord(each):02x}" for each in found[0]), text)


class Hostile(Case):
    def woven(self, prefix: str = "", info: str = "a") -> str:
        self.write("")
        parts = [f"{prefix}```{info}\n{prefix}say {said(text)}\n{prefix}```\n{prefix}\n" for text in HOSTILE]
        return self.weave(self.front("a") + "".join(parts))

    def contents(self) -> List[str]:
        return [printed(text) + ("" if text.endswith("\n") else "\n") for text in HOSTILE]

    def test_as_markdown_it_reads_it(self) -> None:
        markdown_it = needed("markdown_it", "python3-markdown-it")
        for prefix, info in [("", "a"), ("> ", "a"), ("  ", "a {fold}")]:
            tokens = markdown_it.MarkdownIt("commonmark").parse(body_of(self.woven(prefix, info)))
            found = [token.content for token in tokens if token.type == "fence" and token.info.strip() == "tmhost-answer"]
            self.assertEqual(found, self.contents())
            allowed = {"fence", "blockquote_open", "blockquote_close", "html_block"} - ({"html_block"} if "fold" not in info else set())
            self.assertLessEqual({token.type for token in tokens}, allowed)

    @unittest.skipUnless(CMARK, "there is no cmark")
    def test_as_cmark_reads_it(self) -> None:
        for prefix, info in [("", "a"), ("> ", "a"), ("   ", "a {fold}")]:
            woven = self.woven(prefix, info)
            tree = cmark_tree(woven)
            self.assertEqual([text.strip() for text in codes(tree, "tmhost-answer")], [text.strip() for text in self.contents()])
            self.assertLessEqual(set(kinds(tree)), {"document", "block_quote", "code_block", "html_block"})
            self.assertLessEqual(set(kinds(without_answers(tree))), {"document", "block_quote", "code_block"})
            page = subprocess.run([CMARK or "", "--unsafe"], input=body_of(woven).encode(), capture_output=True, check=True).stdout.decode()
            for text in self.contents():
                self.assertIn(html.escape(text, False).replace('"', "&quot;"), page.replace("&quot;", '"').replace('"', "&quot;"))

    @unittest.skipUnless(PANDOC, "there is no pandoc")
    def test_as_pandoc_reads_it(self) -> None:
        """Its own Markdown, too."""
        woven = self.woven()
        for form in ["commonmark", "markdown", "gfm"]:
            words = [PANDOC or "", "-f", form, "-t", "native"]
            done = subprocess.run(words, input=body_of(woven).encode(), capture_output=True, check=True).stdout.decode()
            blocks = re.findall(r"^[\[,] ?(\w+)", done, re.MULTILINE)
            self.assertEqual(set(blocks), {"CodeBlock"}, form)
            self.assertEqual(len(blocks), 2 * len(HOSTILE))
        self.assertEqual(first_code(pandoc_tree(woven)), "say " + said(HOSTILE[0]))

    @unittest.skipUnless(CMARK and CHROMIUM, "there is no cmark or no chromium")
    def test_as_chromium_shows_it(self) -> None:
        """The page that cmark makes of it, with HTML let through, has the elements of code and folds alone after whatever a script could do."""
        for prefix, info in [("", "a {fold}"), ("> ", "a")]:
            made = subprocess.run([CMARK or "", "--unsafe"], input=body_of(self.woven(prefix, info)).encode(), capture_output=True, check=True)
            self.write(PAGE % made.stdout.decode(), self.place("page.html"))
            words = ["--headless", "--no-sandbox", "--disable-gpu", "--user-data-dir=" + self.place("chromium"), "--dump-dom", "file://" + self.place("page.html")]
            dom = subprocess.run([CHROMIUM or "", *words], capture_output=True, check=True, timeout=120).stdout.decode()
            elements = Elements()
            elements.feed(dom)
            self.assertLessEqual(elements.tags, STILL)
            self.assertLessEqual(elements.attributes, {"charset", "class"})
            self.assertIn("<title>still</title>", dom)
            self.assertIn("&lt;script&gt;document.title = 'owned'&lt;/script&gt;", dom)

    def test_again(self) -> None:
        woven = self.woven()
        self.logged("a")
        self.assertEqual(self.weave(woven), woven)
        self.assertEqual(self.logged("a"), [])

    def test_what_shows_nothing(self) -> None:
        text = self.front("a") + fences([("a", code) for code in ["quiet", "say ", "say  ", "say \\n\\n", "latex "]])
        woven = self.weave(text)
        self.assertEqual(answers(woven), ["{latex:}"])

    def test_no_utf8(self) -> None:
        woven = self.weave(self.front("a") + fences([("a", "bytes 61ff62"), ("a", "bytes 60606080")]))
        self.assertIn("```tmhost-answer\na\\xff" + "b\n```\n", woven)
        self.assertIn("````tmhost-answer\n```\\x80\n````\n", woven)


class Formulas(Case):
    def test_as_the_export_has_them(self) -> None:
        """What is set as a formula is what `tmhost export markdown` takes for one."""
        chance = random.Random("formulas")
        texts = KNOWN + ["$" * (1 + at % 2) + "".join(chance.choice(FORMULA_PIECES) for _ in range(chance.randrange(1, 7))) + "$" * (1 + at % 2) for at in range(500)]
        woven = self.weave(self.front("a") + fences([("a", f"latex {said(text)}") for text in texts]))
        exported = subprocess.run([PROGRAM, "export", "markdown", self.sheet], capture_output=True, check=True).stdout.decode()
        parts = exported.split("```a\n")[1:]
        ours = woven.split("```a\n")[1:]
        formulas = 0
        for text, theirs, mine in zip(texts, parts, ours):
            is_formula = "\n\n```" not in theirs
            self.assertEqual(FORMULA_BEGINS in mine, is_formula, text)
            self.assertIn(f"{FORMULA_BEGINS}\n\n{text}\n\n<!-- /tmhost-answer -->\n" if is_formula else "{latex:", mine)
            formulas += is_formula
        self.assertGreater(formulas, 40)
        self.assertEqual(self.weave(woven), woven)

    def test_after_what_is_printed(self) -> None:
        """A value that is a formula stands as one after what its line has printed; where it is none, the whole is text."""
        lines = ["both a\\x01b\\n|$x$", "both |$x$|\\n|$y$", "both ```\\n<b>|$x^2$| ", "both a|$x<y$", "both a|$x$|b|[c](d)|", "bytes 61026c617465783a2478240562"]
        woven = self.weave(self.front("a") + "".join(f"```a\n{line}\n```\n\n" for line in lines))
        found = [part.split("```a\n")[-1].partition("\n```\n")[2] for part in woven.split("```a\n")[1:]]
        formula = "\n<!-- tmhost-answer -->\n\n{}\n\n<!-- /tmhost-answer -->\n"
        self.assertEqual(found[0], "\n```tmhost-answer\na\\x01b\n```\n" + formula.format("$x$") + "\n")
        self.assertEqual(found[1], formula.format("$x$") + formula.format("$y$") + "\n")
        self.assertEqual(found[2], "\n````tmhost-answer\n```\n<b>\n````\n" + formula.format("$x^2$") + "\n")
        self.assertEqual(found[3], "\n```tmhost-answer\na{latex:$x<y$}\n```\n\n")
        self.assertEqual(found[4], "\n```tmhost-answer\na{latex:$x$}b{latex:[c](d)}\n```\n\n")
        self.assertEqual(found[5], "\n```tmhost-answer\na\\x02latex:$x$\\x05b\n```\n\n")
        self.assertEqual(self.weave(woven), woven)

    def test_in_a_list_they_are_text(self) -> None:
        woven = self.weave(self.front("a") + "- ```a\n  latex $x$\n  ```\n- b\n")
        self.assertIn("  ```\n  ```tmhost-answer\n  {latex:$x$}\n  ```\n- b\n", woven)
