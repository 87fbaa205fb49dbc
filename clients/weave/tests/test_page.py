"""The page of a text: what it has, when it is written, and where."""
import html
import os
import random
import re
import shutil
import unittest
from typing import List

from .interpreter import value
from .support import KEPT, Case, Outcome, fences
from .test_documents import FRONT, HOSTILE, random_text
from .test_pictures import PNG, SVG

from tmhost_fences.troubles import needed  # noqa: E402
from tmhost_weave.answers import ANSWER, ERROR, Piece, Shown  # noqa: E402
from tmhost_weave.document import Document  # noqa: E402
from tmhost_weave.matter import Matter, matter_of  # noqa: E402
from tmhost_weave.page import Page  # noqa: E402
from tmhost_weave.style import STYLE  # noqa: E402

BODY = re.compile(r"<main>\n(.*)</main>", re.DOTALL)
ALLOWED = re.compile(r'<(?:/?(?:div|pre|code|details|summary)(?: class="[a-z -]+")?(?: dir="ltr")?)>')
KATEX = ("/usr/share/nodejs/katex/dist/katex.js", "/usr/share/javascript/katex/katex.js")
SETS = shutil.which("node") and any(map(os.path.exists, KATEX))


class PageCase(Case):
    def setUp(self) -> None:
        super().setUp()
        self.page = self.place("page.html")

    def paged(self, text: str, *words: str, status: int = 0) -> Outcome:
        self.write(text)
        done = self.run_weave("--html", self.page, *words, self.text)
        self.assertEqual(done.status, status, done.errors)
        return done

    def body(self, page: str = "") -> str:
        found = BODY.search(self.read(page or self.page))
        assert found
        return found[1]


class Pages(PageCase):
    def test_prose_code_and_answers(self) -> None:
        """Each in its place. The text is woven as without a page, and a second page needs no evaluation."""
        front = self.front("a").replace("---\n", "---\ntitle: One <b> & two\nauthor: [Ada, {name: Grace}]\ndate: 2026-11-30\nlang: de-CH\n", 1)
        self.paged(front + "# Head\n\nSome *prose* <i>x</i>.\n\n" + fences([("a", "x <b>\nquiet"), ("a {fold}", "error out\\n|no & no"), ("json", "{}")]))
        self.assertEqual(self.body(), (
            '<header class="title">\n<h1>One &lt;b&gt; &amp; two</h1>\n<p class="author">Ada, Grace</p>\n<p class="date">2026-11-30</p>\n</header>\n'
            '<h1 id="head">Head</h1>\n<p>Some <em>prose</em> <i>x</i>.</p>\n<p>Text 0.</p>\n'
            f'<div class="cell">\n<pre class="in" dir="ltr"><code class="language-a">x &lt;b&gt;\nquiet</code></pre>\n<pre class="out" dir="ltr">{value(["x <b>"])}</pre>\n</div>\n'
            '<p>Text 1.</p>\n<div class="cell">\n<pre class="in" dir="ltr"><code class="language-a">error out\\n|no &amp; no</code></pre>\n'
            '<details><summary>Answer</summary>\n<pre class="out" dir="ltr">out</pre>\n<pre class="out error" dir="ltr">no &amp; no</pre>\n</details>\n</div>\n'
            '<p>Text 2.</p>\n<pre class="text" dir="ltr"><code class="language-json">{}</code></pre>\n'
        ))
        page, woven = self.read(self.page), self.read()
        self.assertIn('<html lang="de-CH">', page)
        self.assertIn("<title>One &lt;b&gt; &amp; two</title>", page)
        self.assertEqual(self.logged("a"), ["x <b>", "quiet", "error out\\n|no & no"])
        done = self.paged(woven)
        self.assertEqual(done.errors, f"{self.text}: 1 error: line {woven[: woven.index('error out')].count(chr(10)) + 1}{KEPT}{self.text}: {self.page} is written\n")
        self.assertEqual((self.logged("a"), self.read(self.page), self.read()), ([], page, woven))
        self.assertEqual(sorted(os.listdir(self.folder)), ["page.html", "text.md", "text.sheet", "text.sheet.alt"])

    def test_what_scrolls_from_side_to_side(self) -> None:
        """It has no scroll bar for its height, and room for what its font draws beyond its lines: browsers would show one where a single pixel is beyond."""
        rules = [rule for rule in STYLE.split("\n") if "overflow-x:auto" in rule]
        self.assertEqual([rule.partition("{")[0] for rule in rules], ["div.out", ".tex.display"])
        for rule in rules:
            self.assertIn("overflow-y:hidden", rule)
            self.assertRegex(rule, r"[{;]padding:\.5rem ")

    def test_what_options_hide(self) -> None:
        """Of a chunk or a fence; in the text the code stays."""
        hidden = [
            ("{a, echo=FALSE}", "echoless"), ("{a}", "#| echo: false\nsecond"), ("{a, include=FALSE}", "included"), ("{a, results='hide'}", "textless"),
            ("a {hide}", "answerless"), ("{a}", "#| output: false\nonly code"), ("{a, eval=FALSE}", "unevaluated"), ("{a, eval=FALSE, echo=FALSE}", "never"),
        ]
        done = self.paged(self.front("a").replace("---\n", "---\nfences: whole\n", 1) + fences(hidden))
        self.assertNotIn("options that are ignored", done.errors)
        codes = re.findall(r"<code[^>]*>([^<]*)</code>", self.body())
        self.assertEqual(codes, ["textless", "answerless", "only code", "unevaluated"])
        evaluated = self.logged("a")
        self.assertEqual(len(evaluated), 6)
        self.assertEqual(re.findall(r'<pre class="out"[^>]*>([^<]*)<', self.body()), [value(evaluated[:at]) for at in (1, 2)])
        self.assertIn("```{a, echo=FALSE}\necholess\n```\n", self.read())

    def test_code_is_hidden_by_the_front_matter(self) -> None:
        """As Quarto and rmarkdown have it, where a fence doesn't say."""
        for key in ("execute: {echo: false}", "knitr: {opts_chunk: {echo: no}}"):
            front = self.front("a").replace("---\n", f"---\n{key}\n", 1)
            self.paged(front + fences([("{a}", "x"), ("a {echo=TRUE}", "y"), ("{a, eval=FALSE}", "z"), ("json", "{}")]))
            self.assertEqual(re.findall(r"<code[^>]*>([^<]*)</code>", self.body()), ["y", "{}"])

    def test_echo_is_ignored_without_a_page(self) -> None:
        self.write(self.front("a") + fences([("{a, echo=FALSE}", "x")]))
        self.assertIn("options that are ignored: echo (line 7)\n", self.run_weave().errors)
        self.assertNotIn("ignored", self.run_weave("--html", self.page, self.text).errors)

    def test_pictures(self) -> None:
        """Those of answers and those of the prose are in the page. One that can't be is named."""
        with open(self.place("one.png"), "wb") as file:
            file.write(b"\x89PNG")
        self.write("no picture", self.place("two.txt"))
        text = self.front("a") + '![a "b"](one.png "t") ![](http://h/x.png)\n\n' + fences([("a", "picture so|image/svg+xml|" + SVG.format(9) + "\npicture |image/png;base64|" + PNG)])
        done = self.paged(text)
        self.assertIn('<p><img src="data:image/png;base64,iVBORw==" alt="a &quot;b&quot;" title="t"> <a href="http://h/x.png">http://h/x.png</a></p>\n', self.body())
        self.assertEqual(self.body().count('<div class="out"><img src="data:image/'), 2)
        self.assertIn("the picture http://h/x.png isn't in the page, since it is elsewhere: there is a link to it\n", done.errors)
        done = self.paged("![](none.png) ![](two.txt)\n" + self.read(), status=1)
        self.assertIn(f"{self.text}: the picture none.png isn't in the page: No such file or directory\n", done.errors)
        self.assertIn(f"{self.text}: the picture two.txt isn't in the page: it is none of gif, jpeg, jpg, png, svg, webp\n", done.errors)

    def test_pictures_as_pandoc_shows_them(self) -> None:
        """One alone in its paragraph has its text below it, and attributes after one are none of the text."""
        self.write("<svg/>", self.place("a.svg"))
        self.write("![A *b*](a.svg){width=50%}\n\nx ![c](a.svg){#i .k width='30'}, ![](a.svg) {y}\n\n![](a.svg)\n\n- ![d](a.svg)\n\n![e](a.svg){width=1;x}\n")
        self.assertEqual(self.run_weave("--html", self.page, self.text).status, 0)
        self.assertEqual(self.body().replace("data:image/svg+xml;base64,PHN2Zy8+", "A"), (
            '<figure><img src="A" alt="A b" style="width:50%">\n<figcaption>A <em>b</em></figcaption></figure>\n'
            '<p>x <img src="A" alt="c" style="width:30px">, <img src="A" alt=""> {y}</p>\n<p><img src="A" alt=""></p>\n'
            '<ul>\n<li><img src="A" alt="d"></li>\n</ul>\n<figure><img src="A" alt="e">\n<figcaption>e</figcaption></figure>\n'
        ))

    @unittest.skipUnless(SETS, "there is no node, or no KaTeX")
    def test_formulas(self) -> None:
        """Those of the prose and of answers, by tmhost-typeset. What can't be set stays as its TeX, and is named."""
        prose = "Inline $x^2$ for $5 and $ 6, `$c$`.\n\n$$\ny\n- z\n$$\n\n$\\nothing$\n\n"
        done = self.paged(self.front("a") + prose + fences([("a", "both text|$x^3$")]))
        body = self.body()
        self.assertEqual(re.findall(r'alttext="([^"]*)"', body), ["x^2", "\ny\n- z\n", "x^3"])
        self.assertEqual(re.findall(r'class="(tex[^"]*)"', body), ["tex", "tex display", "tex", "tex"])
        self.assertIn("for $5 and $ 6, <code>$c$</code>", body)
        self.assertIn('<span class="tex">$\\nothing$</span>', body)
        self.assertIn(f"{self.text}: 1 of 4 formulas stay as their TeX\n", done.errors)
        self.assertIn("math{font-family", self.read(self.page))

    @unittest.skipUnless(SETS, "there is no node, or no KaTeX")
    def test_formulas_with_characters_that_are_escaped(self) -> None:
        """Those that Python or markdown-it escapes, in prose, in a title and in answers: each is set."""
        of_markdown_it = needed("markdown_it.common.utils", "python3-markdown-it").escapeHtml
        marks = [chr(code) for code in range(32, 256) if chr(code) != html.escape(chr(code)) or chr(code) != of_markdown_it(chr(code))]
        self.assertEqual("".join(marks), "\"&'<>")
        wanted = [f"f'_{at} \\text{{{chr(92) * (mark == '&')}{mark} }}" for at, mark in enumerate(marks)]
        front = self.front("a").replace("---\n", "---\ntitle: The slope $f'(x)$\n", 1)
        code = "\n".join(f"both text|$g{tex}$" for tex in wanted).replace("\\", "\\\\")
        done = self.paged(front + "".join(f"A ${tex}$.\n\n$${tex}$$\n\n" for tex in wanted) + "*$a<b$* [$c'$](#x)\n\n" + fences([("a", code)]), "--no-errors")
        self.assertNotIn("formula", done.errors)
        found = [html.unescape(tex) for tex in re.findall(r'alttext="([^"]*)"', self.body())]
        self.assertEqual(found, ["f'(x)", *(tex for one in wanted for tex in (one, one)), "a<b", "c'", *(f"g{tex}" for tex in wanted)])

    @unittest.skipUnless(SETS, "there is no node, or no KaTeX")
    def test_formulas_that_stay(self) -> None:
        """Each is named by its TeX, with its line in the file or that of the fence whose answer it is. With `--no-errors` the status is 1; the page is written."""
        front = self.front("a").replace("---\n", "---\ntitle: A $\\title$\n", 1)
        prose = "\n\n> two $\\first$\n> $y$ and $\\second$, $\\first$\n\n|a|b|\n|-|-|\n|1|$\\cell$|\n\n$$\n\\block\n$$\n\n$x +\n \\nothing " + "x" * 99 + "$\n"
        text = front + fences([("a", "x\nboth text|$\\\\made$"), ("a", "y")]) + prose
        done = self.paged(text)
        lines = self.read().split("\n")
        places = [(part, 1 + next(at for at, line in enumerate(lines) if part in line)) for part in ("first", "second", "cell", "block", "$x +")]
        places[3] = (places[3][0], places[3][1] - 1)  # with its dollars
        fence = lines.index("```a") + 1
        said = [line.removeprefix(f"{self.text}: ") for line in done.errors.splitlines() if "stays as its TeX" in line]
        cut = ("$x +\n \\nothing " + "x" * 99)[:60].replace("\n", "\\n")
        names = ["$\\first$", "$\\second$", "$\\cell$", "$$\\n\\block\\n$$", cut + ".."]
        wanted = ["the formula $\\title$", f"line {fence}: the formula $\\made$", *(f"line {line}: the formula {name}" for name, (_, line) in zip(names, places))]
        self.assertEqual([one.split(" stays as its TeX: ")[0] for one in said], wanted)
        for one, name in zip(said, ("title", "made", "first", "second", "cell", "block", "nothing")):
            self.assertIn(f" stays as its TeX: KaTeX parse error: Undefined control sequence: \\{name} ", one)
        self.assertIn(f"{self.text}: 7 of 8 formulas stay as their TeX\n", done.errors)
        page = self.read(self.page)
        os.remove(self.page)
        strict = self.paged(self.read(), "--no-errors", status=1)
        self.assertEqual((strict.errors, self.read(self.page)), (done.errors.replace(f"{self.text}: a: 3 evaluated\n", ""), page))
        for kept, again in ((text, ["--output", self.place("out.md")]), (text, ["--output", "-"])):
            done = self.paged(kept, *again)
            line = 1 + next(at for at, line in enumerate(kept.split("\n")) if "second" in line)
            self.assertIn(f"{self.text}: line {line}: the formula $\\second$ stays", done.errors)

    def test_formulas_without_node(self) -> None:
        self.write(self.front("a") + "$x^2$\n\n" + fences([("a", "x")]))
        os.mkdir(self.place("bin"))
        os.symlink(shutil.which("env") or "", self.place("bin/env"))
        done = self.run_weave("--html", self.page, self.text, PATH=self.place("bin"))
        self.assertEqual((done.status, done.errors.split("\n")[-2]), (1, f"{self.text}: formulas stay as their TeX: there is no program node (Debian's package nodejs)"))
        self.assertIn('<span class="tex">$x^2$</span>', self.body())

    def test_formulas_without_katex(self) -> None:
        """The page is written, with its prose set, and nothing else is said of it."""
        self.write(self.front("a") + "*So* $x^2$\n\n" + fences([("a", "x")]))
        os.mkdir(self.place("bin"))
        os.symlink(shutil.which("env") or "", self.place("bin/env"))
        said = "tmhost-typeset: KaTeX can't be started from /k; Debian has it in the package katex. The page has its formulas and prose as they were"
        self.write(f"#!/bin/sh\necho \"{said}\" >&2\nexit 1\n", self.place("bin/node"))
        os.chmod(self.place("bin/node"), 0o755)
        done = self.run_weave("--html", self.page, self.text, PATH=self.place("bin"))
        self.assertEqual((done.status, done.errors.split("\n")[1:]), (1, [
            f"{self.text}: {self.page} is written", f"{self.text}: formulas stay as their TeX: KaTeX can't be started from /k; Debian has it in the package katex", "",
        ]))
        self.assertIn('<p><em>So</em> <span class="tex">$x^2$</span></p>', self.body())

    def test_names_of_headings(self) -> None:
        self.write("# Two words!\n\n# Two words\n\n## 1. Sum {#sum .x}\n\n## {-}\n\n### *A* `b`_c\n\nno fences\n")
        done = self.run_weave("--html", self.page, self.text)
        self.assertEqual(done.status, 0, done.errors)
        self.assertEqual(re.findall(r'<h. id="([^"]*)">(.*)</h', self.body()), [
            ("two-words", "Two words!"), ("two-words-1", "Two words"), ("sum", "1. Sum"), ("section", "{-}"), ("a-b_c", "<em>A</em> <code>b</code>_c"),
        ])
        self.assertIn("<title>Two words!</title>", self.read(self.page))


class When(PageCase):
    def test_bytes_that_are_no_utf8(self) -> None:
        """A page would have other characters, so none is written. They are said with their line, and stay in the text."""
        self.paged(self.front("a") + fences([("a", "x")]))
        page = self.read(self.page)
        latin = self.front("a").encode() + "caf\u00e9 $\u00e9$\n\n".encode("latin-1") + fences([("a", "x")]).encode()
        stay = "it has bytes that are no UTF-8, which stay as they are: save the text as UTF-8"
        for data, more in ((latin, ""), (latin + b"\xff\n", " (and so has line {})"), (latin + b"\xff\n\n\x80\n", " (and so have 2 more lines)")):
            with open(self.text, "wb") as file:
                file.write(data)
            first = data[: data.index(b"caf")].count(b"\n") + 1
            done = self.run_weave("--html", self.page, self.text)
            said = [line.removeprefix(f"{self.text}: ") for line in done.errors.splitlines()]
            wanted = f"line {first}: {stay}" + more.format(data.count(b"\n"))
            self.assertEqual((done.status, said), (1, [wanted, f"{self.page} isn't written, since the text isn't answered as it is meant"]))
            self.assertEqual(self.read(self.page), page)
            with open(self.text, "rb") as file:
                woven = file.read()
            self.assertEqual((woven.count(b"tmhost-answer"), woven.replace(f"\n\n```tmhost-answer\n{value(['x'])}\n```".encode(), b"")), (1, data))
            for word in ("--check", "--test"):
                done = self.run_weave(word, self.text)
                self.assertEqual((done.status, done.output, done.errors.startswith(f"{self.text}: line {first}: {stay}")), (1, "", True), done.errors)

    def test_only_where_the_weave_succeeds(self) -> None:
        """Else the page that is there stays, and that is said."""
        self.paged(self.front("a") + fences([("a", "x")]))
        page = self.read(self.page)
        said = f"{self.text}: {self.page} isn't written, since the text isn't answered as it is meant\n"
        ends, fails = ("a", "die"), ("a", "error |no")
        for blocks in ([ends], [fails], [("a", "x"), ("{r}", "y")], [("a hdie", "x")]):
            words = ["--no-errors"] if blocks == [fails] else []
            done = self.paged(self.front("a") + fences(blocks), *words, status=1)
            self.assertEqual((done.errors.endswith(said), self.read(self.page)), (True, page), done.errors)
        done = self.paged(self.front("a") + fences([("a", "error |no")]))
        self.assertIn('<pre class="out error" dir="ltr">no</pre>', self.body())

    def test_nothing_is_written_by_checks(self) -> None:
        self.write(self.front("a") + fences([("a", "x")]))
        for word in ("--check", "--test"):
            done = self.run_weave(word, "--html", self.page, self.text)
            self.assertEqual((done.status, done.errors.split("\n")[-2]), (2, "tmhost-weave: error: --check and --test write nothing, so there is no --html for them"))
        self.assertEqual(os.listdir(self.folder), ["text.md"])

    def test_over_what_no_page_is_written(self) -> None:
        """It is refused before anything is evaluated."""
        self.paged(self.front("a") + fences([("a", "x")]))
        self.logged("a")
        sheet = self.place("other.html")
        shutil.copy(self.sheet, sheet)
        os.symlink(self.text, self.place("link.html"))
        self.write("mine", self.place("file"))
        for place, why in (
            (sheet, f"--html: {sheet} would be lost: name another file"), (self.place("link.html"), f"--html: {self.text} would be lost: name another file"),
            (self.place("file"), f"--html: {self.place('file')} is no folder, and its name doesn't end in .html"),
            (self.place("file/"), f"--html: {self.place('file')}/ is no folder, and its name doesn't end in .html"),
            (self.place("no/page.html"), f"--html: there is no folder {self.place('no')}"), (self.place("no/pages/"), f"--html: there is no folder {self.place('no')}"),
        ):
            self.write(self.front("a") + fences([("a", "y")]))
            done = self.run_weave("--html", place, self.text)
            self.assertEqual((done.status, done.errors, self.logged("a")), (1, f"{self.text}: {why}\n", []))
        self.assertEqual(self.read(self.place("file")), "mine")

    def test_a_folder_of_pages(self) -> None:
        """It is made. A page that is there is replaced as a whole."""
        other = self.place("other.Rmd")
        for path in (self.text, other):
            self.write(self.front("a") + fences([("a", "x")]), path)
        done = self.run_weave("--html", self.place("pages"), self.text, other)
        self.assertEqual(done.status, 0, done.errors)
        self.assertEqual(sorted(os.listdir(self.place("pages"))), ["other.html", "text.html"])
        self.assertIn(f"{other}: {self.place('pages/other.html')} is written\n", done.errors)
        before = os.stat(self.place("pages/text.html")).st_ino
        self.assertEqual(self.run_weave("--html", self.place("pages"), self.text).status, 0)
        self.assertNotEqual(os.stat(self.place("pages/text.html")).st_ino, before)
        for words, why in (
            (["--html", self.page, self.text, other], f"with several texts --html is a folder, and {self.page} is a page"),
            (["--html", "", self.text], "--html names no file"),
            (["--html", self.place("pages"), self.text, self.text], f"several texts would have the page {self.place('pages/text.html')}"),
        ):
            done = self.run_weave(*words)
            self.assertEqual((done.status, done.errors.split("\n")[-2]), (2, f"tmhost-weave: error: {why}"))

    def test_another_ending(self) -> None:
        """It is no page, and most likely not meant as a folder: one that is there is taken, or one with a slash at its end."""
        self.write(self.front("a") + fences([("a", "x")]))
        for name, page in (("page.pdf", "page.html"), ("site-1.2", "site-1.html"), ("page.HTML.txt", "page.HTML.html")):
            done = self.run_weave("--html", self.place(name), self.text)
            ending = name[name.rindex(".") :]
            said = f"{self.place(name)} ends in {ending}, and a page of --html in .html: name it {self.place(page)}, or a new folder {self.place(name)}/"
            self.assertEqual((done.status, done.errors.split("\n")[-2]), (2, f"tmhost-weave: error: {said}"))
        self.assertEqual(os.listdir(self.folder), ["text.md"])
        for name in ("site-1.2/", "site-1.2", ".pages", "page.HTM"):
            self.assertEqual(self.run_weave("--html", self.place(name), self.text).status, 0)
        self.assertEqual((os.listdir(self.place("site-1.2")), os.listdir(self.place(".pages")), os.path.isfile(self.place("page.HTM"))), (["text.html"], ["text.html"], True))

    def test_links_to_texts_of_the_call(self) -> None:
        """They lead to the pages of these, wherever the texts lie; others stay as they are."""
        os.mkdir(self.place("b"))
        other = self.place("b/second part.Rmd")
        links = {
            "text.md": "text.html", "./text.md#sum": "text.html#sum", "<b/second part.Rmd#x%20y>": "second%20part.html#x%20y", "b/../b/second%20part.Rmd": "second%20part.html",
            "#here": "#here", "b/none.md#x": "b/none.md#x", "https://a.b/text.md": "https://a.b/text.md", "text.md?raw": "text.md?raw", "a%00.md": "a%00.md",
        }
        self.write(self.front("a") + fences([("a", "x")]) + "".join(f"[l]({link}) " for link in links) + "and [r]\n\n[r]: text.md 'T'\n")
        self.write(self.front("a") + fences([("a", "x")]) + "> ## [l](../text.md#sum)\n", other)
        done = self.run_weave("--html", self.place("pages"), self.text, other)
        self.assertEqual(done.status, 0, done.errors)
        wanted = "".join(f'<a href="{link}">l</a> ' for link in links.values()) + 'and <a href="text.html" title="T">r</a>'
        self.assertIn(f"<p>{wanted}</p>\n", self.body(self.place("pages/text.html")))
        self.assertIn('><a href="text.html#sum">l</a></h2>', self.body(self.place("pages/second part.html")))
        self.paged(self.read())
        self.assertIn('<a href="page.html#sum">l</a> <a href="b/second%20part.Rmd#x%20y">l</a>', self.body())


class WithoutTheProgram(unittest.TestCase):
    def page(self, text: str, shown: List[Shown]) -> str:
        return Page(Document(text), shown, {}, matter_of(text.split("\n")), "/none").html("name").decode("utf-8")

    def test_hostile_answers_are_text(self) -> None:
        text = FRONT + "```py\nx\n```\n"
        for answer in [*HOSTILE, "</pre></div></main><script>alert(1)</script>", "<math><a href=x>", "$x$"]:
            for kind in (ANSWER, ERROR):
                found = BODY.search(self.page(text, [Shown((Piece(kind, answer),), True)]))
                assert found
                self.assertNotIn("<", ALLOWED.sub("", found[1]), answer)

    def test_each_fence_of_random_texts(self) -> None:
        """It is there once with its answer, whatever stands around it."""
        chance = random.Random(7)
        for _ in range(300):
            text = FRONT + random_text(chance)
            try:
                count = len(Document(text).fences)
            except Exception:
                continue
            page = self.page(text, [Shown((Piece(ANSWER, f"answer {at} ends"),)) for at in range(count)])
            self.assertEqual(re.findall(r"answer (\d+) ends", page), [str(at) for at in range(count)], text)

    def test_front_matter(self) -> None:
        for lines, found in (
            (["---", "title: a", "  b", "---", "c"], Matter(4, "a b")), (["---", "a", "---"], Matter()), (["---", "title: [", "---"], Matter()), (["x", "---"], Matter()),
            (["---", "author: {name: {literal: x}}", "lang: 'a\"b'", "date: 010", "..."], Matter(5, authors=("x",), date="010")),
            (["---", "title: [a]", "author: [x, [y], {}]", "folder: x", "---"], Matter(5, authors=("x",))),
        ):
            self.assertEqual(matter_of(lines), found)
