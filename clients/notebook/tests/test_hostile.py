"""Hostile outputs: nothing of them runs, nothing loads, and nothing leaves its cell."""

import base64
import random
import unittest
from typing import List, Tuple

from harness import SPOKEN, Case, Page, needs_chromium, needs_program, opened

SCRIPT = b"window.harmed=1"
ESCAPES = [
    b"<script>%s</script>", b"</pre><script>%s</script>", b"<img src=x onerror=\"%s\">", b"<svg onload=\"%s\"></svg>",
    b"<iframe srcdoc=\"<script>parent.%s</script>\">",
    b"<a href=\"javascript:%s\">a</a>", b"javascript:%s", b"<style>*{display:none}</style>%s", b"<base href=//evil.example>%s",
    b"<meta http-equiv=refresh content=0;url=//evil.example>%s",
    b"<link rel=stylesheet href=//evil.example/a.css>%s", b"--><!--<script>%s</script>", b"]]></textarea><script>%s</script>",
    b"<form action=//evil.example><button>%s",
    b"<object data=\"javascript:%s\">", b"<math><mi xlink:href=\"javascript:%s\">x</mi></math>", b"&lt;script&gt;%s&lt;/script&gt;",
    b"\\u003cscript\\u003e%s\\u003c/script\\u003e",
    b"data: {\"cells\":[]}\n\ndata: %s\n\n", b"{\"type\":\"answered\",\"id\":1}\n%s\n", b"answered 1\nok\nfield 7\n%s", b"<!--%s",
    b"</section></main>%s", b"'\");%s;//", b"${%s}`",
]
CHARACTERS = [
    "\u202e" * 200 + "evil", "\u2066\u202eabc", "\0" * 300, "a\0b\x01\x1b[31mred\x1b[0m\x07\x08", "\r\roverwritten", "\x7f\x80\x9b31m",
    "\ufeff\u200b\u200d\u2060",
    "Z" + "\u0310\u0344\u035c" * 2000, "\u1160" * 500, "\U000e0041" * 100, "\ufdfa" * 300, "\U0001f468\u200d\U0001f469" * 200,
    "\u2028\u2029 lines", "\t" * 500,
]
LONG = [b"x" * 300_000, b"long line " * 30_000, b"\n" * 50_000, b"<b>" * 30_000, "\u0645".encode() * 40_000]
TEX = [
    r"$\href{javascript:window.harmed=1}{x}$", r"$\url{javascript:window.harmed=1}$", r"$\includegraphics{//evil.example/x.png}$",
    r"$\htmlId{cells}{x}$", r"$\htmlStyle{position:fixed}{x}$",
    r"$\htmlClass{toolbar}{x}$", r"$\htmlData{do=remove}{x}$", r"$\rule{10000em}{10000em}$", r"$\kern-1000em x$", r"$\raisebox{900em}{x}$",
    r"$\def\a{\a\a}\a$",
    r"$\newcommand{\a}{\a\a}\a$", r"$\gdef\x{\x}\x$", r"$\text{<script>window.harmed=1</script>}$",
    r"$</span><script>window.harmed=1</script>$", r"$\unicode{x202e}$",
    r"$\colorbox{red}{\Huge x}$", r"$\color{expression(window.harmed=1)}x$", r"$\textcolor{url(//evil.example/x)}{x}$",
    "$" + r"\frac{1}{" * 400 + "1" + "}" * 400 + "$",
    "$" + r"\left(" * 300 + "x" + r"\right)" * 300 + "$", "$" + r"\sqrt{" * 500 + "x" + "}" * 500 + "$",
    "$" + "x^{" * 700 + "1" + "}" * 700 + "$", "$" + "x" * 4900 + "$",
    r"$\begin{matrix}" + "&" * 2000 + r"\end{matrix}$", "$\u202e\\text{abc}$", r"$\verb|<script>window.harmed=1</script>|$", r"$x$" * 1500,
    r"\unknown{x}", "$", "$$$", r"$\char`\<$",
    r"$\hspace{-1000em}x$", r"$\mathllap{" + "x" * 900 + "}$", r"$\large\Huge\tag{evil}x$", r"$\cancel{x}\sout{y}\boxed{z}$",
]
RAW = [
    b"\x02verbatim:\x02html:<script>window.harmed=1</script>\x05\x05", b"\x02ps:%!PS evil\x05",
    b"\x02verbatim:" + b"\x02a:" * 30 + b"x" + b"\x05" * 31, b"\x02verbatim:\xff\xfe\xc3\x28\x05",
    b"\x02<script>window.harmed=1</script>:x\x05", b"\x02svg:<svg onload=window.harmed=1></svg>\x05",
    b"\x02verbatim:x\x02prompt#<script>window.harmed=1</script>\xe2\x80\xae> \x05\x05",
]
PROSE = [
    "<script>window.harmed=1</script>", "[x](javascript:window.harmed=1)", "![x](//evil.example/x.png)",
    "<img src=x onerror=window.harmed=1>", "[x](data:text/html,<script>window.harmed=1</script>)",
    "[x]: javascript:window.harmed=1\n\n[x]", "<javascript:window.harmed=1>", "[a](vbscript:x)",
    "[x](http://evil.example/%0aon \"t\\\" onclick=window.harmed=1\")", "> " * 300 + "x",
    "[" * 2000, "*" * 4000, "|a|\n|-|\n" + "|x|\n" * 400, "$\\href{javascript:window.harmed=1}{x}$ $" + "{" * 900, "# \u202eevil",
    "```html\n<script>window.harmed=1</script>\n```",
]
UNHARMED = """
(() => {
  const bad = ["script:not([src='main.js'])", "iframe", "object", "embed", "base", "form:not([method=dialog]):not(body > header > #find)",
    "img:not(.picture > img[src^='data:image/'])", "style", "video", "audio", "[onerror]", "[onload]", "[onclick]", "a[href^='javascript' i]",
    "a[href^='data' i]", "#cells link", "#cells meta", ".output [id]", ".reading [id]", ".output header", ".reading header",
    "#cells [id]:not(.cell):not(#completions)",
    "#cells [style*=fixed]", "#cells [style*=url]"];
  return [window.harmed ?? 0, ...bad.filter((selector) => document.querySelector(selector))];
})()
"""
# What is drawn of a cell's answer lies within the cell: it clips, and has the width of the others.
WITHIN = """
[...document.querySelectorAll(".cell")].filter((cell) => {
  const box = cell.getBoundingClientRect(), all = document.querySelector("#cells").getBoundingClientRect();
  const output = cell.querySelector(cell.classList.contains("prose") ? ".reading" : ".output");
  const isClipped = /paint|content|strict/.test(getComputedStyle(output).contain);
  return !isClipped || box.width > all.width + 1 || box.left < all.left - 1 || output.getBoundingClientRect().right > box.right + 1;
}).map((cell) => cell.id)
"""


def outputs() -> List[bytes]:
    """What the interpreter is asked to write, a line each: a hundred and more."""
    said = [(b"verbatim", text.replace(b"%s", SCRIPT)) for text in ESCAPES] + [(b"verbatim",
        text.encode("utf-8", "surrogatepass")) for text in CHARACTERS]
    said += [(b"latex", tex.encode()) for tex in TEX] + [(b"html", ESCAPES[0] % SCRIPT), (b"command", b"(exec-delayed)"),
        (b"<script>", SCRIPT), (b"scheme", b"(kill)")]
    rng = random.Random(5)
    for _ in range(20):
        pieces = [rng.choice(ESCAPES).replace(b"%s", SCRIPT) if rng.random() < 0.6 else rng.choice(CHARACTERS).encode()[:60] for _ in range(4)]
        said.append((rng.choice([b"verbatim", b"latex"]), b"".join(pieces)))
    lines = [b"block " + tag + b" " + base64.b64encode(text) for tag, text in said]
    return lines + [b"raw " + base64.b64encode(text) for text in RAW]


@needs_program
@needs_chromium
class Hostile(Case):
    def setUp(self) -> None:
        super().setUp()
        self.server = self.serve()
        self.page = Page(self.server)
        self.page.call("session", name="evil", words=SPOKEN, tab=False)

    def add(self, line: str, session: str = "evil", after: int = 0) -> int:
        reported = self.page.call("new", session=session, text=line, after=after)
        self.assertIn("id", reported, (line[:50], reported))
        id: int = reported["id"]
        return id

    def short_and_long(self) -> Tuple[List[str], List[bytes]]:
        """Lines that a cell can have, and texts that are too long for that."""
        lines = [line.decode() for line in outputs()]
        return [line for line in lines if len(line) <= 4_095], [base64.b64decode(line.split()[-1]) for line in lines if len(line) > 4_095] + LONG

    def fill(self) -> int:
        short, long = self.short_and_long()
        for line in short:
            self.add(line)
        for number, text in enumerate(long):
            path = f"{self.folder}/long{number}"
            with open(path, "wb") as file:
                file.write(text)
            self.add(f"file {'latex' if text.startswith(b'$') else 'verbatim'} {path}")
        return len(short) + len(long)

    def test_hostile_outputs(self) -> None:
        count = self.fill()
        self.assertGreaterEqual(count, 100)
        for text in PROSE:
            self.assertIn("id", self.page.call("new", session=None, text=text, after=0), text[:40])
        tab = opened(self.browse(), self.server)
        self.assertEqual(self.page.call("eval_from", id=None)["count"], count)
        cells = [cell for cell in self.page.until_idle().values() if cell["session"] == "evil"]
        self.assertEqual([(cell["id"], cell["state"]) for cell in cells if cell["state"] != "answered"], [])
        tab.until(f"document.querySelectorAll('.cell[data-state=answered]').length >= {count}")
        tab.until("document.querySelectorAll('.formula.set').length > 3")
        for place in range(0, 30_000, 700):  # all of it is drawn once
            tab.value(f"scrollTo(0, {place})")
        tab.value("new Promise((done) => setTimeout(done, 4000))")
        self.assertEqual(tab.value(UNHARMED), [0])
        self.assertEqual(tab.value(WITHIN), [])
        self.keep_to_the_server(tab.browser.requests)
        self.assertEqual(tab.browser.trouble, [])
        self.assertEqual(tab.until("document.title", "sheet"), "sheet")
        # The page works as before.
        tab.value("document.querySelector('[data-do=addProse]').click()")
        tab.until(f"document.querySelectorAll('.cell').length", count + len(PROSE) + 1)

    def keep_to_the_server(self, requests: List[str]) -> None:
        others = [address for address in requests if not address.startswith((f"http://{self.server.host}/", "about:blank"))]
        self.assertEqual(others, [])

    def test_16_megabytes(self) -> None:
        self.add("bytes 16000000")
        self.add("say after")
        tab = opened(self.browse(), self.server)
        tab.value("document.querySelector('[data-do=evaluateAll]').click()")
        tab.until("document.querySelector('.more')?.textContent", lambda text: str(text).startswith("20,000 of 16,000,000 characters"), 120)
        tab.click("[data-do=showMore]")
        tab.until("document.querySelector('.more')?.textContent", lambda text: str(text).startswith("420,000 of 16,000,000"))
        self.assertEqual(tab.value("document.querySelector('#cell-1 .output pre').textContent.length"), 420_000)
        self.assertEqual(tab.value(WITHIN), [])
        tab.click("#cell-2 .number")
        tab.key("Enter")
        tab.type("x")
        tab.until("document.querySelector('#cell-2 textarea').value", "say afterx")
        self.assertEqual(self.show().count("x" * 16_000_000), 1)

    def test_the_page_takes_no_markup(self) -> None:
        """The browser itself refuses what would make markup or scripts of a text, whoever asks."""
        tab = opened(self.browse(), self.server)
        for expression in ("document.body.innerHTML = '<b>x</b>'", "document.body.insertAdjacentHTML('beforeend', 'x')",
            "document.write('x')", "eval('1')", "new Function('return 1')()",
                           "document.createRange().createContextualFragment('<b>')", "new Worker('main.js')",
                           "document.createElement('script').src = 'x.js'", "setTimeout('1')"):
            with self.subTest(expression):
                self.assertEqual(tab.value(f"(() => {{ try {{ {expression}; return 'done' }} catch (error) {{ return error.name }} }})()"),
                    self.refusal(expression))
        self.assertEqual(tab.value("fetch('http://127.0.0.1:9/').then(() => 'fetched', () => 'refused')"), "refused")

    def refusal(self, expression: str) -> str:
        return "EvalError" if expression.startswith(("eval", "new Function")) else "TypeError"


if __name__ == "__main__":
    unittest.main()
