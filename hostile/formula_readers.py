"""Programs that read exports, and what each may make of a formula."""

from __future__ import annotations

import html.parser
import http.server
import os
import re
import shutil
import subprocess
import threading
from collections.abc import Callable
from dataclasses import dataclass

from model import Difference

Element = tuple[str, dict[str, str]]

# What must be found, or a reader shows nothing.
CONTROL_ADDRESS = "http://formula.example/control.png"
CONTROL = f"![x]({CONTROL_ADDRESS})\n".encode()
CONTROL_PAGE = f'<!doctype html><p><img src="{CONTROL_ADDRESS}">'

TEXT = frozenset("p em strong del s u sub sup br mark ins q".split())
MATH = frozenset(
    "math semantics mrow mi mo mn mtext mspace mfrac msqrt mroot msub msup msubsup munder mover munderover mtable mtr mtd mstyle mpadded mphantom "
    "menclose annotation".split()
)
MATH_ATTRIBUTES = frozenset("xmlns display encoding stretchy form accent width columnalign columnspacing mathvariant notation".split())
# What Chromium asks for by itself.
OWN = re.compile(r"(^|[./])(google|googleapis|gvt1)\.com")



def is_address(element: Element) -> bool:
    """A link that a reader makes of a bare address."""
    tag, attributes = element
    return tag == "a" and set(attributes) == {"href"} and re.match(r"(https?|ftp|mailto|xmpp):", attributes["href"]) is not None


def is_mathml(element: Element) -> bool:
    tag, attributes = element
    return tag in MATH and set(attributes) <= MATH_ATTRIBUTES


def is_picture(element: Element) -> bool:
    """A formula as the picture that another host makes of it."""
    tag, attributes = element
    if tag != "img" or list(attributes) != ["style", "src", "alt", "title", "class"]:
        return False
    return attributes["style"] == "vertical-align:middle" and attributes["src"].startswith("https://latex.codecogs.com/")


def is_table(element: Element) -> bool:
    return element[0] in ("table", "thead", "tbody", "tr", "td", "th") and not element[1]


def is_sign(element: Element) -> bool:
    """A name between colons as the sign of that name."""
    tag, attributes = element
    return tag == "span" and attributes.get("class") == "emoji" and set(attributes) == {"class", "data-emoji"}


@dataclass(frozen=True)
class Tool:
    """A program, and the packages of Debian that have it."""

    line: str
    packages: str

    def is_there(self) -> bool:
        return shutil.which(self.line.split()[0]) is not None


@dataclass(frozen=True)
class Reader(Tool):
    """One that makes HTML of Markdown, which elements it may make beside those of all, and whether long formulas take it no long time."""

    also: tuple[Callable[[Element], bool], ...] = ()
    is_quick: bool = False

    def html_of(self, markdown: bytes) -> str:
        return output_of(self.line.split(), markdown)

    def allows(self, element: Element) -> bool:
        tag, attributes = element
        if tag in TEXT and not attributes:
            return True
        if tag in ("span", "div") and attributes in ({"class": "math inline"}, {"class": "math display"}):
            return True
        return any(also(element) for also in self.also)


NOTEBOOKS = Tool("jupyter-nbconvert", "jupyter-nbconvert")
CHROMIUM = Tool("chromium", "chromium")
CMARK = Reader("cmark --unsafe", "cmark", is_quick=True)
PANDOC = Reader("pandoc --quiet", "pandoc")
READERS = [
    PANDOC,
    Reader("pandoc --quiet --mathml", "pandoc", (is_mathml,)),
    Reader("pandoc --quiet --mathjax", "pandoc", is_quick=True),
    Reader("pandoc --quiet --webtex", "pandoc", (is_picture,)),
    Reader("pandoc --quiet -f commonmark_x", "pandoc", (is_sign,)),
    Reader("pandoc --quiet -f commonmark_x --mathml", "pandoc", (is_mathml, is_sign)),
    Reader("pandoc --quiet -f commonmark_x --mathjax", "pandoc", (is_sign,), is_quick=True),
    Reader("pandoc --quiet -f commonmark", "pandoc"),
    Reader("pandoc --quiet -f gfm", "pandoc", (is_address, is_sign)),
    Reader("pandoc --quiet -f markdown_mmd", "pandoc"),
    Reader("pandoc --quiet -f markdown_strict+tex_math_dollars+backtick_code_blocks", "pandoc"),
    CMARK,
    Reader("cmark-gfm --unsafe -e autolink -e strikethrough -e table -e tasklist -e footnotes", "cmark-gfm", (is_address,), is_quick=True),
    Reader("kramdown -i GFM", "kramdown ruby-kramdown-parser-gfm", (is_table,)),
    Reader("lowdown", "lowdown", (is_address,)),
    Reader("markdown_py -x fenced_code", "python3-markdown"),
]


def output_of(words: list[str], given: bytes = b"") -> str:
    try:
        ran = subprocess.run(words, input=given, capture_output=True, timeout=300)
    except subprocess.TimeoutExpired:
        raise Difference(f"{' '.join(words)} takes more than 300 s") from None
    if ran.returncode:
        raise Difference(f"{' '.join(words)} ended with {ran.returncode}: {ran.stderr.decode(errors='replace')[-1000:]}")
    return ran.stdout.decode(errors="replace")


class Shown(html.parser.HTMLParser):
    """Of a page the texts of its blocks of code, and each other element, with remarks and the like as elements."""

    def __init__(self, text: str) -> None:
        super().__init__()
        self.codes: list[str] = []
        self.elements: list[Element] = []
        self.inside = False
        self.feed(text)
        self.close()

    def handle_starttag(self, tag: str, attributes: list[tuple[str, str | None]]) -> None:
        if tag == "pre":
            self.inside = True
            self.codes.append("")
        elif not (self.inside and tag == "code"):
            self.elements.append((tag, {name: value or "" for name, value in attributes}))

    def handle_endtag(self, tag: str) -> None:
        self.inside = self.inside and tag != "pre"

    def handle_data(self, text: str) -> None:
        if self.inside:
            self.codes[-1] += text

    def handle_comment(self, text: str) -> None:
        self.elements.append(("a remark", {"text": text}))

    def handle_decl(self, text: str) -> None:
        if text.lower() != "doctype html":
            self.elements.append(("a declaration", {"text": text}))

    def handle_pi(self, text: str) -> None:
        self.elements.append(("an instruction", {"text": text}))


def elements_in(page: str) -> list[Element]:
    """The elements of a page but those that a browser adds where they are missing."""
    return [element for element in Shown(page).elements if element[0] not in ("html", "head", "body")]


class Asked(http.server.BaseHTTPRequestHandler):
    """Keeps what a browser asks for, and gives nothing."""

    asked: list[str] = []

    def do_GET(self) -> None:
        if not OWN.search(self.path.split("?")[0]):
            self.asked.append(self.path)
        self.send_error(404)

    do_CONNECT = do_POST = do_HEAD = do_GET

    def log_message(self, format: str, *words: object) -> None:
        pass


class Host(http.server.ThreadingHTTPServer):
    """It says nothing of a browser that ends in the middle of a request."""

    def handle_error(self, *_: object) -> None:
        pass


class Browser:
    """Chromium, whose requests all go to a host here that keeps them."""

    def __init__(self, folder: str) -> None:
        self.folder = os.path.abspath(folder)
        self.host = Host(("127.0.0.1", 0), Asked)
        threading.Thread(target=self.host.serve_forever, daemon=True).start()

    def see(self, page: str) -> tuple[list[Element], list[str]]:
        """The elements of a page, and what it asks for."""
        with open(f"{self.folder}/page.html", "w") as file:
            file.write(page)
        Asked.asked.clear()
        proxy = f"--proxy-server=127.0.0.1:{self.host.server_port}"
        own = f"--user-data-dir={self.folder}/chromium"
        words = "--headless --no-sandbox --disable-gpu --disable-background-networking --disable-component-update --no-first-run --dump-dom"
        seen = output_of([CHROMIUM.line, *words.split(), proxy, own, f"file://{self.folder}/page.html"])
        return elements_in(seen), list(Asked.asked)
