"""Pictures in answers: what is drawn, and what hostile ones can do, which is nothing."""

import base64
import struct
import sys
import time
import unittest
import zlib
from typing import List, Tuple

import chromium
from harness import NOTEBOOK, SPOKEN, Case, Page, needs_chromium, needs_program, opened

sys.path[:0] = [NOTEBOOK, f"{NOTEBOOK}/../python"]
from tmhost import Answer, Block  # noqa: E402
from tmhost_notebook import shown  # noqa: E402
from tmhost_notebook.pictures import CHARACTERS_AT_ONCE, ELEMENTS_AT_ONCE, LONGEST_SVG, MOST_ELEMENTS, picture_of  # noqa: E402

SVG = '<svg xmlns="http://www.w3.org/2000/svg" xmlns:xlink="http://www.w3.org/1999/xlink" width="120" height="80" viewBox="0 0 120 80">%s</svg>'
CIRCLE = '<circle cx="60" cy="40" r="30" fill="#0b57a4"/>'
DOCTYPE = '<!DOCTYPE svg PUBLIC "-//W3C//DTD SVG 1.1//EN" "http://evil.example/svg11.dtd">'


def chunk(kind: bytes, data: bytes) -> bytes:
    return struct.pack(">I", len(data)) + kind + data + struct.pack(">I", zlib.crc32(kind + data))


def png(width: int = 3, height: int = 2, rows: bytes = b"") -> bytes:
    head = struct.pack(">IIBBBBB", width, height, 8, 0, 0, 0, 0)
    rows = rows or (b"\0" + b"\x80" * width) * height
    return b"\x89PNG\r\n\x1a\n" + chunk(b"IHDR", head) + chunk(b"IDAT", zlib.compress(rows)) + chunk(b"IEND", b"")


JPEG = base64.b64decode(
    "/9j/4AAQSkZJRgABAQEASABIAAD/2wBDAP//////////////////////////////////////////////////////////////////////////////////////"
    "wgALCAABAAEBAREA/8QAFBABAAAAAAAAAAAAAAAAAAAAAP/aAAgBAQABPxA="
)
DRAWN: List[Tuple[str, bytes]] = [
    ("image/png;base64", base64.b64encode(png())),
    ("image/png;base64", base64.encodebytes(png(200, 100))),  # in lines
    ("image/svg+xml", (SVG % CIRCLE).encode()),
    ("image/svg+xml", ('<?xml version="1.0" encoding="UTF-8"?>\n<!-- a plot -->\n' + DOCTYPE + "\n" + SVG % CIRCLE + "\n").encode()),
    # As matplotlib, R, gnuplot write them.
    ("image/svg+xml", (SVG % (
        "<metadata><rdf:RDF xmlns:rdf='http://www.w3.org/1999/02/22-rdf-syntax-ns#'><rdf:li>x</rdf:li></rdf:RDF></metadata>"
        '<defs><style type="text/css">*{stroke-linejoin: round}</style></defs><defs><path id="m" d="M0 0 L9 9"/></defs>'
        '<g clip-path="url(#c)"><use xlink:href="#m" x="1" y="2" style="fill: #1f77b4; stroke: #1f77b4"/></g>'
        '<defs><clipPath id="c"><rect x="0" y="0" width="100" height="70"/></clipPath></defs>')).encode()),
    ("image/svg+xml", (SVG % (
        '<defs><g><symbol overflow="visible" id="g"><path d="M1 1 L5 5"/></symbol></g><linearGradient id="l"><stop offset="1" stop-color="red"/>'
        '</linearGradient></defs><use xlink:href="#g" x="5" y="5"/><rect width="9" height="9" fill="url(#l)"/>'
        '<defs><filter id="textbox" x="0" y="0" width="1" height="1"><feFlood flood-color="white" result="b"/><feComposite in="SourceGraphic" in2="b"/></filter></defs>'
        '<title>Gnuplot</title><text x="9" y="50">Sin(x) &amp; x &lt; 1</text>')).encode()),
    ("image/svg+xml", (SVG % (
        '<path d="M 9 9 L ' + " ".join(f"{k / 20} {40 + 30 * (k % 7)}" for k in range(2000)) + '" style="fill: none; stroke-dasharray: 5.55,2.4; stroke-dashoffset: 0; stroke: red"/>'
        '<line x1="9" y1="9" x2="99" y2="70" stroke="red" stroke-dasharray="4,4"/>')).encode()),
    ("image/svg+xml", (SVG % f'<image width="9" height="9" xlink:href="data:image/png;base64,{base64.b64encode(png()).decode()}"/>').encode()),
]
CIRCLES = ("image/svg+xml", (SVG % ("<g fill='#0b57a4' opacity='.5'>" + "<circle r='99' opacity='.5'/>" * 120_000 + "</g>")).encode())
USE = "<use href='#a'/>"
CHAIN = "".join(f'<g id="a{k}">' + f'<use xlink:href="#a{k + 1}"/>' * 10 + "</g>" for k in range(9)) + f'<g id="a9">{CIRCLE}</g>'
PATTERNS = "".join(
    f'<pattern id="p{k}" width="9" height="9" patternUnits="userSpaceOnUse">' + f'<rect width="9" height="9" fill="url(#p{k + 1})"/>' * 10 + "</pattern>" for k in range(9))
HOSTILE_SVG = [
    "<script>parent.harmed=1;fetch('//evil.example')</script>", "<script xlink:href='//evil.example/a.js'/>", "<script href='data:text/javascript,top.harmed=1'/>",
    "<g onload='top.harmed=1'/>", "<circle r='9' onclick='top.harmed=1'/>", "<image xlink:href='//evil.example/a.png' width='9' height='9'/>",
    "<image href='https://evil.example/a.svg' width='9' height='9'/>", "<image href='data:image/svg+xml,%3Csvg/%3E' width='9' height='9'/>",
    "<use xlink:href='//evil.example/a.svg#a'/>", "<use href='data:image/svg+xml,a#a'/>",
    "<foreignObject width='9' height='9'><iframe xmlns='http://www.w3.org/1999/xhtml' src='//evil.example'/></foreignObject>",
    "<foreignObject width='9' height='9'><img xmlns='http://www.w3.org/1999/xhtml' src='//evil.example' onerror='top.harmed=1'/></foreignObject>",
    "<style>@import url(//evil.example/a.css);</style>", "<style>*{background:url(//evil.example/a.png)}</style>", "<style>*{fill:u\\72l(//evil.example)}</style>",
    "<style>*{filter:blur(900px)}</style>", "<style>@keyframes a{to{r:9}} *{animation:a 1ms infinite}</style>", "<g style='filter:blur(900px)'/>",
    "<g fill='url(//evil.example/a#a)'/>", "<g fill='url(#a'/>", "<g filter='url(#f)'/>", "<filter id='f'><feTurbulence baseFrequency='9' numOctaves='99'/></filter>",
    "<animate attributeName='x' to='9' dur='1ms' repeatCount='indefinite'/>", "<set attributeName='onload' to='top.harmed=1'/>",
    "<path d='M0 0 H100' stroke='red' stroke-dasharray='0.0001'/>", "<path d='M0 0 L100 0' style='stroke: red; stroke-dasharray: 1e-4 , 0'/>" * 9,
    "<style>*{stroke:red;STROKE-DASHARRAY :.0001}</style><rect width='99' height='99'/>", "<g stroke-dasharray='.001' stroke='red'><circle r='99'/></g>" * 99,
    "<path d='m0 0 h9 v9' stroke='red' stroke-dasharray='1' pathLength='1e9'/>", "<path d='M0 0 L9 9' vector-effect='non-scaling-stroke' stroke-dasharray='1'/>",
    "<path d='M0 0 L9 9' stroke='red' stroke-dasharray='var(--a)'/>", "<text stroke='red' stroke-dasharray='.001'>letters</text>",
    "<defs><path id='a' d='M0 0 L9 9' stroke='red' stroke-dasharray='.001'/></defs>" + "<use href='#a'/>" * 99,
    CHAIN + '<use xlink:href="#a0"/>', PATTERNS + '<rect width="99" height="99" fill="url(#p0)"/>', "<g id='a'><use href='#a'/></g>",
    "<mask id='m' mask='url(#m)'/><g mask='url(#m)'/>", "<g>" * 70 + "</g>" * 70, "<path/>" * (MOST_ELEMENTS + 1),
    "<metadata><g xmlns='http://www.w3.org/2000/svg' id='a'/></metadata>", "<video xmlns='http://www.w3.org/1999/xhtml' src='//evil.example'/>",
    "<g id='d'>" + "<path/>" * 30_000 + "</g>" + "<use href='#d'/>" * 20, "<g", "&undefined;", "\x01",
]
WHOLE = [
    '<?xml version="1.0"?><!DOCTYPE svg [<!ENTITY a "aaaaaaaaaa"><!ENTITY b "&a;&a;&a;&a;&a;&a;&a;&a;">]>' + SVG % "<text>&b;</text>",
    '<!DOCTYPE svg [<!ENTITY a SYSTEM "file:///etc/passwd">]>' + SVG % "<text>&a;</text>", '<!DOCTYPE svg [<!ATTLIST g fill CDATA "url(#a)">]>' + SVG % "<g/>",
    '<?xml-stylesheet href="//evil.example/a.css"?>' + SVG % "", '<?xml version="1.0" encoding="utf-7"?>' + SVG % "", "<svg>" + CIRCLE + "</svg>",
    "<html xmlns='http://www.w3.org/1999/xhtml'><script>top.harmed=1</script></html>", "<script>top.harmed=1</script>", "", "GIF89a", SVG % "" + "<script/>",
]
HOSTILE: List[Tuple[str, bytes]] = [
    *(("image/svg+xml", (SVG % text).encode()) for text in HOSTILE_SVG), *(("image/svg+xml", text.encode()) for text in WHOLE),
    ("image/svg+xml;base64", base64.b64encode((SVG % "<script/>").encode())), ("image/svg+xml", base64.b64encode((SVG % CIRCLE).encode())),
    ("image/png;base64", base64.b64encode(b"<script>top.harmed=1</script>")), ("image/png;base64", base64.b64encode((SVG % CIRCLE).encode())),
    ("image/png;base64", base64.b64encode(png(60_000, 60_000, b"\0"))), ("image/png;base64", base64.b64encode(png(0, 9, b"\0"))),
    ("image/png;base64", base64.b64encode(png())[:-3] + b'"><script>'), ("image/png", png()), ("image/png;base64", base64.b64encode(JPEG)),
    ("image/jpeg;base64", base64.b64encode(png())), ("image/jpeg;base64", base64.b64encode(b"\xff\xd8\xff" + b"\xff" * 999)), ("image/gif;base64", b"R0lGODlhAQABAAAAACw="),
    ("image/png;base64,AAAA' onerror='top.harmed=1", b"x"), ("text/html", b"<script>top.harmed=1</script>"),
]
PICTURES = "[...document.querySelectorAll('.picture img')]"


def picture_block(tag: str, data: bytes) -> Block:
    text = data.decode("utf-8", "replace")
    return Block(tag, "format", (text,) if text else ())


class Looked(unittest.TestCase):
    """Which blocks are drawn."""

    def test_what_is_drawn(self) -> None:
        for tag, data in [*DRAWN, ("image/jpeg;base64", base64.b64encode(JPEG))]:
            with self.subTest(tag=tag, data=data[:200]):
                picture = picture_of(picture_block(tag, data))
                self.assertIsNotNone(picture)
                assert picture
                head, _, text = picture.address.partition(";base64,")
                self.assertIn(head, ("data:image/png", "data:image/jpeg", "data:image/svg+xml"))
                self.assertEqual(base64.b64decode(text, validate=True), base64.b64decode(data) if tag.endswith("base64") else data)

    def test_what_is_not(self) -> None:
        self.assertGreaterEqual(len(HOSTILE), 40)
        for tag, data in HOSTILE:
            with self.subTest(tag=tag, data=data[:200]):
                begin = time.process_time()
                self.assertIsNone(picture_of(picture_block(tag, data)))
                self.assertLess(time.process_time() - begin, 5)
        self.assertIsNone(picture_of(picture_block("image/svg+xml", (SVG % f"<path d='{'M0 0' * LONGEST_SVG}'/>").encode())))
        self.assertIsNone(picture_of(Block("image/svg+xml", "channel", (SVG % CIRCLE,))))
        self.assertIsNone(picture_of(Block("image/svg+xml", "format", (SVG, Block("verbatim", "format", ("x",))))))

    def test_what_is_drawn_at_once(self) -> None:
        """Of an answer so many elements, characters and dots; what is more is to be asked for."""
        def are_heavy(*pictures: Tuple[str, bytes]) -> List[bool]:
            answer = Answer("> ", Block("verbatim", "format", tuple(picture_block(*one) for one in pictures)), "not looked at")
            return ["heavy" in part for part in shown.facts_of(answer)["parts"]]

        self.assertEqual(are_heavy(*DRAWN), [False] * len(DRAWN))
        self.assertEqual(are_heavy(CIRCLES, DRAWN[2]), [True, False])
        half = ("image/svg+xml", (SVG % (CIRCLE * (ELEMENTS_AT_ONCE * 2 // 5))).encode())
        self.assertEqual(are_heavy(half, half, half, DRAWN[0]), [False, True, True, False])
        again = ("image/svg+xml", (SVG % f"<g id='a'>{CIRCLE * 100}</g>{USE * (ELEMENTS_AT_ONCE // 100)}").encode())
        self.assertEqual(are_heavy(again), [True])
        long = ("image/svg+xml", (SVG % f"<path d='M0 0{' ' * CHARACTERS_AT_ONCE}'/>").encode())
        dashed = ("image/svg+xml", (SVG % ("<path d='M0 0 L900 0' stroke='red' stroke-dasharray='.015'/>")).encode())
        self.assertEqual(are_heavy(long, dashed), [True, True])
        large = ("image/png;base64", base64.b64encode(png(5000, 5000)))
        self.assertEqual(are_heavy(*[large] * 5), [False] * 4 + [True])

    def test_an_answer_with_pictures(self) -> None:
        one, other = (picture_block(*DRAWN[number]) for number in (0, 2))
        text = "x" * (shown.LONGEST + 5)
        facts = shown.facts_of(Answer("> ", Block("verbatim", "format", (one, text, other)), "not looked at"))
        self.assertEqual([list(part) for part in facts["parts"]], [["picture", "text"], ["text"], ["picture", "text"]])
        about = facts["parts"][0]["text"]
        self.assertRegex(about, r"\A\{image/png;base64: PNG, 3 by 2, \d+ bytes\}\Z")
        self.assertEqual((facts["text"], facts["isCut"]), ((about + text)[:shown.LONGEST], True))
        answer = Answer("> ", Block("verbatim", "format", (one, text, other)), "not looked at")
        rest = shown.piece_of(answer, shown.LONGEST)["text"]
        self.assertEqual(facts["text"] + rest, about + text + facts["parts"][2]["text"])


# The name of the file that the first button of a cell saves, and its length.
SAVED = """
new Promise((done) => {
  let kept = null;
  URL.createObjectURL = (blob) => { kept = blob; return "#" };
  HTMLAnchorElement.prototype.click = function () { done([this.download, kept.size]) };
  document.querySelector("#cell-%d [data-do=savePicture]").click();
})
"""


@needs_program
@needs_chromium
class Drawn(Case):
    """The page in Chromium."""

    def begin(self) -> None:
        self.server = self.serve()
        self.page = Page(self.server)
        self.page.call("session", name="s", words=SPOKEN, tab=False)

    def add(self, tag: str, data: bytes) -> int:
        path = f"{self.folder}/picture{time.monotonic_ns()}"
        with open(path, "wb") as file:
            file.write(data)
        return self.add_line(f"file {tag} {path}")

    def add_line(self, line: str) -> int:
        reported = self.page.call("new", session="s", text=line, after=(self.page.snapshot()["order"] or [0])[-1])
        self.assertIn("id", reported, reported)
        id: int = reported["id"]
        return id

    def evaluated(self) -> chromium.Tab:
        tab = opened(self.browse(), self.server)
        self.page.call("eval_from", id=None)
        count = len(self.page.until_idle())
        tab.until(f"document.querySelectorAll('.cell[data-state=answered]').length >= {count}")
        return tab

    def test_pictures(self) -> None:
        self.begin()
        for tag, data in DRAWN:
            self.add(tag, data)
        two = b"\x02verbatim:before" + b"".join(b"\x02" + tag.encode() + b":" + data + b"\x05between" for tag, data in (DRAWN[0], DRAWN[2])) + b"\x05"
        id = self.add_line("raw " + base64.b64encode(two).decode())
        long = self.add("verbatim", b"x" * 30_000)
        tab = self.evaluated()
        tab.until(f"{PICTURES}.filter((one) => one.complete && one.naturalWidth > 0).length", len(DRAWN) + 2)
        self.assertEqual(tab.value(f"document.querySelector('#cell-{id} pre').textContent"), "beforeSavebetweenSavebetween")
        self.assertRegex(str(tab.value(f"document.querySelector('#cell-{id} img').alt")), r"\AA picture \(PNG, 3 by 2, \d+ bytes\)\Z")
        self.assertEqual(tab.value(f"document.querySelectorAll('#cell-{long} .more').length"), 1)
        saved = tab.value(
            """new Promise((done) => {
                let kept = null;
                URL.createObjectURL = (blob) => { kept = blob; return "#" };
                HTMLAnchorElement.prototype.click = function () { kept.text().then((text) => done([this.download, text])) };
                document.querySelector("#cell-3 [data-do=savePicture]").click();
            })""")
        self.assertEqual(saved[0], "cell-3.svg")
        self.assertEqual(saved[1].encode(), DRAWN[2][1])
        self.assertEqual(tab.browser.trouble, [])

    def test_a_picture_that_takes_long(self) -> None:
        """120,000 circles through which others are seen: the page works, draws them when asked to, and saves them before, too."""
        self.begin()
        id = self.add(*CIRCLES)
        other = self.add_line("say after")
        tab = self.evaluated()
        shown = f"#cell-{id} [data-do=showPicture]"
        tab.until(f"document.querySelector('{shown}').textContent", f"Show the picture (SVG, {len(CIRCLES[1]):,} bytes)")
        self.assertEqual(tab.value(f"{PICTURES}.length"), 0)
        begin = time.monotonic()
        tab.click(f"#cell-{other} .number")
        tab.key("Enter")
        for letter in "typed":
            tab.type(letter)
            tab.value("new Promise((done) => requestAnimationFrame(() => requestAnimationFrame(done)))")
        self.assertEqual(tab.value(f"document.querySelector('#cell-{other} textarea').value"), "say aftertyped")
        self.assertLess(time.monotonic() - begin, 10)  # on a busy machine, too
        self.assertEqual(tab.value(SAVED % id), [f"cell-{id}.svg", len(CIRCLES[1])])
        tab.value(f"document.querySelector('{shown}').click()")
        tab.until(f"{PICTURES}.filter((one) => one.complete && one.naturalWidth > 0).length", 1)
        self.assertEqual(tab.value(f"document.querySelectorAll('{shown}').length"), 0)
        self.assertEqual(tab.value("document.activeElement.dataset.do"), "savePicture")
        self.assertEqual(tab.browser.trouble, [])

    def test_hostile_pictures(self) -> None:
        self.begin()
        for tag, data in HOSTILE:
            if " " not in tag:
                self.add(tag, data)
        good = self.add(*DRAWN[0])
        tab = self.evaluated()
        tab.until(f"document.querySelector('#cell-{good} img')?.naturalWidth", 3, 60)
        for place in range(0, 60_000, 700):
            tab.value(f"scrollTo(0, {place})")
        tab.value("new Promise((done) => setTimeout(done, 2000))")
        self.assertEqual(tab.value(f"[window.harmed ?? 0, {PICTURES}.length]"), [0, 1])
        others = [address for address in tab.browser.requests if not address.startswith((f"http://{self.server.host}/", "about:blank", "data:image/png;base64,"))]
        self.assertEqual(others, [])
        self.assertEqual(tab.browser.trouble, [])
        begin = time.monotonic()
        tab.click(f"#cell-{good} .number")
        tab.key("Enter")
        tab.type("x")
        tab.until(f"document.querySelector('#cell-{good} textarea').value", lambda text: str(text).endswith("x"))
        self.assertLess(time.monotonic() - begin, 20)  # on a busy machine, too


if __name__ == "__main__":
    unittest.main()
