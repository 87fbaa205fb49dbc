"""A worksheet on paper: printed to PDF, the text of each cell is there, nothing is wider than its page, and what is cut or broken says so. TMHOST_PICTURES
names a folder for the PDF."""

import base64
import os
import re
import shutil
import struct
import subprocess
import unittest
import zlib
from typing import Dict, List, Tuple

from harness import PageCase, needs_chromium, needs_program, opened

PICTURES = os.environ.get("TMHOST_PICTURES")
PAPERS: Dict[str, Tuple[float, float]] = {"A4": (8.27, 11.69), "Letter": (8.5, 11)}
PAGES = range(20, 29)
ERROR = b"\x02verbatim:\x02output#\x02output#it went wrong\x05\x05\x02prompt#> \x05\x05"
PROSE = """# A printed worksheet

Words with a formula $\\frac13$, which go on so long that a line of them has its end at the end of the page, whatever its width is.

| name | value | remark |
|:-----|------:|--------|
| one | 1 | a short one |
| a name that takes much room | 123456789012345678901234567890123456789 | a remark that is long, long, long, long, long, long |

```
code in prose that is one line, and goes on after the right side of the page, with more words, to its END_OF_CODE
for i in 1 2 3; do echo "this is a long line of a program"; echo "which is broken on paper, where a line is shorter than on a screen"; done
```

$$\\sum_{n=1}^{\\infty} \\frac{1}{n^2} = \\frac{\\pi^2}{6}$$

END_OF_PROSE
"""
SVG = b'<svg xmlns="http://www.w3.org/2000/svg" width="900" height="1600"><rect width="900" height="1600" fill="#eef"/><text x="9" y="1580" font-size="60">END_OF_PICTURE</text></svg>'
HEAVY = b'<svg xmlns="http://www.w3.org/2000/svg" width="99" height="99">' + b'<circle cx="9" cy="9" r="9"/>' * 20_000 + b"</svg>"
CUT = "(this formula is wider than the page, and may be cut at its right)"
HIGH = "(this formula is higher than a page, and may be cut where one ends)"
BROKEN = "(this text is wider than the page, and its lines are broken)"
UNDRAWN = "(a picture that wasn't drawn: its button draws it)"


def png(width: int, height: int) -> bytes:
    lines = b"".join(b"\0" + bytes([255 * x // width, 255 * y // height, 128][colour] for x in range(width) for colour in range(3)) for y in range(height))
    parts = ((b"IHDR", struct.pack(">IIBBBBB", width, height, 8, 2, 0, 0, 0)), (b"IDAT", zlib.compress(lines)), (b"IEND", b""))
    return b"\x89PNG\r\n\x1a\n" + b"".join(struct.pack(">I", len(data)) + name + data + struct.pack(">I", zlib.crc32(name + data)) for name, data in parts)


def table(columns: int, end: str) -> str:
    """A two-dimensional text: what stands below one another is one column."""
    return "\n".join("[" + "".join(f"{row * column:5}" for column in range(columns)) + "]" for row in range(8)) + f"\n{end}"


def matrix(rows: int, columns: int, power: int = 1) -> str:
    return "$\\begin{pmatrix}" + " \\\\ ".join(" & ".join(str((row * column) ** power) for column in range(1, columns + 1)) for row in range(1, rows + 1)) + "\\end{pmatrix}$"


def total(count: int, term: str) -> str:
    return "$" + " + ".join(term % (number, number) for number in range(count)) + "$"


# What an interpreter writes: its tag, what it is, and what of it is to be on paper.
ANSWERS: List[Tuple[str, "str | bytes", List[str]]] = [
    ("verbatim", table(14, "END_OF_NARROW"), ["END_OF_NARROW", "0 6 12 18 24"]),
    ("verbatim", table(22, "END_OF_WIDE"), ["END_OF_WIDE", "21]", "147]"]),
    ("verbatim", table(60, "END_OF_WIDEST"), ["END_OF_WIDEST", BROKEN]),
    ("verbatim", "\n".join(f"line {number} of many" for number in range(120)), [f"line {number} of many" for number in range(120)]),
    ("verbatim", "x" * 30_000, ["20,000 of 30,000 characters", BROKEN]),
    ("latex", matrix(6, 6), ["6 12 18 24 30 36"]),
    ("latex", matrix(4, 30), ["120"]),
    ("latex", matrix(3, 20, 9), [CUT]),
    ("latex", matrix(60, 3), ["60 120 180"]),
    ("latex", matrix(200, 3), [HIGH, "200 400 600"]),
    ("latex", total(80, "\\frac{%d}{x_{%d}}"), ["79"]),
    ("latex", total(700, "%d x^{%d}"), ["699x699"]),
    ("image/png;base64", base64.b64encode(png(1200, 300)), []),
    ("image/svg+xml", SVG, ["END_OF_PICTURE"]),
    ("image/svg+xml", HEAVY, [UNDRAWN]),
]
CODE = "\n".join(["# code of many lines", *(f"line_{number} = {number}" for number in range(140)), "END_OF_LINES"])
LONG_CODE = "long_code = [" + ", ".join(str(number) for number in range(100, 200)) + "] # END_OF_LONG_CODE"
IS_SET = "document.querySelectorAll('.formula:not(.set)').length === 0 && document.querySelectorAll('.reading.set').length === 1"
LEFT_OVER = "document.querySelectorAll('.formula[style*=font], pre[style*=font], .is-cut, .is-high, .is-broken').length"


@needs_program
@needs_chromium
@unittest.skipUnless(shutil.which("pdftotext"), "there is no pdftotext (Debian's package poppler-utils)")
class Paper(PageCase):
    def fill(self) -> List[List[str]]:
        """Makes the worksheet, and gives of each of its cells what is to be on paper."""
        self.begin()
        wanted = [["A printed worksheet", "END_OF_CODE", "END_OF_PROSE", "a remark that is", "π"]]
        last: int = self.page.call("new", session=None, text=PROSE, after=0)["id"]
        for text, words in ((CODE, [f"line_{number} = {number}" for number in range(140)] + ["END_OF_LINES"]), (LONG_CODE, ["long_code", "END_OF_LONG_CODE"])):
            last = self.page.call("new", session="s", text=text, after=last)["id"]
            wanted.append(words)
        raw = "raw " + base64.b64encode(ERROR).decode()
        lines = [(raw, ["Error", "it went wrong"]), *((self.file(number, answer[1], answer[0]), answer[2]) for number, answer in enumerate(ANSWERS)), ("exit", ["lost: Ended"])]
        for line, words in lines:
            last = self.page.call("new", session="s", text=line, after=last)["id"]
            self.page.call("eval", id=last)
            wanted.append([f"#{last}", *words])
        self.page.until_idle()
        return wanted

    def file(self, number: int, data: "str | bytes", tag: str) -> str:
        path = os.path.join(self.folder, f"answer{number}")
        with open(path, "wb") as file:
            file.write(data if isinstance(data, bytes) else data.encode())
        return f"file {tag} {path}"

    def test_paper(self) -> None:
        wanted = self.fill()
        tab = opened(self.browser, self.server)
        tab.until(IS_SET)
        tab.value("Promise.all([...document.images].map((one) => one.decode()))")
        for paper, (width, height) in PAPERS.items():
            with self.subTest(paper=paper):
                reported = tab.ask("Page.printToPDF", {"printBackground": True, "paperWidth": width, "paperHeight": height})
                path = os.path.join(PICTURES or self.folder, f"{paper}.pdf")
                with open(path, "wb") as file:
                    file.write(base64.b64decode(reported["data"]))
                self.look(path, wanted)
                self.assertEqual(tab.value(LEFT_OVER), 0)

    def look(self, path: str, wanted: List[List[str]]) -> None:
        text = subprocess.run(["pdftotext", "-layout", path, "-"], stdout=subprocess.PIPE, check=True).stdout.decode()
        plain = re.sub(r"\s+", " ", text)
        for cell, words in enumerate(wanted, 1):
            self.assertEqual((cell, [word for word in words if word not in plain and word.replace(" ", "") not in plain.replace(" ", "")]), (cell, []))
        self.assertEqual([plain.count(sign) for sign in (CUT, HIGH, BROKEN, UNDRAWN)], [1, 1, 3, 1])
        self.assertEqual(len(re.findall(r"^ *\[ +0 .*\]$", text, re.MULTILINE)), 16, "each line of both tables that fit is one")
        pages = text.split("\f")[:-1]
        self.assertIn(len(pages), PAGES)
        self.assertEqual([number for number, page in enumerate(pages, 1) if not page.strip()], [], "pages without a word")
        self.within(path)

    def within(self, path: str) -> None:
        """Each word stands within its page, and not in its margin."""
        boxes = subprocess.run(["pdftotext", "-bbox", path, "-"], stdout=subprocess.PIPE, check=True).stdout.decode()
        size = 0.0
        for line in boxes.split("\n"):
            page, word = re.search(r'<page width="([\d.]+)"', line), re.search(r'<word xMin="([-\d.]+)" .*xMax="([\d.]+)".*>(.*)</word>', line)
            size = float(page[1]) if page else size
            if word:
                self.assertTrue(20 < float(word[1]) < float(word[2]) < size - 20, (word[3], word[1], word[2], size))


if __name__ == "__main__":
    unittest.main()
