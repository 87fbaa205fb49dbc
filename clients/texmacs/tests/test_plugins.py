"""`adapters/texmacs`: a small plugin in the place of one that TeXmacs ships, and trees of Scheme as LaTeX. (`adapters/try_plugins` tries those themselves.)"""
import os
import shutil
import subprocess
import sys
import tempfile
import unittest
from typing import List

from .support import ROOT, read_blocks

ADAPTERS = os.path.join(ROOT, "adapters")
sys.path.insert(0, ADAPTERS)
import texmacs_blocks  # noqa: E402
import texmacs_trees  # noqa: E402

# Several blocks for a line, text between them, a prompt in a block of its own. `open` leaves a block open, and waits for more.
PLUGIN = r"""
import sys
def w(text):
    sys.stdout.write(text)
    sys.stdout.flush()
def prompt():
    w("\2prompt#>> \5")
w("\2command:(nothing)\5\2verbatim:hello\5")
prompt()
lines = []
for line in sys.stdin:
    if line != "<EOF>\n":
        lines.append(line)
        continue
    text, lines = "".join(lines).rstrip("\n"), []
    if text == "open":
        w("\2verbatim:half")
        sys.stdin.read()
    elif text == "tree":
        w('\2scheme:(with "mode" "math" (frac "1" "2"))\5')
    elif text == "words":
        w('\2scheme:(document "a <less> b" "c")\5')
    elif text == "picture":
        w("\2file:PICTURE?width=5\5")
    elif text == "die":
        sys.exit()
    else:
        w("printed\n\2utf8:" + text + "\5\2latex:\\blue $x$\5")
    prompt()
"""


class Plugins(unittest.TestCase):
    def setUp(self) -> None:
        self.folder = tempfile.mkdtemp(prefix="tmhost-texmacs-test.")
        self.addCleanup(shutil.rmtree, self.folder)
        self.plugin = os.path.join(self.folder, "plugin.py")
        self.picture = os.path.join(self.folder, "p.svg")
        with open(self.picture, "w", encoding="utf-8") as file:
            file.write("<svg></svg>")
        with open(self.plugin, "w", encoding="utf-8") as file:
            file.write(PLUGIN.replace("PICTURE", self.picture))

    def answers(self, *lines: str) -> List[str]:
        """What the blocks for the lines show, after the greeting."""
        words = [sys.executable, "-B", os.path.join(ADAPTERS, "texmacs"), "octave", sys.executable, self.plugin]
        with subprocess.Popen(words, stdin=subprocess.PIPE, stdout=subprocess.PIPE, env={**os.environ, "HOME": self.folder}) as adapter:
            assert adapter.stdin and adapter.stdout
            shown: List[str] = []
            for line in ("", *lines):
                if shown:
                    adapter.stdin.write(line.encode() + b"\n")
                    adapter.stdin.flush()
                data = b""
                while not data or data.count(b"\x02") != data.count(b"\x05"):
                    piece = os.read(adapter.stdout.fileno(), 65536)
                    if not piece:
                        return shown + ["ended"]
                    data += piece
                self.assertTrue(data.startswith(b"\x02") and data.endswith(b"\x05"))
                shown.append(read_blocks(data).text)
            adapter.stdin.close()
        self.assertEqual(shown[0], "hello")
        return shown[1:]

    def test_one_block_for_a_line(self) -> None:
        self.assertEqual(self.answers("a", "", "b\u2028c", "tree", "words"),
                         ["printed\na\n{latex:$x$}", "", "printed\nb\nc\n{latex:$x$}", "{latex:$\\frac{1}{2}$}", "a < b\nc"])

    def test_a_picture_has_its_bytes(self) -> None:
        self.assertEqual(self.answers("picture", "a"), ["{image/svg+xml:<svg></svg>}", "printed\na\n{latex:$x$}"])

    def test_a_line_that_leaves_a_block_open(self) -> None:
        reported = self.answers("open", "mine")
        self.assertIn("half\n[the line isn't complete, or reads input", reported[0])
        self.assertEqual(reported[1], "printed\nmine\n{latex:$x$}")

    def test_a_plugin_that_ends(self) -> None:
        self.assertEqual(self.answers("a", "die")[-1], "ended")


class Trees(unittest.TestCase):
    def test_formulas(self) -> None:
        for tree, wanted in (
            ('(with "mode" "math" (concat "x" (rsup "2") (rsub "i") "+<alpha>"))', "$x^{2}_{i}+\\alpha$"),
            ('(equation* (document (sqrt "2")))', "$\\sqrt{2}$"),
            ('(with "mode" "math" (sqrt "x" "3"))', "$\\sqrt[3]{x}$"),
            ('(math (concat (left "(") (tabular* (tformat (table (row (cell "1") (cell "2")) (row (cell "3") (cell "4"))))) (right ")")))', "$\\left(\\begin{matrix}1&2\\\\ 3&4\\end{matrix}\\right)$"),
            ('(math (matrix (tformat (table (row (cell "1"))))))', "$\\begin{pmatrix}1\\end{pmatrix}$"),
            ('(math (concat (big "sum") (rsub "1") "abc_%"))', "$\\sum _{1}\\mathrm{abc}\\_\\%$"),
            ('(with "color" "red" (math "\\"<less>"))', '$"<$'),
        ):
            with self.subTest(tree=tree):
                self.assertEqual(texmacs_trees.formula(tree), wanted)

    def test_what_is_no_formula(self) -> None:
        for tree in ('(document "a" "b")', '"a"', "(math", "(math (unknown \"x\"))", "", "(" * 5000, '(math (around* "("))'):
            with self.subTest(tree=tree[:20]):
                self.assertIsNone(texmacs_trees.formula(tree))
                texmacs_trees.as_text(tree)

    def test_a_prompt_outside_of_blocks(self) -> None:
        """As Lisp's plugin writes it: a byte 5 ends it, which may come later."""
        stream, group = texmacs_blocks.Stream(), texmacs_blocks.Group()
        for piece in (b"\n2\n\x02channel:prompt\x05CLi", b"sp> \x05"):
            for is_block, data in stream.add(piece):
                group.take(is_block, data)
        self.assertEqual((group.prompt, [part.text.strip() for part in group.parts]), (b"CLisp> ", [b"2"]))

    def test_values_of_axiom(self) -> None:
        written = (b"$\\displaystyle\n{ \\frac{1}{3}} \\leqno(2)$", b"\\axiomtype{Polynomial(Fraction(Integer))\n}")
        self.assertEqual([texmacs_blocks.formula(text).text for text in written], [b"${ \\frac{1}{3}} $", b"Polynomial(Fraction(Integer))"])

    def test_streams_cut_anywhere(self) -> None:
        data = b"a\x02verbatim:b\x02latex:$x$\x05\x1b\x05c\x05d\x02prompt#> \x05"
        whole = texmacs_blocks.Stream().add(data)
        for at in range(len(data)):
            stream = texmacs_blocks.Stream()
            found = stream.add(data[:at]) + stream.add(data[at:])
            self.assertEqual(b"".join(piece for _, piece in found), data)
            self.assertEqual([piece for is_block, piece in found if is_block], [piece for is_block, piece in whole if is_block])


if __name__ == "__main__":
    unittest.main()
