"""A worksheet as a document of TeXmacs, which `tmhost-import` reads back."""
import os
import random
import subprocess
import sys
import tempfile
import unittest
from typing import List, Tuple

from .support import COMMAND, INTERPRETER, PROGRAM, ROOT, WHY, Worksheet
from tmhost_texmacs.trees import formula

IMPORT = os.path.join(ROOT, "clients/import/tmhost-import")
LETTERS = "ab 01  \t<>|\\\\#%$;`'\"{}()[]^_~&=+-*/.,:?!@" + "\u00e9\u00df\u00c5\u0142\u0159\u201c\u2014\u00ab" + "\u03b1\u4e2d\U0001f600\u2264\u00a0"


def fields_of(path: str) -> List[Tuple[str, str]]:
    with Worksheet(path, program=PROGRAM) as sheet:
        return [(field.session, field.input) for field in sheet.fields]


@unittest.skipIf(WHY, WHY)
class Documents(unittest.TestCase):
    def setUp(self) -> None:
        self.folder = tempfile.TemporaryDirectory(prefix="tmhost-texmacs-test.")
        self.addCleanup(self.folder.cleanup)
        self.sheet = os.path.join(self.folder.name, "sheet")

    def exported(self) -> bytes:
        environment = {**os.environ, "TMHOST": PROGRAM}
        return subprocess.run([sys.executable, "-B", COMMAND, "--export", self.sheet], check=True, stdout=subprocess.PIPE, env=environment).stdout

    def read_back(self, document: bytes) -> List[Tuple[str, str]]:
        path, again = os.path.join(self.folder.name, "sheet.tm"), os.path.join(self.folder.name, "again")
        with open(path, "wb") as file:
            file.write(document)
        words = [sys.executable, "-B", IMPORT, "--session", "a=true", "--session", "b=true", path, again]
        subprocess.run(words, check=True, stderr=subprocess.PIPE, env={**os.environ, "TMHOST": PROGRAM})
        return fields_of(again)

    def test_fields_come_back(self) -> None:
        """Inputs of random letters, lines and sessions are the same in a worksheet that is made of the document."""
        seed = int(os.environ.get("TMHOST_SEED", str(random.randrange(1 << 30))))
        chance = random.Random(seed)
        with Worksheet(self.sheet, create=True, program=PROGRAM) as sheet:
            for name in "ab":
                sheet.session(name, INTERPRETER)
            for _ in range(200):
                lines = ["".join(chance.choices(LETTERS, k=chance.randrange(30))) for _ in range(chance.randrange(1, 5))]
                sheet.new(chance.choice("ab"), "\u2028".join(lines))
        wanted = [field for field in fields_of(self.sheet) if field[1]]  # an empty one isn't read
        self.assertEqual(self.read_back(self.exported()), wanted, f"seed {seed}")

    def test_formulas_of_prose(self) -> None:
        """They are TeXmacs' own, and formulas again in what is made of the document; what is none stays."""
        text = "Let $x_{1}$ and $\\frac{1}{2}$ be as in # for 5$ or $ 6 $.\u2028\u2028## On $\\alpha$\u2028\u2028$$x\\leq 2$$"
        with Worksheet(self.sheet, create=True, program=PROGRAM) as sheet:
            sheet.session("prose", ["true"])
            sheet.new("prose", text)
        document = self.exported().decode("latin-1")
        self.assertIn("  Let <math|x<rsub|1>> and <math|<frac|1|2>> be as in # for 5$ or $ 6 $.\n", document)
        self.assertIn("  <\\equation*>\n    x\\<leq\\>2\n  </equation*>\n", document)
        self.assertIn(r"<section*|On <math|\<alpha\>>>", document)
        self.assertEqual(self.read_back(document.encode("latin-1")), [("prose", text)])

    def test_answers_and_text(self) -> None:
        with Worksheet(self.sheet, create=True, program=PROGRAM) as sheet:
            sheet.session("a", INTERPRETER)
            sheet.session("prose", ["true"])
            sheet.new("prose", "## One <two>\u2028\u2028A text with | in it.")
            sheet.new("a", "first <line>").evaluate(60)
            sheet.new("a", "not asked")
        reported = self.exported().decode("latin-1")
        self.assertTrue(reported.startswith("<TeXmacs|2.1.4>\n"))
        self.assertIn("  <section*|One \\<less\\>two\\<gtr\\>>\n", reported)
        self.assertIn("  A text with \\| in it.\n", reported)
        self.assertIn("    <|unfolded-io>\n      first \\<less\\>line\\<gtr\\>\n    <|unfolded-io>\n", reported)
        self.assertIn("    <|input>\n      not asked\n    </input>\n", reported)
        self.assertEqual(reported.count("<\\session|tmhost|a>"), 1)

    @unittest.skipUnless(os.path.exists("/dev/full"), "there is no /dev/full")
    def test_what_cannot_be_written(self) -> None:
        """On a full disk a line says why. Of a pipe whose reader has gone nothing is said: that has seen enough."""
        with Worksheet(self.sheet, create=True, program=PROGRAM) as sheet:
            sheet.session("a", INTERPRETER)
            sheet.new("a", "x")
        reader, writer = os.pipe()
        os.close(reader)
        with open("/dev/full", "wb") as full, os.fdopen(writer, "wb") as gone:
            for output, said in ((full, "tmhost-texmacs: No space left on device\n"), (gone, "")):
                for words in (["--help"], ["--list"], ["--export", self.sheet]):
                    with self.subTest(words, said=said):
                        done = subprocess.run([sys.executable, "-B", COMMAND, *words], stdout=output, stderr=subprocess.PIPE, text=True, env={**os.environ, "TMHOST": PROGRAM})
                        self.assertEqual((done.returncode, done.stderr), (1, said))


class Formulas(unittest.TestCase):
    def test_trees(self) -> None:
        wanted = {
            r"$\frac{1}{2}\,x^2$": "<math|<frac|1|2>x<rsup|2>>", r"$x_{10}^{k}$": "<math|x<rsub|10><rsup|k>>", r"$\sqrt{\alpha}$": r"<math|<sqrt|\<alpha\>>>",
            r"$\begin{pmatrix}1&2\\ 3&4\end{pmatrix}$": "<math|<matrix|<tformat|<table|<row|<cell|1>|<cell|2>>|<row|<cell|3>|<cell|4>>>>>>",
            r"$\left(a<b\right)$": r"<math|<around*|(|a\<less\>b|)>>", r"$\left.\frac{1}{2}\right]$": r"<math|<around*|\<nobracket\>|<frac|1|2>|]>>", r"$\%1 = 5$": "<math|%1=5>",
        }
        self.assertEqual({text: formula(text) for text in wanted}, wanted)

    def test_what_is_not_known_stays_text(self) -> None:
        for text in ("x", "$\\unknown{1}$", "$\\frac{1}$", "$a}$", "${a$", "$\\begin{pmatrix}1$", "$a^$", "$a&b$", "$\\left(a$", "$a\\right)$"):
            self.assertIsNone(formula(text), text)
