"""Documents of GNU TeXmacs."""
from .support import Case, Done

DOCUMENT = """<TeXmacs|2.1.4>

<style|generic>

<\\body>
  <section|Sums of \\<alpha\\>>

  A text with a <em|word> in it, and <math|x<rsup|2>>.

  <\\session|python|default>
    <\\output>
      Python 3.13
    </output>

    <\\unfolded-io>
      <with|tmhost-field|1|\\<gtr\\>\\<gtr\\>\\<gtr\\> >
    <|unfolded-io>
      def f(n):

      \\ \\ \\ \\ return n \\<less\\> 2 \\| n == 'caf\xe9 \\<alpha\\> \\<#4E2D\\> \\\\\\\\'
    <|unfolded-io>
      <with|color|red|some <strong|output>>
    </unfolded-io>

    <\\textput>
      between
    </textput>

    <\\input|\\<gtr\\>\\<gtr\\>\\<gtr\\> >
      \\;
    </input>
  </session>

  <\\session|tmhost|gp:mx0jwi8k>
    <\\unfolded-io>
      ?\\ 
    <|unfolded-io>
      factor(12)
    <|unfolded-io>
      2
    </unfolded-io>

    <\\input>
      ?\\ 
    <|input>
      %tmhost show
    </input>
  </session>

  <\\session|maxima|one>
    <\\input>
      (%i1)\\ 
    <|input>
      1/3;
    </input>
  </session>
</body>

<\\initial>
  <\\collection>
    <associate|page-medium|papyrus>
  </collection>
</initial>
"""


MARKUP = """<TeXmacs|2.1.4>

<style|generic>

<\\body>
  <doc-data|<doc-title|Sums>>

  A <em|word>, <with|font-series|bold|color|red|a bold one>, <verbatim|f(x)>, <hlink|a page|https://example.org> and <TeXmacs>.

  In a line: <math|x<rsub|1><rsup|2>+sin x\\<leq\\>2*<sqrt|y|3>> and <math|<big|sum><rsub|n\\<in\\>\\<bbb-N\\>><around*|(|a<rsub|n>|)><rprime|'>>.

  <\\equation*>
    \\<alpha\\>=<frac|1|1+<wide|x|^>>
  </equation*>

  <\\eqnarray*>
    <tformat|<table|<row|<cell|f>|<cell|=>|<cell|<matrix|<tformat|<table|<row|<cell|1>|<cell|0>>|<row|<cell|0>|<cell|1>>>>>>>|<row|<cell|>|<cell|\\<neq\\>>|<cell|100%>>>>
  </eqnarray*>

  <math|<strange|a|b>>

  <\\itemize>
    <item>one

    <item>two <image|<tuple|<#3C737667>|svg>|0.6par|||>
  </itemize>

  <tabular|<tformat|<table|<row|<cell|n>|<cell|value>>|<row|<cell|1>|<cell|<math|x<rsup|2>>>>>>>

  <\\python-code>
    def f():

    \\ \\ return 1
  </python-code>

  <script-input|python|default|1+1|2>

  <\\session|python|default>
    <\\input-math>
      \\<gtr\\>\\<gtr\\>\\<gtr\\>\\ 
    <|input-math>
      a\\<leq\\>x<rsup|2>+<frac|1|<sqrt|b>>\\<times\\><around*|(|c+1|)>
    </input-math>

    <\\unfolded-io-math>
      \\<gtr\\>
    <|unfolded-io-math>
      <big|sum>n
    <|unfolded-io-math>
      6
    </unfolded-io-math>
  </session>

  <\\session|maxima|default>
    <\\input-math>
      (%i1)\\ 
    <|input-math>
      x<rsup|2>+\\<alpha\\>;
    </input-math>
  </session>
</body>
"""


class TeXmacs(Case):
    def read(self, text: str, *words: str) -> Done:
        return self.do("--script", *words, self.write("sheet.tm", text.encode("latin-1")))

    def test_sessions_and_text(self) -> None:
        done = self.read(DOCUMENT)
        self.assertEqual(done.status, 0, done.errors)
        self.assertIn("new 0 prose ## Sums of \u03b1\u2028\u2028A text with a *word* in it, and $x^{2}$.\n", done.out)
        self.assertIn(" python def f(n):\u2028    return n < 2 | n == 'caf\u00e9 \u03b1 \u4e2d \\\\'\n", done.out)
        self.assertIn(" gp factor(12)\n", done.out)
        self.assertIn(" one 1/3;\n", done.out)
        self.assertIn("tmhost-maxima", done.out)
        self.assertNotIn("%tmhost", done.out)
        self.assertIn("outputs: 2", done.errors)

    def test_markup_and_formulas(self) -> None:
        done = self.read(MARKUP)
        self.assertEqual(done.status, 0, done.errors)
        prose = [line.partition(" prose ")[2].split("\u2028") for line in done.out.split("\n") if line.startswith("new ") and " prose " in line]
        wanted = [
            "# Sums", "A *word*, **a bold one**, `f(x)`, [a page](https://example.org) and TeXmacs.",
            r"In a line: $x_{1}^{2}+\sin x\leq 2 \sqrt[3]{y}$ and $\sum _{n\in \mathbb{N}}\left(a_{n}\right)^{\prime }$.",
            r"$$\alpha =\frac{1}{1+\widehat{x}}$$",
            r"$$\begin{aligned}f & = \begin{pmatrix}1 & 0 \\ 0 & 1\end{pmatrix} \\ & \neq 100\%\end{aligned}$$",
            r"$\mathrm{strange}(a, b)$", "- one", "- two", "| n | value |", "|---|---|", "| 1 | $x^{2}$ |", "```python", "def f():", "  return 1", "```",
        ]
        self.assertEqual([line for line in prose[0] if line], wanted)
        self.assertIn(" python 1+1\n", done.out)
        self.assertIn(" python a<=x**(2)+(1)/(sqrt(b))*(c+1)\n", done.out)
        self.assertIn(" maxima x^(2)+alpha;\n", done.out)
        self.assertIn("inputs with formulas of which no code is known: 1", done.errors)
        self.assertIn("pictures: 1", done.errors)
        self.assertIn("words of TeXmacs in formulas that stand by their names: 1", done.errors)

    def test_without_text(self) -> None:
        self.assertNotIn("prose", self.read(DOCUMENT, "--no-prose").out)

    def test_no_document(self) -> None:
        done = self.read("<html>")
        self.assertEqual(done.status, 1)
        self.assertIn("doesn't begin with <TeXmacs|", done.errors)
