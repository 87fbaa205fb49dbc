"use strict";
// Formulas as interpreters wrote them, and what is to be seen of each: typed in by hand, from the TeX.
//
// `text` is all that is drawn, without blanks. `has` names parts of the formula, each as the texts of its own parts; of a table (`rows`)
// the texts of its cells. `words` stand around the formulas as text.

/** @typedef {{from: string, tex: string, text: string, has?: Record<string, string[][]>, rows?: string[][], words?: string}} Formula */

/** @type {Formula[]} */
const GP = [
  { from: "gp", tex: "\\magenta\\%1 = $\\blue 2$", words: "%1 = ", text: "2", has: { mn: [["2"]] } },
  {
    from: "gp", tex: "\\magenta\\%2 = $\\blue \\frac{1}{3}\\*x^2\n + 1$", words: "%2 = ", text: "13x2+1",
    has: { mfrac: [["1", "3"]], msup: [["x", "2"]], mo: [["+"]] },
  },
  { from: "gp", tex: "\\magenta\\%3 = $\\blue \\pmatrix{\n 2&2\\cr\n 3&1\\cr\n }$", words: "%3 = ", text: "(2231)", rows: [["2", "2"], ["3", "1"]] },
  { from: "gp", tex: "\\magenta\\%5 = $\\blue a b$", words: "%5 = ", text: "ab", has: { mi: [["a"], ["b"]] } },
  { from: "gp", tex: "\\magenta\\%6 = $\\blue \\frac{z\n + 1}{z\n - 1}$", words: "%6 = ", text: "z+1z−1", has: { mfrac: [["z+1", "z−1"]] } },
  {
    from: "gp", tex: "\\magenta\\%7 = $\\blue 1.4142135623730950488016887242096980786+ O(x^3)$", words: "%7 = ",
    text: "1.4142135623730950488016887242096980786+O(x3)", has: { mn: [["1.4142135623730950488016887242096980786"], ["3"]] },
  },
  {
    from: "gp", tex: "\\magenta\\%8 = $\\blue x\n - \\frac{1}{6}\\*x^3\n + \\frac{1}{120}\\*x^5+ O(x^6)$", words: "%8 = ", text: "x−16x3+1120x5+O(x6)",
    has: { mfrac: [["1", "6"], ["1", "120"]], msup: [["x", "3"], ["x", "5"], ["x", "6"]] },
  },
  { from: "gp", tex: "\\magenta\\%9 = $\\blue (t)\\mapsto t^2$", words: "%9 = ", text: "(t)↦t2", has: { msup: [["t", "2"]] } },
  { from: "gp", tex: "\\magenta\\%10 = $\\blue \\pmatrix{ 1\\cr\n4\\cr\n27\\cr\n}$", words: "%10 = ", text: "(1427)", rows: [["1"], ["4"], ["27"]] },
  { from: "gp", tex: "\\magenta\\%13 = $\\blue x_{[1]}\n + 1$", words: "%13 = ", text: "x[1]+1", has: { msub: [["x", "[1]"]] } },
  { from: "gp", tex: "\\magenta\\%15 = $\\blue \\pmatrix{ 1&s&x\\cr}\n$", words: "%15 = ", text: "(1sx)", rows: [["1", "s", "x"]] },
  { from: "gp", tex: "\\magenta\\%21 = $\\blue +\\infty$", words: "%21 = ", text: "+∞" },
  { from: "gp", tex: "$\\%2 = \\frac{1}{3}\\,x^2 + 1$", text: "%2=13x2+1", has: { mfrac: [["1", "3"]], msup: [["x", "2"]] } },
  { from: "gp", tex: "$\\%3 = \\begin{pmatrix}2&2\\\\ 3&1\\end{pmatrix}$", text: "%3=(2231)", rows: [["2", "2"], ["3", "1"]] },
];

/** @type {Formula[]} */
const MAXIMA = [
  { from: "Maxima", tex: "$${{x^2}\\over{3}}+1$$", text: "x23+1", has: { mfrac: [["x2", "3"]], msup: [["x", "2"]] } },
  {
    from: "Maxima", tex: "$${{\\log \\left(x+1\\right)\n }\\over{3}}$$", text: "log(x+1)3",
    has: { mfrac: [["log(x+1)", "3"]], mi: [["log"], ["x"]], mspace: [[]] },
  },
  {
    from: "Maxima",
    tex: "$$\\ifx\\endpmatrix\\undefined\\pmatrix{\\else\\begin{pmatrix}\\fi 1&2\\cr 3&\n 4\\cr \\ifx\\endpmatrix\\undefined}\\else\\end{pmatrix}\\fi $$",
    text: "(1234)", rows: [["1", "2"], ["3", "4"]],
  },
  {
    from: "Maxima", tex: "$$\\sum_{k=1}^{\\infty }{{{1}\\over{k^2}}}$$", text: "∑k=1∞1k2",
    has: { munderover: [["∑", "k=1", "∞"]], mfrac: [["1", "k2"]] },
  },
  { from: "Maxima", tex: "$$\\sqrt{2}\\,\\pi$$", text: "2π", has: { msqrt: [["2"]], mi: [["π"]] } },
  { from: "Maxima", tex: "$$\\int_{0}^{\\infty }{e^ {- x^2 }\\;dx}$$", text: "∫0∞e−x2dx", has: { msubsup: [["∫", "0", "∞"]], msup: [["e", "−x2"], ["x", "2"]] } },
  {
    from: "Maxima", tex: "$$\\lim_{x\\rightarrow 0}{{{\\sin x}\\over{x}}}$$", text: "limx→0sinxx",
    has: { munder: [["lim", "x→0"]], mfrac: [["sinx", "x"]] },
  },
  { from: "Maxima", tex: "$${{d^2}\\over{d\\,x^2}}\\,f\\left(x\\right)=0$$", text: "d2dx2f(x)=0", has: { mfrac: [["d2", "dx2"]] } },
  { from: "Maxima", tex: "$$x-{{x^3}\\over{6}}+{{x^5}\\over{120}}+\\cdots $$", text: "x−x36+x5120+⋯", has: { mfrac: [["x3", "6"], ["x5", "120"]] } },
  { from: "Maxima", tex: "$$\\mbox{ a \\& b }$$", text: "a&b", has: { mtext: [["a&b"]] } },
  { from: "Maxima", tex: "$$\\left[ a_{1} , b , c \\right] $$", text: "[a1,b,c]", has: { msub: [["a", "1"]] } },
  { from: "Maxima", tex: "$$x\\geq 1\\land \\neg y$$", text: "x≥1∧¬y" },
  { from: "Maxima", tex: "$${\\it bessel\\_j}\\left(0 , x\\right)$$", text: "bessel_j(0,x)" },
  { from: "Maxima", tex: "$$\\mathbf{if}\\;x>0\\;\\mathbf{then}\\;1$$", text: "𝐢𝐟x>0𝐭𝐡𝐞𝐧1" },
  { from: "Maxima", tex: "$${{n}\\choose{k}}$$", text: "(nk)", has: { mfrac: [["n", "k"]] } },
  { from: "Maxima", tex: "$$1.5 \\times 10^{-10}$$", text: "1.5×10−10", has: { msup: [["0", "−10"]] } },
];

/** @type {Formula[]} */
const MACAULAY2 = [
  { from: "Macaulay2", tex: "$\\left(\\!\\begin{array}{cc}\nx&y\\\\\n1&2\n\\end{array}\\!\\right)$", text: "(xy12)", rows: [["x", "y"], ["1", "2"]] },
  { from: "Macaulay2", tex: "$\\frac{1}{3}x^{2}+y$", text: "13x2+y", has: { mfrac: [["1", "3"]], msup: [["x", "2"]] } },
  { from: "Macaulay2", tex: "$\\texttt{ideal}{}\\left(x^{2},\\,y\\right)$", text: "ideal(x2,y)", has: { mtext: [["ideal"], [""]] } },
  {
    from: "Macaulay2",
    tex: "$\\underset{\\vphantom{\\Big|}0}{R^{1}}\\,\\xleftarrow{\\left(\\!\\begin{array}{cc}\ny&x^{2}\n\\end{array}\\!\\right)}\\,\\underset{\\vphantom{\\Big|}1}{R^{2}}$",
    text: "R1|0←(yx2)R2|1", rows: [["y", "x2"]], has: { munder: [["R1", "|0"], ["R2", "|1"]], mover: [["←", "(yx2)"]], mphantom: [["|"], ["|"]] },
  },
  { from: "Macaulay2", tex: "$R$", text: "R" },
  { from: "Macaulay2", tex: "$\\left\\{1,\\:2\\right\\}$", text: "{1,2}" },
  { from: "Macaulay2", tex: "${1.41421}$", text: "1.41421", has: { mn: [["1.41421"]] } },
  { from: "Macaulay2", tex: "$2\\,\\texttt{P}_{0}$", text: "2P0", has: { msub: [["P", "0"]] } },
  { from: "Macaulay2", tex: "$\\texttt{HashTable}\\left\\{a\\ \\Rightarrow \\ 1\\right\\}$", text: "HashTable{a⇒1}" },
];

/** @type {Formula[]} */
const GIAC = [
  { from: "giac", tex: "$\\frac{x^{2}}{3}+1$", text: "x23+1", has: { mfrac: [["x2", "3"]] } },
  {
    from: "giac", tex: "$-\\frac{1}{3} \\sqrt{3} \\arctan \\left(-\\frac{x-\\frac1{2}}{\\frac{\\sqrt{3}}{2}}\\right)+\\frac{\\ln \\left|x+1\\right|}{3}$",
    text: "−133arctan(−x−1232)+ln|x+1|3",
    has: { mfrac: [["1", "3"], ["x−12", "32"], ["1", "2"], ["3", "2"], ["ln|x+1|", "3"]], msqrt: [["3"], ["3"]] },
  },
  { from: "giac", tex: "$\\left[\\begin{array}{cc}1&2\\\\3&4\\end{array}\\right]$", text: "[1234]", rows: [["1", "2"], ["3", "4"]] },
  { from: "giac", tex: "$\\frac{1}{6} \\pi ^{2}$", text: "16π2", has: { mfrac: [["1", "6"]], msup: [["π", "2"]] } },
  { from: "giac", tex: "$\\pi  \\sqrt{2}$", text: "π2", has: { msqrt: [["2"]] } },
  { from: "giac", tex: "$\\left[2^{\\frac{1}{3}}\\right]$", text: "[213]", has: { msup: [["2", "13"]], mfrac: [["1", "3"]] } },
  { from: "giac", tex: "$\\left(x-1\\right) \\left(x+1\\right)$", text: "(x−1)(x+1)" },
  { from: "giac", tex: "$x\\geq 1\\wedge y$", text: "x≥1∧y" },
  { from: "giac", tex: "$\\text{``a string''}$", text: "“astring”" },
  { from: "giac", tex: "$x\\mapsto x^{2}+1$", text: "x↦x2+1" },
  { from: "giac", tex: "$\\frac{\\cos x\\cdot x-\\sin x}{x^{2}}$", text: "cosx⋅x−sinxx2", has: { mfrac: [["cosx⋅x−sinx", "x2"]] } },
];

/** @type {Formula[]} */
const SYMPY = [
  { from: "sympy", tex: "$\\frac{x^{2}}{3} + 1$", text: "x23+1", has: { mfrac: [["x2", "3"]] } },
  { from: "sympy", tex: "$\\int \\frac{1}{x^{3} + 1}\\, dx$", text: "∫1x3+1dx", has: { mfrac: [["1", "x3+1"]] } },
  {
    from: "sympy", tex: "$\\frac{\\sqrt{3} \\operatorname{atan}{\\left(\\frac{2 \\sqrt{3} x}{3} \\right)}}{3}$", text: "3atan(23x3)3",
    has: { mfrac: [["3atan(23x3)", "3"], ["23x", "3"]], msqrt: [["3"], ["3"]] },
  },
  { from: "sympy", tex: "$\\left[\\begin{matrix}1 & 2\\\\3 & 4\\end{matrix}\\right]$", text: "[1234]", rows: [["1", "2"], ["3", "4"]] },
  { from: "sympy", tex: "$\\left[ \\sqrt[3]{2}, \\  - \\frac{\\sqrt[3]{2}}{2}\\right]$", text: "[23,−232]", has: { mroot: [["2", "3"], ["2", "3"]] } },
  { from: "sympy", tex: "$\\frac{d^{2}}{d x^{2}} f{\\left(x \\right)}$", text: "d2dx2f(x)", has: { mfrac: [["d2", "dx2"]] } },
  {
    from: "sympy", tex: "$\\lim_{x \\to 0^+}\\left(\\frac{\\sin{\\left(x \\right)}}{x}\\right)$", text: "limx→0+(sin(x)x)",
    has: { munder: [["lim", "x→0+"]], mfrac: [["sin(x)", "x"]] },
  },
  {
    from: "sympy", tex: "$\\begin{cases} x & \\text{for}\\: x > 0 \\\\0 & \\text{otherwise} \\end{cases}$", text: "{xforx>00otherwise",
    rows: [["x", "forx>0"], ["0", "otherwise"]],
  },
  { from: "sympy", tex: "${\\binom{5}{x}}$", text: "(5x)", has: { mfrac: [["5", "x"]] } },
  { from: "sympy", tex: "$J_{0}\\left(x\\right) = y$", text: "J0(x)=y", has: { msub: [["J", "0"]] } },
  { from: "sympy", tex: "$\\left\\{x\\; \\middle|\\; x \\in \\mathbb{R} \\right\\}$", text: "{x|x∈ℝ}", has: { mi: [["x"], ["x"], ["ℝ"]] } },
  { from: "sympy", tex: "$\\left|{x}\\right|$", text: "|x|" },
  { from: "sympy", tex: "$\\overline{x + y}$", text: "x+y" },
  { from: "sympy", tex: "$\\mathbf{\\hat{i}_{N}} + 2$", text: "𝐢^𝐍+2", has: { msub: [["𝐢^", "𝐍"]] } },
  { from: "sympy", tex: "$x \\bmod 2$", text: "xmod2" },
  { from: "sympy", tex: "$\\int\\limits_{0}^{\\infty} f{\\left(x \\right)}\\, dx$", text: "∫0∞f(x)dx", has: { munderover: [["∫", "0", "∞"]] } },
  { from: "sympy", tex: "$größe$", text: "gro¨ße" },
  { from: "sympy", tex: "$x!$", text: "x!" },
];

/** @type {Formula[]} */
const FORMS = [
  { from: "round brackets", tex: "\\(\\frac{a}{b}\\)", text: "ab", has: { mfrac: [["a", "b"]] } },
  { from: "square brackets", tex: "\\[\\frac{a}{b}\\]", text: "ab", has: { mfrac: [["a", "b"]] } },
  { from: "an environment", tex: "\\begin{align*}a&=b\\\\c&=d\\end{align*}", text: "a=bc=d", rows: [["a", "=b"], ["c", "=d"]] },
  { from: "two formulas and words", tex: "x is $\\frac{1}{2}$, and 50\\% of $y$.", words: "x is , and 50% of .", text: "12y", has: { mfrac: [["1", "2"]] } },
  { from: "a dollar in braces", tex: "$\\text{if $x$}$", text: "ifx", has: { mi: [["x"]] } },
  { from: "a dollar of text", tex: "\\$5 is $x$", words: "$5 is ", text: "x" },
  { from: "blanks around", tex: "  $x$ \n", words: "   \n", text: "x" },
  { from: "markup as text", tex: "$a<b \\text{ \"\\&amp;\" }$", text: "a<b\"&amp;\"" },
];

module.exports = { FORMULAS: [...GP, ...MAXIMA, ...MACAULAY2, ...GIAC, ...SYMPY, ...FORMS] };
