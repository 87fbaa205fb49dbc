"""Lines for the plugins of TeXmacs, with what their outputs are; as those in `cases.py`. After each stands a numbered line, too."""
from typing import Dict, List, NamedTuple

from gp_lines import Line
from odd_lines import ODD_LINES

SAID = "[the line isn't complete, or reads input: "


class Lines(NamedTuple):
    """What is tried of a plugin."""

    cases: List[Line]
    number: str  # a numbered line
    numbered: str  # its answer
    busy: str  # a line without an end
    leaving: str = ""  # one that ends it
    odd: str = ""  # whose odd lines it gets, too
    further: List[str] = []


FRICAS = [
    "x + 1", "D(x^3, x)", "integrate(x, x)", "1/3 + 1/4", "sqrt 8", "[1, 2, 3]", "matrix [[1, 2], [3, 4]]", "factor(x^2 - 1)", "nothing(3)", "f n == n^2", "f 3", "f(", "(1 +", ")", "\"open", "-- a remark", "1 + _", "a := 5", "a", ")clear all", "a",
    "error \"boo\"", "1/0", "for i in 1..3 repeat output i", "output \"text\"", "2^200", "true", "\"text\"", "[i for i in 1..100]", ")set messages autoload off", ")show Integer", ")help", ")nonsense", "%", "%%(1)", "solve(x^2 = 4, x)", "series(sin x, x = 0)",
    "limit(1/x, x = 0)", "if true then 1 else 2", "(x +-> x + 1) 2", "[",
]
LISP = [
    "(list 1 2)", "'a", "\"text\"", "(print 5)", "(defun f (n) (* n n))", "(f 3)", "(f", ")", "(+ 1 2", "\"open", "; a remark", "#| open", "nothing", "(nothing 3)", "(error \"boo\")", "(setq a 5)", "a", "(values 1 2)", "(values)",
    "(read)", "(read-line)", "(format t \"two~%lines~%\")", "(loop for i from 1 to 3 collect i)", "(expt 2 200)", "(make-list 500 :initial-element 1)", "(car '(1 . 2))", "1 2", "(sqrt -1)", "(code-char 5)", "(format t \"~a\" (code-char 2))", ":q", "(/ 1 3)",
    "(throw 'a 1)", "(symbol-function 'car)", "*", "(let ((x 1)) x)",
]
TIKZ = [r"\draw (0,0) circle (1);", r"\nonsense", "nonsense", r"\draw (0,0) -- ", "{", "}", "", "% a remark", r"\node at (0,0) {\'e};", r"\draw[red] (0,0) rectangle (2,1);"]
XYPIC = [r"\xymatrix{ A \ar[r]^f & B \ar[d] \\ & C }", r"\nonsense", r"\xymatrix{", "}", "", "% a remark", "text"]
DRATEX = [r"\Draw \Line(10,20) \EndDraw", r"\nonsense", r"\Draw", "}", "", "text"]
EUKLEIDES = ["A B C triangle; draw (A.B.C)", "nonsense", "draw(", "", "% a remark", "A = point(1, 2)\u2028draw(A)", "}"]
PLANTUML = ["A -> B: hi", "nonsense", "@startuml\u2028A --> B\u2028@enduml", "@startuml", "", "' a remark", "@startuml\u2028class A\u2028@enduml"]
GRAPHVIZ = ["digraph { a -> b }", "graph { a -- b }", "nonsense", "digraph {", "}", "", "%dot", "help", "digraph { a -> b -> c }", "%neato\u2028graph { a -- b }"]

GRAPH = ["gnuplot", "plot sin(x)", "foo", "plot [0:", "plot x**2", "dot", "graph { a -- b }", "digraph {", "}", "", "%gnuplot\u2028plot x", "%gnuplot -output png\u2028plot x", "%dot\u2028digraph { a -> b }", "%neato\u2028graph { a -- b }", "%nonsense", "%mermaid", "%latex\u2028text",
         "%pdflatex\u2028text", "%", "circo", "graph { a -- b -- c -- a }", "twopi", "digraph { a -> b -> c }", "fdp", "graph { a }", "sfdp", "osage", "patchwork", "digraph { subgraph cluster_a { a } }", "dot", "help", "# a remark", "quit", "exit", "digraph { a [label=\"two\\nlines\"] }", "digraph { \u00e9 -> \u4e2d }"]
SCILAB = [
    "x = [1 2; 3 4]", "inv(x)", "x'", "det(x)", "1:5", "y = 5;", "y", "nothing(3)", "f(", "(1 +", ")", "'open", "// a remark", "if %t then", "disp(1)\u2028disp(2)", "function z = g(w)\u2028z = w + 1\u2028endfunction", "g(3)", "for i = 1:3, disp(i), end", "for i = 1:3", "%pi", "sqrt(-1)", "%t",
    "string(5)", "p = poly([1 2], 'p')", "1/p", "list(1, 'a')", "input('a')", "error('boo')", "zeros(20, 20)", "mprintf('%s', ascii(2))", "mprintf('two\\nlines\\n')", "unix('echo a')", "1;2", "ans", "[]",
]

LINES: Dict[str, Lines] = {
    "python": Lines(
        [("1 + 1", "2"), ("print('a')", "a"), ("x = 5", ""), ("x", "5"), ("for i in range(2):\u2028    print(i)", "0\n1"), ("1/0", "..ZeroDivisionError"), ("", ""), ("input()", "..")],
        "'n%d'", "n%d", "while True: pass", "import os; os._exit(0)", "python"),
    "sympy": Lines(
        [("from sympy import Symbol", ""), ("x = Symbol('x')", ""), ("x**2/3", "{latex:$\\frac{x^{2}}{3}$}"), ("1/0", "..ZeroDivisionError"), ("", "")],
        "'n%d'", "n%d", "while True: pass", "import os; os._exit(0)", "", [f"x**{n}/{n}" for n in range(1, 20)] + ["f(", "'open", "(1 +", "undefined", "input()", "print(1)", "x + 1", "x == x", "None", "# a", "Symbol('alpha')**2", "[x, x]"]),
    "octave": Lines(
        [("1 + 1", "{latex:$2$}"), ("[1 2; 3 4]", "{latex:$\\begin{pmatrix}1&2\\\\ 3&4\\end{pmatrix}$}"), ("error (\"boo\")", "..boo"), ("nothing", "..undefined"), ("if true", "..parse error"), ("disp (5)", "..5"), ("", "")],
        "printf (\"n%d\\n\")", "n%d", "while true, end", "exit", "octave"),
    "maxima": Lines(
        [("1 + 1", "{latex:$\\displaystyle (\\mathtt{\\%o1})\\;2$}"), ("1/0", "..expt: undefined: 0 to a negative exponent."), ("a: 5$", ""), ("(1 +", "..incorrect syntax"), ("matrix([1, 2], [3, 4])", "..\\begin{pmatrix}1"), ("nonsense(", "..incorrect syntax")],
        "print(\"n%d\")$", "..{ n%d }", "while true do 0;", "quit();", "maxima"),
    "r": Lines(
        [("1 + 1", "[1] 2"), ("stop(\"boo\")", "..Error: boo"), ("x <- 5", ""), ("x", "[1] 5"), ("f(", ".." + SAID), ("nothing", "..not found")],
        "cat(\"n%d\\n\")", "n%d", "while (TRUE) 0", "q(\"no\")", "", ODD_LINES["R"][34:70]),
    "shell": Lines(
        [("echo hi", "hi"), ("ls /nonexistent", "..No such file"), ("x=5", ""), ("echo $x", "5"), ("if true", ".." + SAID), ("cat", ".." + SAID), ("echo again", "again")],
        "echo n%d", "n%d", "while :; do :; done", "", "sh"),
    "pari": Lines(
        [("1 + 1", "{latex:$\\%1 = 2$}"), ("1/0", "..impossible inverse"), ("[1, 2; 3, 4]", "..\\begin{pmatrix}1&2\\\\3&4\\end{pmatrix}"), ("print(\"a\")", "a"), ("{1 +", ".." + SAID), ("", "")],
        "print(\"n%d\")", "n%d", "while (1, )", "\\q", "gp"),
    "yacas": Lines(
        [("1 + 1", "{latex:$2$}"), ("x^2 / 3", "..\\frac{x ^{2}}{3}"), ("(1 +", "..Error"), ("", "")],
        "%d + 1000000", "", "While(True) a := 1;", "", "yacas"),
    "fricas": Lines(
        [("1 + 1", "..{latex:$2$}"), ("1/0", "..division by zero"), ("x^2 / 3", "..{latex:$\\frac{1}{3}*x^{2}$}"), ("(1 +", "..syntax error"), ("", "")],
        "output \"n%d\"", "", "while true repeat 0", "", "", FRICAS),
    "giac": Lines(
        [("1 + 1", "{latex:$2$}"), ("x^2 / 3", "{latex:$\\frac{x^{2}}{3}$}"), ("[[1, 2], [3, 4]]", "{latex:$\\begin{pmatrix}1&2\\\\ 3&4\\end{pmatrix}$}"), ("(1 +", "..syntax error"), ("", "..")],
        "%d + 1000000", "", "while (true) { a := 1 }", "", "giac"),
    "gnuplot": Lines(
        [("plot sin(x)", "..{image/")], "set title \"n%d\"; plot x", "..n%d", "while (1) { x = 1 }", "", "", ["plot x", "plot x**2", "foo", "plot [0:", "print 1", "%gnuplot -output png\u2028plot x", "splot x*y", "reset", "# a remark", "plot 'nothing'"]),
    "graphviz": Lines([("digraph { a -> b }", "..{image/")], "digraph { n%d }", "", "", "", "", GRAPHVIZ),
    "graph": Lines([("digraph { a -> b }", "..{image/"), ("nonsense", "..syntax error"), ("%nothing", "..No such Graphs backend")], "%%dot\u2028digraph { n%d }", "", "", "", "", GRAPH),
    "scilab": Lines(
        [("1 + 1", "..2."), ("error(\"boo\")", "..boo"), ("nothing", "..Undefined variable: nothing"), ("x = poly(0, \"x\"); 1/(1 + x)", "..{latex:$\\frac{1}{1+x}$}"), ("", "")],
        "mprintf(\"n%d\\n\")", "n%d", "while %t, end", "exit", "", SCILAB),
    "tikz": Lines([(r"\draw (0,0) -- (1,1);", "..{image/"), (r"\nonsense", "..Undefined control sequence")], r"\node at (0,0) {n%d};", "", "", "", "", TIKZ),
    "xypic": Lines([(r"\xymatrix{ A \ar[r] & B }", "..{image/"), (r"\nonsense", "..Undefined control sequence")], r"\xymatrix{ n%d \ar[r] & B }", "", "", "", "", XYPIC),
    "dratex": Lines([(r"\Draw \LineTo(30,30) \EndDraw", "..{image/"), (r"\nonsense", "..Undefined control sequence")], r"\Draw \LineTo(30,%d) \EndDraw", "", "", "", "", DRATEX),
    "eukleides": Lines([("A B C triangle; draw (A.B.C)", "..{image/")], "r = %d; A B C triangle; draw (A.B.C)", "", "", "", "", EUKLEIDES),
    "plantuml": Lines([("@startuml\u2028A -> B: hi\u2028@enduml", "..{image/")], "@startuml\u2028A -> B: n%d\u2028@enduml", "", "", "", "", PLANTUML),
    "axiom": Lines(
        [("1 + 1", "{latex:$2 $}\nPositiveInteger"), ("1/0", "..division by zero"), ("x^2 / 3", ".."), ("(1 +", "..syntax error"), ("", "")],
        "output \"n%d\"", "..n%d", "while true repeat 0", "", "", FRICAS),
    "lisp": Lines(
        [("(+ 1 1)", "2"), ("(/ 1 0)", "..division by zero"), ("(+ 1", ".." + SAID), ("", "")],
        "(format nil \"n%d\")", "..\"n%d\"", "(loop)", "(quit)", "", LISP),
    "macaulay2": Lines([("1 + 1", "..2"), ("1/0", ".."), ("R = QQ[x, y]", "..R")], "print \"n%d\"", "..n%d", "while true do 0", "exit 0", "M2"),
}


def odd_lines(name: str) -> List[str]:
    """Forty lines at the most, beside the cases."""
    lines = LINES[name]
    return [*lines.further, *ODD_LINES.get(lines.odd, [])][:max(0, 40 - len(lines.cases))]


def expected(name: str) -> str:
    """The answer to a numbered line that is a value."""
    return {"yacas": "{latex:$1%06d$}", "giac": "{latex:$1%06d$}", "fricas": "..n%d"}.get(name, "..{image/")
