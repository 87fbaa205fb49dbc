"""Lines for each adapter with what their outputs are, as `show` prints them; `try` evaluates them.

Of an output that begins with `..` it is what the output has somewhere. A line with True after it is interrupted after a while.
"""
import dataclasses
from typing import Dict, List, Optional, Sequence, Tuple

import gp_lines
from completion_cases import COMPLETING, Completing
from error_cases import ERRORS
from gp_flag_lines import GP_NO_NUMBERS, GP_SECONDS, GP_TEXT, GP_TEXT_NO_NUMBERS
import jupyter_lines
import kernel_lines
from gp_lines import MESSAGE, NO_INPUT, Line as Case, ones
from language_errors import LANGUAGE_ERRORS
from language_lines import LANGUAGES, Lines
from odd_lines import ODD_LINES


def is_wanted(output: str, wanted: str) -> bool:
    return wanted[2:] in output if wanted.startswith("..") else output == wanted


@dataclasses.dataclass(frozen=True)
class Trial:
    """What is tried of an adapter."""

    words: str  # after the folder of the adapters
    program: str  # that has to be here, or a file
    leaving: str  # a line that ends it; empty where none does
    busy: str  # a line without an end
    cases: List[Case]
    odd_lines: Sequence[str] = ()  # what stands between numbered lines, with the cases
    number: str = ""  # a numbered line
    numbered: str = "n%d"  # its answer
    drawing: Sequence[Tuple[str, str]] = ()  # lines that draw, and what their answers are, with a picture's format in braces for each
    module: str = ""  # of Python that has to be here, too
    completing: Optional[Completing] = None  # where it answers requests of completions
    failing: Sequence[Tuple[str, str]] = ()  # lines, and what of their answers is marked as an error


# From the manual of gp: 2.1 (errors), 2.5 (lines), 2.7 (metacommands), 2.12 (defaults), 3 (functions).
GP: List[Case] = [
    ("1 + 1", r"{latex:$\%1 = 2$}"),
    ("% + 1", r"{latex:$\%2 = 3$}"),
    ("%1", r"{latex:$\%3 = 2$}"),
    ("%`", r"{latex:$\%4 = 3$}"),
    ("x^2 / 3 + 1", r"{latex:$\%5 = \frac{1}{3}\,x^2 + 1$}"),
    ("(z + 1) / (z - 1)", r"{latex:$\%6 = \frac{z + 1}{z - 1}$}"),
    ("\\p 9", "   realprecision = 19 significant digits (9 digits displayed)"),
    ("Pi", r"{latex:$\%7 = 3.14159265$}"),
    ("Pi / 10^20", r"{latex:$\%8 = 3.14159265 \cdot 10^{-20}$}"),
    ("2 + 3*I", r"{latex:$\%9 = 2 + 3\,I$}"),
    ("Mod(3, 7)", r"{latex:$\%10 = 3 \bmod 7$}"),
    ("[1, 2; 3, 4]", r"{latex:$\%11 = \begin{pmatrix}1&2\\ 3&4\end{pmatrix}$}"),
    ("[1, 2; 3, 4]^-1", r"{latex:$\%12 = \begin{pmatrix}-2&1\\ \frac{3}{2}&-\frac{1}{2}\end{pmatrix}$}"),
    ("[5, 6]", r"{latex:$\%13 = \begin{pmatrix}5&6\end{pmatrix}$}"),
    ("[5, 6]~", r"{latex:$\%14 = \begin{pmatrix}5\\ 6\end{pmatrix}$}"),
    ("[;]", r"{latex:$\%15 = \begin{pmatrix}\end{pmatrix}$}"),
    ("default(output, 0)", ""),
    ("[1, 2; 3, 4]", r"{latex:$\%17 = \begin{pmatrix}1&2\\ 3&4\end{pmatrix}$}"),
    ('"a b"', '%18 = "a b"'),
    ("f(x) = x^2", "%19 = (x)->x^2"),
    ("f(3)", r"{latex:$\%20 = 9$}"),
    ('["a  b", f]', '%21 = ["a  b",(x)->x^2]'),
    ("y = 5;", ""),
    ("y", r"{latex:$\%23 = 5$}"),
    ("6; 7", r"{latex:$\%24 = 7$}"),
    ('print("a  b"); 8', "a  b\n" r"{latex:$\%25 = 8$}"),
    ('print1("a"); print1("b")', "ab"),
    ("for (i = 1, 3, print(i))", "1\n2\n3"),
    ("", ""),
    ("1/0", "  ***   at top-level: 1/0\n  ***                  ^--\n  *** _/_: impossible inverse in gdiv: 0."),
    ('error("boo")', MESSAGE % ('error("boo")', "^------------", "  user error: boo")),
    ("g(", "..syntax error"),
    ("g(1)", "..not a function"),
    ("{1 + 2", r"{latex:$\%28 = 3$}"),
    ("{1 + 2}", r"{latex:$\%29 = 3$}"),
    ("1 + 3 \\", r"{latex:$\%30 = 4$}"),
    ("h =", "..syntax error"),
    ("/* a remark", "  ***   Warning: run-away comment. Closing it."),
    ("1 + 4 /* a remark */", r"{latex:$\%31 = 5$}"),
    ("1 + 5 \\\\ a remark {", r"{latex:$\%32 = 6$}"),
    ('"a', "..run-away string"),
    ('"a}{"', '%33 = "a}{"'),
    (ones(1_022), r"{latex:$\%34 = 511$}"),
    (ones(1_023), r"{latex:$\%35 = 512$}"),
    (ones(1_024), r"{latex:$\%36 = 512$}"),
    (ones(4_095), r"{latex:$\%37 = 2048$}"),
    ("{" + ones(4_093) + "}", r"{latex:$\%38 = 2047$}"),
    ("print(Strchr([65, 5, 66]))", "A\\x05B"),
    ("print(Strchr([65, 2, 66]))", "A\\x02B"),
    ("Strchr([2, 5, 27])", '%41 = "\\x02\\x05\\e"'),
    ("while (1, )", "..user interrupt", True),
    ("y", r"{latex:$\%42 = 5$}"),
    ("forprime (p = 2, , print(p); for (i = 1, 10^5, ))", "..user interrupt", True),
    ("while (1, )\u2028y = 6", "..user interrupt", True),
    ("{while (1, )}", "..user interrupt", True),
    ("y", r"{latex:$\%43 = 5$}"),
    ("input()", MESSAGE % ("input()", "^-------", "a line has no input of its own")),
    ("y = input() + 1", "..a line has no input of its own"),
    ("iferr(input(), E, 9)", r"{latex:$\%44 = 9$}"),
    ('system("cat"); y', r"{latex:$\%45 = 5$}"),
    ("k(n) = {\u2028  my(s = 0);\u2028  for (i = 1, n,\u2028    if (i % 2,\u2028      s += i,\u2028      s -= i\u2028    )\u2028  );\u2028  s\u2028}",
     "%46 = (n)->my(s=0);for(i=1,n,if(i%2,s+=i,s-=i));s"),
    ("k(10)", r"{latex:$\%47 = -5$}"),
    ("1 + 1\u20282 + 2;\u20283 + 3", "{latex:$\\%48 = 2$}\n{latex:$\\%50 = 6$}"),
    ("1 + 1\u20281/0\u20283 + 3", "{latex:$\\%51 = 2$}\n  ***   at top-level: 1/0\n  ***                  ^--\n  *** _/_: impossible inverse in gdiv: 0."),
    ("a =\u2028  7", r"{latex:$\%52 = 7$}"),
    ("?sin", "sin(x): sine of x."),
    ("#", "   timer = 1 (on)"),
    ("%", r"{latex:$\%53 = 7$}"),
    ("allocatemem(10^7)", "..new stack size = 10000000"),
    ("%1", r"{latex:$\%54 = 2$}"),
    # Brackets hold lines together, where a later line closes them.
    ("[1, 2;\u2028  3, 4]", r"{latex:$\%55 = \begin{pmatrix}1&2\\ 3&4\end{pmatrix}$}"),
    ("for (i = 1, 2, \\\\ a remark (\u2028  print(i);\u2028\u2028  if (i > 1, {\u2028    print(i)\u2028  }))", "1\n2\n2"),
    ("v = [1, \\\u20282, /* a remark (\u2028*/ 3];\u2028#v", r"{latex:$\%58 = 3$}"),
    ("f(a,\u2028  b) = {\u2028  a + b\u2028}\u2028f(1, 2)", "%59 = (a,b)->a+b\n{latex:$\\%60 = 3$}"),
    ("[1, 2\u20283 + 3", "..syntax error"),
    ("??sin", "..sin(x):\n\n   Sine of x. Note that"),
]

M2: List[Case] = [
    ("2 + 2", "4"), ("oo + 1", "5"), ("1 / 3 + x", "..no method for binary operator +"), ("oo", "5"), ("R = QQ[x, y]; ideal(x^2, y)", "        2\nideal (x , y)"),
    ("z = 7;", ""), ("z", "7"), ("1 / 0", "..division by zero"), ("(1 +", "..syntax error"), ('"a  b"', "a  b"), ("print 3", "3"), ("null", ""), ("", ""), ("-- a remark", ""),
    ("1\u20282", "2"), ("while true do 0", "..interrupted", True), ("z", "7"), ('read "x"', NO_INPUT), ('run "cat"', ".." + NO_INPUT), ("z", "7"), ("restart", ""), ("z", "z"),
]

M2_LATEX: List[Case] = [
    ("1 / 3", r"{latex:$\frac{1}{3}$}"), ("oo", r"{latex:$\frac{1}{3}$}"), ("R = QQ[x, y]; x^2 / 3", r"{latex:$\frac{1}{3}x^{2}$}"),
    ("matrix {{x, y}, {1, 2}}", r"{latex:$\left(\!\begin{array}{cc} x&y\\ 1&2 \end{array}\!\right)$}"), ("z = 7;", ""), ('"$a b$"', "$a b$"), ("f = t -> t + 1", "f"),
    ("print x; y", "x\n{latex:$y$}"), ("1 / 0", "..division by zero"), ("{1, 2}", r"{latex:$\left\{1,\:2\right\}$}"), ("", ""),
]

GIAC: List[Case] = [
    ("x^2 / 3 + 1", "x^2/3+1"), ("a := 5", "5"), ("a + 1", "6"), ("2 - 2", "0"), ('"a b"', '"a b"'), ("1 /", "..syntax error"), ("", ""), ("print(3)", "3\n0"),
    ("[[1, 2], [3, a]]", "[[1,2],[3,5]]"), ("while (true) { a := 1 }", "..", True), ("1 + 1", "2"), ("input(x)", NO_INPUT), ("a := 5", "5"), ("restart", ""), ("a", "a"),
]

GIAC_LATEX: List[Case] = [
    ("x^2 / 3 + 1", r"{latex:$\frac{x^{2}}{3}+1$}"), ("a := 5", "{latex:$5$}"), ("sqrt(8)", r"{latex:$2 \sqrt{2}$}"), ('"a b"', '"a b"'), ("f(t) := t^2", "..(t)->t^2"), ("f(3)", "{latex:$9$}"),
    ("[[1, 2], [3, a]]", r"{latex:$\left[\begin{array}{cc}1&2\\3&5\end{array}\right]$}"), ("1 /", "..syntax error"), ("", ""), ('print("a"); b', "a\n{latex:$0,b$}"),
]

OCTAVE_LATEX: List[Case] = [
    ("syms x y", ""), ("f = x^2 / 3", r"{latex:$\mathrm{f} = \frac{x^{2}}{3}$}"), ("[x 1; 2 y]", r"{latex:$\mathrm{ans} = \left[\begin{matrix}x & 1\\2 & y\end{matrix}\right]$}"),
    ("f;", ""), ("1 + 1", "ans = 2"), ("a_b = int(exp(-x^2), x, -inf, inf)", r"{latex:$\mathrm{a\_b} = \sqrt{\pi}$}"), ("disp('a'); x", "a\n" r"{latex:$\mathrm{x} = x$}"), ("x * ", "..error"),
]

MAXIMA_LATEX: List[Case] = [
    ("diff(x^2, x)", r"{latex:$2\,x$}"), ("%", r"{latex:$2\,x$}"), ("matrix([1, 2], [x/2, 4])", r"{latex:$\begin{pmatrix}1&2\\ \frac{x}{2}&4\end{pmatrix}$}"), ("%o1", r"{latex:$2\,x$}"),
    ('print("hi", x/3)', "hi x/3 \n" r"{latex:$\frac{x}{3}$}"), ("f(x) := x^2", "f(x):=x^2"), ('"a b"', '"a b"'), ("1 / 0", "..undefined"), ('[1, "$s$", x]', '[1,"$s$",x]'),
    ("'integrate(x^n, x)", r"{latex:$\int {x^{n}}{\;dx}$}"), ("foo_bar + %i*%pi", r"{latex:$\mathit{foo\_bar}+i\,\pi$}"), ("{1, 2}", r"{latex:$\left \{1 , 2 \right \}$}"),
    ("binomial(n, k)", r"{latex:$\binom{n}{k}$}"), ("is(1 < 2)", "true"), ("x/3; y/4", r"{latex:$\frac{x}{3}$}" "\n" r"{latex:$\frac{y}{4}$}"), ("a: 5$", ""), ("%", "{latex:$5$}"),
    ("1 +", "..incorrect syntax"), ("", ""), ("integrate(y^n, y)", "..a line has no input of its own"), ("while true do 0", "..interrupt", True), ("a + 1", "{latex:$6$}"),
]

# A line that takes longer than the seconds of its session ends by itself, as those of `gp_flag_lines.py`.
PYTHON_SECONDS: List[Case] = [("y = 5", ""), ("while True: pass", "..KeyboardInterrupt"), ("y + 1", "6")]

PYTHON: List[Case] = [
    ("1 + 1", "2"), ("_ + 1", "3"), ("x = 1; y = 2; x + y", "3"), ("def f(n):\u2028    return 1 / n\u2028f(2)", "0.5"), ("for i in range(3):\u2028    print(i)\u2028i", "0\n1\n2\n2"),
    ("raise ValueError('no')", "Traceback (most recent call last):\n  File \"<input>\", line 1, in <module>\n    raise ValueError('no')\nValueError: no"),
    ("f(0)", "..ZeroDivisionError"), ("print(", "..SyntaxError"), ("", ""), ("# a remark", ""), ("None", ""), ("'a'", "'a'"), ("input()", "..EOFError"), ("exit()", "..SystemExit"), ("x", "1"),
    ("class F:\u2028    def _repr_latex_(self): return '$x^2$'", ""), ("F()", "{latex:$x^2$}"), ("print('a'); F()", "a\n{latex:$x^2$}"), ("print('a', end=''); 2", "a\n2"),
    ("print('\\x02\\x05')", "\\x02\\x05"), ("'x' * 9000000", "..[1000002 bytes more]"),
    ("while True: pass", "..KeyboardInterrupt", True), ("import time; time.sleep(100)", "..KeyboardInterrupt", True), ("x", "1"),
    ("import os; os.system('echo a; echo b >&2; cat')", "a\nb\n0"), ("os.close(1)", ""), ("print('a')", "a"), ("os.fork() and 3", "3"), ("4", "4"),
]

PROMPTED_PYTHON: List[Case] = [
    ("1 + 1", "2"), ("for i in range(2): print(i)", "0\n1"), ("", ""), ("1 / 0", "..ZeroDivisionError"), ("print(", "..SyntaxError"), ("x = 'a'", ""),
    ("x", "'a'"), ("input()", "..EOFError"), ("print('\\x02\\x05')", "\\x02\\x05"), ("len('x' * 9000000)", "9000000"), ("_ + 1", "9000001"),
    ("x = 1; x", "1"), ("for i in range(2):\u2028    print(i)\u2028x + 1", "0\n1\n2"), ("while True: pass", "..KeyboardInterrupt", True), ("x + _", "3"), ("import os; os.system('cat')", "0"), ("y = os.fork()", ""), ("os.close(1)", ""), ("x", "1"),
]

SH: List[Case] = [
    ("echo a; echo b", "a\nb"), ("x=5", ""), ("echo $x", "5"), ("", ""), ('echo "a', "..unexpected EOF"), ("cat", ""), ("ls /nowhere", "..No such file"),
    ("printf a", "a"), ("echo 'it'", "it"), ("(exit 7)", ""), ("echo $?", "7"), ("for i in 1 2\u2028do echo $i\u2028done", "1\n2"),
    ("head -c 9000000 /dev/zero | tr '\\0' a", "..[1000000 bytes more]"), ("while :; do :; done", "", True), ("sleep 100", "", True), ("echo $x", "5"), ("set -x", ""), ("echo 5", "+ eval 'echo 5'\n++ echo 5\n5"), ("set +x", "+ eval 'set +x'\n++ set +x"),
    ("read y; echo \"<$y>\"", "<>"), ("cat <&10", NO_INPUT), ("exec >/dev/null", ""), ("echo a", ""), ("exec >&199", ""), ("echo b", "b"),
]

BC: List[Case] = [("2 ^ 10", "1024"), ("a = 5", ""), ("a", "5"), ("1 / 0", "..Divide by zero"), ("1 +", "..syntax error"), ("", ""), ("1; 2", "1\n2"), ("last", "2"),
                  ("read()", NO_INPUT), ("x = read()", NO_INPUT), ("{ 1; 2", "1\n2"), ('"a', "a"), ("/* a", ""), ("1 + \\", "..syntax error"), ("if (0)", ""), ("last", "2")]

OCTAVE: List[Case] = [
    ("1 + 1", "ans = 2"), ("ans", "ans = 2"), ("x = [1 2; 3 4]", "..   3   4"), ("x(5, 5)", "..out of bound"), ("disp('a')", "a"), ('disp("a\\tb")', "a\tb"),
    ("1 +", "..parse error"), ("", ""), ("y = 3;", ""), ("y", "y = 3"), ("for i = 1:2\u2028  disp(i)\u2028end", "1\n2"), ("while true, end", "", True), ("ans + y", "ans = 5"),
    ('x = input("v? ")', f"error: {NO_INPUT}"), ("ans", "ans = 5"), ("keyboard", f"error: {NO_INPUT}"), ("pause", f"error: {NO_INPUT}"), ('system("cat")', "ans = 0"), ("disp = 5", "disp = 5"), ("2 + 2", "ans = 4"),
]

R: List[Case] = [
    ("1 + 1", "[1] 2"), (".Last.value", "[1] 2"), ("x <- c(1, 2)", ""), (".Last.value", "[1] 1 2"), ("", ""), ("# a remark", ""), (".Last.value", "[1] 1 2"),
    ("x; x", "[1] 1 2\n[1] 1 2"), ("5; .Last.value + 1", "[1] 5\n[1] 6"), ('stop("no")', "Error: no"), ("1 +", "..unexpected end"), (".Last.value", "[1] 6"), ('cat("a\\n")', "a"),
    ("f <- function(n) {\u2028  n + 1\u2028}\u2028f(2)", "[1] 3"), ("while (TRUE) 0", "", True), (".Last.value", "[1] 3"),
    ("readline()", f"Error: {NO_INPUT}"), ("scan()", f"Error: {NO_INPUT}"), ("readLines(n = 1)", f"Error: {NO_INPUT}"), ('scan(text = "1 2", quiet = TRUE)', "[1] 1 2"), ('system("cat")', ""), ("help(sin)", "..sin(x)"), ("?mean", "..mean(x"),
    ('sink("/dev/null")', ""), ("1 + 1", ""), ("sink()", ""), ("1 + 1", "[1] 2"), ('g <- function() stop("in g")', ""), ("g()", "Error in g() : in g"), ('warning("w")', "Warning message:\nw "), ("sqrt(-1)", "[1] NaN\nWarning message:\nIn sqrt(-1) : NaNs produced"),
    ("g", 'function() stop("in g")'), ("options(error = NULL)", ""), ('stop("no")', "Error: no"), ("f(3)", "[1] 4"),
]

GAP: List[Case] = [
    ("1 + 1", "2"), ("x := Factors(100);", "[ 2, 2, 5, 5 ]"), ("last", "[ 2, 2, 5, 5 ]"), ("1 / 0;", "..must not be zero"), ('Print("a\\nb")', "a\nb"),
    ("1 +;", "..Syntax error"), ("", ""), ("x", "[ 2, 2, 5, 5 ]"), ("while true do od;", "..user interrupt", True), ("last", "[ 2, 2, 5, 5 ]"),
    ("ReadLine(InputTextUser());", f"Error, {NO_INPUT}"), ('InputFromUser("x? ");', f"x? Error, {NO_INPUT}"), ('Exec("cat");', ""), ('Exec("echo a");', "a"), ("7;; 8; 9", "8\n9"), ("last2", "8"), ("if true then", "..Syntax error"), ('"a', "..Syntax error"), ("5 # a remark", "5"),
]

MAXIMA: List[Case] = [
    ("diff(x^2, x);", "2*x"), ("%", "2*x"), ("a: 5$", ""), ("%", "5"), ("a", "5"), ("1 / 0", "..undefined"), ("%", "5"), ("1 +", "..incorrect syntax"), ("", ""), ("%", "5"), ("%o1", "2*x"),
    ("%th(2)", "5"), ('sconcat("a", "b")', '"ab"'), ("1; 2", "1\n2"), ("while true do 0", "..interrupt", True), ("%", "2"), ("f(", "..incorrect syntax"), ('"a', "..end of file"),
    ("integrate(y^n, y)", "..a line has no input of its own"), ('read("a")', ".." + NO_INPUT), ('readonly("a")', ".." + NO_INPUT), ('system("cat")', "0"), ("ibase: 36.", "36"), ("11", "37"), ("ibase: 10.", "10"), ("%", "10"), ("g(n) := block([s: 0],\u2028  for i thru n do s: s + i,\u2028  s)$\u2028g(10)", "55"),
    ('"a\\"b\\\\"', '"a\\"b\\\\"'),
]

SINGULAR: List[Case] = [
    ("1 + 1", "2"), ("_ + 1", "3"), ("ring r = 0, (x, y), dp", ""), ("ideal i = x2, y; i", "i[1]=x2\ni[2]=y"), ("foo", "..`foo` is undefined"), ("1 +;", "..error"), ("", ""),
    ("std(i);", "_[1]=y\n_[2]=x2"), ('read("")', ".." + NO_INPUT), ('string s = read("")', ".." + NO_INPUT), ('system("sh", "cat")', ".." + NO_INPUT), ("3 + 4 // a remark", "7"), ('"a', "a"), ("/* a", ""), ("if (1) { 5;", "5"), ("int m = 6", ""),
    ("while (1) { int j = 1; kill j; }", "..Interrupt at", True), ("m", "6"),
]

GNUPLOT: List[Case] = [
    ("print 1 + 1", "2"), ("x = 3", ""), ("print x", "3"), ("foo", "..invalid command"), ('print "a\\"b"', 'a"b'), ("", ""), ("y = 4\u2028print x + y", "7"),
    ("while (1) { z = 1 }", "", True), ("print x", "3"), ("pause -1", NO_INPUT), ('print system("cat")', ".." + NO_INPUT), ("print x", "3"), ('set print "/dev/null"', ""), ("print x", ""), ("set print", ""), ("print x", "3"),
]

YACAS: List[Case] = [
    ("1 + 1", "2"), ("D(x) x^2", "2*x"), ("foo(", "..closing bracket"), ("a := 3", "3"), ("a", "3"), ("", ""), ("While(True) b := 1;", "..interrupted", True), ("a", "3"), ("IsPrime(7)", "True"), ("IsPrime(8)", "False"), ("2 = 2", "True"), ("b := True", "True"), ("Read()", NO_INPUT), ('WriteString("a b")', "a b True"), ("2 + 2 // a remark", "4"), ("// a remark", ""),
]

# A function of ten lines or more, whose value at 10 is the sum 1 - 2 + 3 - .. - 10.
TEN_LINES = {
    "python": "def k(n):\n    s = 0\n    i = 1\n    while i <= n:\n        if i % 2:\n            s += i\n        else:\n            s -= i\n        i += 1\n    return s",
    "sh": "k() {\n    s=0\n    for i in $(seq $1)\n    do\n        if [ $((i % 2)) = 1 ]\n        then s=$((s + i))\n        else s=$((s - i))\n        fi\n    done\n    echo $s; }",
    "bc": "define k(n) {\n  auto s, i\n  s = 0\n  i = 1\n  while (i <= n) {\n    s = i - s\n    i = i + 1\n  }\n  return (-s)\n}",
    "octave": "function s = k(n)\n  s = 0;\n  for i = 1:n\n    if mod(i, 2)\n      s = s + i;\n    else\n      s = s - i;\n    end\n  end\nend",
    "R": "k <- function(n) {\n  s <- 0\n  for (i in 1:n) {\n    if (i %% 2 == 1)\n      s <- s + i\n    else\n      s <- s - i\n  }\n  s\n}",
    "gap": "k := function(n)\n  local s, i;\n  s := 0;\n  for i in [1..n] do\n    if i mod 2 = 1 then\n      s := s + i;\n    else s := s - i; fi;\n  od;\n  return s;\nend;",
    "maxima": "k(n) := block([s: 0],\n  for i thru n do\n    if oddp(i)\n      then\n        s: s + i\n      else\n        s: s - i,\n  /* the sum */\n  s\n)$",
    "M2": "k = n -> (\n  s := 0;\n  i := 1;\n  while i <= n do (\n    if i % 2 == 1\n    then s = s + i\n    else s = s - i;\n    i = i + 1;\n  );\n  s);",
    "giac": "k(n):={\n  local s, j;\n  s:=0;\n  for (j:=1;j<=n;j++) {\n    if (irem(j,2)==1) {\n      s:=s+j;\n    } else {\n      s:=s-j; }\n  }\n  return s; }",
    "singular": "proc k(int n) {\n  int s, i;\n  for (i = 1; i <= n; i++) {\n    if (i % 2 == 1) {\n      s = s + i;\n    } else {\n      s = s - i;\n    }\n  }\n  return (s); }",
    "gnuplot": "k = 0\ndo for [i = 1:10] {\n  if (i % 2 == 1) {\n    k = k + i\n  } else {\n    k = k - i\n  }\n  n = i\n  x = k\n}",
    "yacas": "k(n) := [\n  Local(s, i);\n  s := 0;\n  For (i := 1, i <= n, i++) [\n    If (Mod(i, 2) = 1,\n      s := s + i,\n      s := s - i);\n  ];\n  s;\n];",
}


def ten_lines(name: str, call: str = "k(10)", said: str = "", reported: str = "-5") -> List[Case]:
    """The function as one field, and its value."""
    return [(TEN_LINES[name].replace("\n", "\u2028"), said), (call, reported)]


# From the first line to the second one of a pair nothing, or more than its own, is shown of a line.
REDIRECTIONS: Dict[str, str] = {
    "set -x": "set +x", "exec >/dev/null": "exec >&199", 'sink("/dev/null")': "sink()", 'set print "/dev/null"': "set print",
    ".headers on": ".headers off", ".output /dev/null": ".output", ".echo on": ".echo off", ".mode box": ".mode list", ".changes on": ".changes off",
    "(setf *standard-output* (make-broadcast-stream))": "(setf *standard-output* sb-sys:*stdout*)",
}

# For each interpreter a line that has a number, and its answer.
NUMBERS: Dict[str, Tuple[str, str]] = {
    "gp": ('print("n%d")', "n%d"), "python": ("'n%d'", "'n%d'"), "sh": ("echo n%d", "n%d"), "bc": ('print "n%d"', "n%d"), "octave": ('printf("n%d\\n")', "n%d"), "R": ('"n%d"', '[1] "n%d"'), "gap": ('Print("n%d\\n");', "n%d"),
    "maxima": ('"n%d"', '"n%d"'), "M2": ('"n%d"', "n%d"), "giac": ('"n%d"', '"n%d"'), "singular": ('print("n%d")', "n%d"), "gnuplot": ('print "n%d"', "n%d"), "yacas": ('"n%d"', '"n%d"'),
}


# Lines that draw. In an answer `{image/svg+xml}` stands for a picture.
DRAWING: Dict[str, List[Tuple[str, str]]] = {
    "python": [
        ("class P: _repr_svg_ = lambda self: '<svg/>'", ""), ("P()", "{image/svg+xml}"), ("print('a'); P()", "a\n{image/svg+xml}"), ("P(), 2", "..<__main__.P object"),
        ("class Q: _repr_png_ = lambda self: b'\\x89PNG\\r\\n\\x1a\\n' + bytes(5)", ""), ("Q()", "{image/png;base64}"),
        ("class R: _repr_svg_ = lambda self: '<svg>' + 9_000_000 * ' '", ""), ("R()", "[a picture of 9000005 bytes is left out: those of an answer have at most 8000000]"),
        ("class N: _repr_png_ = lambda self: 'none'", ""), ("N()", "none"),
    ],
    "matplotlib": [
        ("import matplotlib.pyplot as plt", ""), ("p = plt.plot([1, 3, 2])", "{image/svg+xml}"), ("p = plt.plot([1, 2]); plt.show(); print('b')", "b\n{image/svg+xml}"),
        ("for k in 1, 2: plt.figure(); p = plt.plot([k, 2])", "..{image/svg+xml}\n{image/svg+xml}"), ("f = plt.figure(); f", "{image/svg+xml}"), ("plt.get_fignums()", "[]"),
        ("p = plt.scatter(range(20000), range(20000))", "{image/png;base64}"), ("p = plt.plot([2, 1]); 1/0", "..ZeroDivisionError: division by zero\n{image/svg+xml}"),
        ("p = plt.title('$\\\\frac$')", "..ValueError"), ("plt.show()", ""),
    ],
    "gp": [("2", r"{latex:$\%1 = 2$}"), ('plothexport("svg", x = 0, 1, x^2)', "%2 =\n{image/svg+xml}"), ('plothexport("svg", x = 0, 1, x); 3', r"{latex:$\%3 = 3$}"), ("#%2 > 99", r"{latex:$\%4 = 1$}"),
           ("ploth(x = 0, 1, x^2)", "%5 =\n{image/svg+xml}"), ("ploth(x = 0, 1, x * (1 - x));", "%6 =\n{image/svg+xml}"), ("plothraw([1, 2], [3, 1])", "%7 =\n{image/svg+xml}"), ("ploth(", "..syntax error")],
    "gp --no-numbers": [('plothexport("svg", x = 0, 1, x^2)', "{image/svg+xml}"), ('"<svg"', '"<svg"')],
    "prompted.py R": [
        ("plot(1:3)", "{image/svg+xml}"), ('plot(1:3); hist(1:4); "two"', '[1] "two"\n{image/svg+xml}\n{image/svg+xml}'), (".Last.value", '[1] "two"'),
        ('plot(1:2); stop("no")', "Error: no\n{image/svg+xml}"), ("lines(1:2)", "..plot.new has not been called yet"), ('pdf("/dev/null")', ""), ("plot(1)", ""),
        ("dev.off()", "..null device"), ("plot(1)", "{image/svg+xml}"),
    ],
    "prompted.py octave": [
        ("plot (1:3)", "{image/svg+xml}"), ("plot (1:2); figure; plot (2:-1:1); x = 2", "x = 2\n{image/svg+xml}\n{image/svg+xml}"), ("x;", ""), ("ans = 5;", ""),
        ('plot (1:2); error ("no")', "error: no\n{image/svg+xml}"), ("ans", "ans = 5"), ("get (0, 'children')", "ans = [](0x1)"),
    ],
    "prompted.py maxima": [
        ("plot2d(x^2, [x, 0, 1])$", "{image/svg+xml}"), ("plot2d(x, [x, 0, 1])$ plot3d(x*y, [x, 0, 1], [y, 0, 1]);", "done\n{image/svg+xml}\n{image/svg+xml}"), ("%", "done"),
        ("plot2d(x, [x, 0, 1], [svg_file, \"/dev/null\"])$", ""), ("plot2d(", "..incorrect syntax"),
    ],
    "prompted.py gnuplot": [
        ("plot x", "{image/svg+xml}"), ("plot x; plot x**2; print 1", "1\n{image/svg+xml}\n{image/svg+xml}"), ("plot foo(", "..invalid expression"), ("set output '/dev/null'", ""),
        ("plot x", ""), ("set output", ""), ("set multiplot", ""), ("plot x", ""), ("unset multiplot", "{image/svg+xml}"), ("plot x; pause -1", NO_INPUT + "\n{image/svg+xml}"), ("set terminal pngcairo", ""), ("plot x", "{image/png;base64}"), ("set terminal dumb 79 24", ""), ("plot x", "..+-----"),
    ],
    "matplotlib --no-pictures": [("import matplotlib.pyplot as plt", ""), ("p = plt.plot([1, 2]); plt.show()", ""), ("plt.figure(1)", "..<Figure size")],
}


def trial(words: str, program: str, leaving: str, busy: str, cases: List[Case]) -> Trial:
    name = words.split()[1 if words.startswith("prompted.py") else 0]
    return Trial(words, program, leaving, busy, cases, ODD_LINES[name], *NUMBERS[name], DRAWING.get(words, ()), completing=COMPLETING.get(words), failing=ERRORS.get(words, ()))


def by_matplotlib(words: str) -> Trial:
    drawing = DRAWING["matplotlib" + words]
    return dataclasses.replace(trial("python" + words, "python3", "", "while True: pass", PYTHON[:1]), drawing=drawing, module="matplotlib")


def by_prompted(profile: str, program: str, leaving: str, busy: str, cases: List[Case]) -> Trial:
    return trial(f"prompted.py {profile}", program, leaving, busy, cases)


def by_jupyter(words: str, cases: List[Case], drawing: Sequence[Tuple[str, str]] = ()) -> Trial:
    """The kernel of Python. A line that forks is left out, which would go on as a second kernel."""
    odd_lines = [line for line in ODD_LINES["python"] if "fork" not in line]
    return dataclasses.replace(by_kernel(words, "os._exit(0)", "while True: pass", cases, NUMBERS["python"]), odd_lines=odd_lines, drawing=drawing)


def by_kernel(words: str, leaving: str, busy: str, cases: List[Case], number: Tuple[str, str]) -> Trial:
    """Any kernel of Jupyter."""
    return Trial(f"jupyter {words}", f"/usr/share/jupyter/kernels/{words.split()[0]}/kernel.json", leaving, busy, cases, (), *number, failing=ERRORS.get(f"jupyter {words}", ()))


def by_language(name: str, lines: Lines) -> Trial:
    words = f"prompted.py {name}"
    return Trial(words, lines.program, lines.leaving, lines.busy, lines.cases, lines.odd, lines.number, lines.numbered, completing=COMPLETING.get(words), failing=LANGUAGE_ERRORS.get(name, ()))


TRIALS = {
    "gp": trial("gp", "gp", "quit", "while (1, )", GP),
    "gp_lines": trial("gp", "gp", "\\q", "while (1, )", gp_lines.LINES),
    "gp_text": trial("gp --text", "gp", "\\q", "while (1, )", GP_TEXT),
    "gp_no_numbers": trial("gp --no-numbers", "gp", "\\q", "while (1, )", GP_NO_NUMBERS),
    "gp_text_no_numbers": trial("gp --text --no-numbers", "gp", "\\q", "while (1, )", GP_TEXT_NO_NUMBERS),
    "gp_seconds": trial("gp --seconds 5", "gp", "\\q", "while (1, )", GP_SECONDS),
    "python_seconds": trial("python --seconds 5", "python3", "os._exit(0)", "while True: pass", [("import os", ""), *PYTHON_SECONDS]),
    "python": trial("python", "python3", "os._exit(0)", "while True: pass", PYTHON + ten_lines("python")),
    "python_matplotlib": by_matplotlib(""),
    "python_matplotlib_no_pictures": by_matplotlib(" --no-pictures"),
    "jupyter": by_jupyter("python3", jupyter_lines.LINES + ten_lines("python")),
    "jupyter_pictures": by_jupyter("python3", [("import os", "")], kernel_lines.PICTURES),
    "jupyter_ir": by_kernel("ir", "q()", "while (TRUE) 0", kernel_lines.IR, NUMBERS["R"]),
    "jupyter_octave": by_kernel("octave", "", "while true, end", kernel_lines.OCTAVE, ('printf("n%d\\n")', "\nn%d")),
    "jupyter_xpython": by_kernel("xpython", "import os; os._exit(0)", "while True: pass", kernel_lines.XPYTHON, NUMBERS["python"]),
    "jupyter_seconds": by_jupyter("python3 --seconds 5", [("import os", ""), *PYTHON_SECONDS]),
    "prompted_python": by_prompted("python", "python3", "quit()", "while True: pass", PROMPTED_PYTHON + ten_lines("python")),
    "sh": by_prompted("sh", "bash", "exit", "while :; do :; done", SH + ten_lines("sh", "k 10")),
    "bc": by_prompted("bc", "bc", "quit", "while (1) a = a + 1", BC + ten_lines("bc")),
    "octave": by_prompted("octave", "octave-cli", "quit", "while true, end", OCTAVE + ten_lines("octave", reported="ans = -5")),
    "octave_latex": by_prompted("octave --latex", "octave-cli", "quit", "while true, end", OCTAVE_LATEX),
    "R": by_prompted("R", "R", "q()", "while (TRUE) 0", R + ten_lines("R", reported="[1] -5")),
    "gap": by_prompted("gap", "gap", "quit;", "while true do od;", GAP + ten_lines("gap", said="function( n ) ... end")),
    "maxima": by_prompted("maxima", "maxima", "quit();", "while true do 0;", MAXIMA + ten_lines("maxima")),
    "maxima_latex": by_prompted("maxima --latex", "maxima", "quit();", "while true do 0;", MAXIMA_LATEX),
    "M2": by_prompted("M2", "M2", "exit 0", "while true do 0", M2 + ten_lines("M2")),
    "M2_latex": by_prompted("M2 --latex", "M2", "exit 0", "while true do 0", M2_LATEX),
    "giac": by_prompted("giac", "giac", "", "while (true) { a := 1 }", GIAC + ten_lines("giac", said="..Success")),
    "giac_latex": by_prompted("giac --latex", "giac", "", "while (true) { a := 1 }", GIAC_LATEX),
    "singular": by_prompted("singular", "Singular", "quit;", "while (1) { int k = 1; kill k; }", SINGULAR + ten_lines("singular")),
    "gnuplot": by_prompted("gnuplot", "gnuplot", "quit", "while (1) { x = 1 }", GNUPLOT + ten_lines("gnuplot", "print k")),
    "yacas": by_prompted("yacas", "yacas", "quit", "While(True) a := 1;", YACAS + ten_lines("yacas", said="True")),
    **{name: by_language(name, lines) for name, lines in LANGUAGES.items()},
}
