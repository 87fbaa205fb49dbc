"""Further lines for `adapters/gp`, one after the other in one session, and what their outputs are.

They are what `raw_gp` evaluates by gp's own mode, too, each in a session of its own.
"""
from typing import List, Tuple, Union

Line = Union[Tuple[str, str], Tuple[str, str, bool]]


def ones(length: int) -> str:
    """A sum of ones of so many bytes."""
    return "+".join(["1"] * ((length + 1) // 2)) + (" " if length % 2 == 0 else "")


MESSAGE = "  ***   at top-level: %s\n  ***                 %s\n  *** %s"
VALUE = r"{latex:$\%%%d = %s$}"
NO_INPUT = "a line has no input of its own"


def value(number: int, formula: str) -> str:
    return VALUE % (number, formula)


def matrix(number: int, entries: str) -> str:
    return value(number, r"\begin{pmatrix}" + entries + r"\end{pmatrix}")


LINES: List[Line] = [
    ("1+1", value(1, "2")),
    ("x^2/3+1", value(2, r"\frac{1}{3}\,x^2 + 1")),
    ("1/0", "  ***   at top-level: 1/0\n  ***                  ^--\n  *** _/_: impossible inverse in gdiv: 0."),
    ("factor(12)", matrix(3, r"2&2\\ 3&1")),
    ("[1,2;3,4]", matrix(4, r"1&2\\ 3&4")),
    ("", ""),
    ("x=5;", ""),
    ("x", value(6, "5")),
    ('print("hi"); 3', "hi\n" + value(7, "3")),
    ('"a b"', '%8 = "a b"'),
    ("Pi", value(9, "3.1415926535897932384626433832795028842")),
    ("sqrt(2)+O(y^3)", value(10, "1.4142135623730950488016887242096980786+ O(y^3)")),
    ("(z+1)/(z-1)", value(11, r"\frac{z + 1}{z - 1}")),
    ("f(t)={t^2}", "%12 = (t)->t^2"),
    ("f(3)", value(13, "9")),
    ("f(t)={", "%14 = (t)->"),
    ("v=" + "+".join(["1"] * 2000), value(15, "2000")),
    ("1+1 \\", value(16, "2")),
    ("{1+", "..syntax error, unexpected end of file"),
    ("/* open", "  ***   Warning: run-away comment. Closing it."),
    ("2", value(17, "2")),
    ('"abc', "..run-away string"),
    ("print(Strchr([65,5,66]))", "A\\x05B"),
    ("print(Strchr([65,2,66]))", "A\\x02B"),
    ('print1("none")', "none"),
    ("plot(x=0,1,x^2)", "..'''''''_\""),
    ("ploth(x=0,1,x^2)", "..%22 =\n{image/svg+xml:<svg "),
    ("while(1,)", "..user interrupt", True),
    ("x", value(23, "5")),
    ("g(n)={\u2028 my(s=0);\u2028 for(i=1,n,s+=i);\u2028 s\u2028}", "%24 = (n)->my(s=0);for(i=1,n,s+=i);s"),
    ("g(10)", value(25, "55")),
    ('error("boo")', MESSAGE % ('error("boo")', "^------------", "  user error: boo")),
    ("default(output,1)", ""),
    ("?sin", "sin(x): sine of x."),
    ("\\p 50", "   realprecision = 57 significant digits (50 digits displayed)"),
    ("vector(3,i,i^i)~", matrix(27, r"1\\ 4\\ 27")),
    ("matrix(2,2,i,j,[i,j])", "..\\begin{pmatrix}\\begin{pmatrix}1&1\\end{pmatrix}"),
    ("input()", MESSAGE % ("input()", "^-------", NO_INPUT)),
    ("3", value(29, "3")),
    ("for(i=1,3,print(i))", "1\n2\n3"),
    ("v#", "..syntax error, unexpected '#'"),
    ("Mod(2,5)", value(31, r"2 \bmod 5")),
    ("[1..5]", matrix(32, "1&2&3&4&5")),
    ("x='x;", ""),
    ("polroots(x^2+1)", "..I\\\\ 0. \\cdot"),
    ("4", value(35, "4")),
    # Thirty more.
    (ones(1_022), value(36, "511")),
    (ones(1_023), value(37, "512")),
    (ones(4_095), value(38, "2048")),
    ("{" + ones(4_093) + "}", value(39, "2047")),
    ("h(n) = {", "%40 = (n)->"),
    ("{[1, 2]", matrix(41, "1&2")),
    ("h =", "..syntax error"),
    ("6 + 1 /* a remark", value(42, "7") + "\n  ***   Warning: run-away comment. Closing it."),
    ("\\\\ a remark {", ""),
    ("1 + /* in a line */ 2", value(43, "3")),
    ('print("{"); 6', "{\n" + value(44, "6")),
    ('s = "}"; #s', value(45, "1")),
    ('"a\\"b  c"', '%46 = "a\\"b  c"'),
    ('["a  b", 1]', '%47 = ["a  b",1]'),
    ("n -> n + 1", "%48 = (n)->n+1"),
    ("1e100", value(49, r"1.0000000000000000000000000000000000000000000000000 \cdot 10^{100}")),
    ("oo", value(50, r"+\infty")),
    ("Map([1, 2; 3, 4])", matrix(51, r"1&2\\ 3&4")),
    ('iferr(error("x"), E, print("caught"); E)', 'caught\n%52 = error("user error: x")'),
    ('warning("careful"); 5', "  ***   user warning: careful\n" + value(53, "5")),
    ("printtex([1, 2; 3, 4])", "\\pmatrix{\n 1&2\\cr\n 3&4\\cr\n }"),
    ("k = input() + 1", ".." + NO_INPUT),
    ('system("cat")', value(55, "0")),
    ('extern("echo 1+2")', value(56, "3")),
    ("for(i = 1, 10^6, if(i % 10^5 == 0, print(i)))", "..900000\n1000000"),
    ("vector(2000, i, i)", "..&2000\\end{pmatrix}$}"),
    ("print(Strchr(vector(255, i, i)))", "..\\x02"),
    ("1 + 1\u20282 + 2;\u20283 + 3", value(60, "2") + "\n" + value(62, "6")),
    ("1 + 1\u20281/0\u20283 + 3", "..impossible inverse"),
    ('forprime(p = 2, , print(p); for(i = 1, 10^5, ))', "..user interrupt", True),
]
