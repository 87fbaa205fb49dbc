"""Lines for `adapters/gp` with its flags, and what their outputs are; as those in `cases.py`."""
from typing import List

from gp_lines import Line, ones

GP_TEXT: List[Line] = [
    ("1 + 1", "%1 = 2"), ("x^2 / 3 + 1", "%2 = 1/3*x^2 + 1"), ("[1, 2; 3, 4]", "%3 = \n[1 2]\n\n[3 4]"), ("default(output, 0)", ""),
    ("[1, 2; 3, 4]", "%5 = [1,2;3,4]"), ('"a b"', '%6 = "a b"'), ('print("a"); 8', "a\n%7 = 8"), ("%1", "%8 = 2"), ("y = 5;", ""), ("{1 + 2", "%10 = 3"),
    (ones(4_095), "%11 = 2048"), ("1/0", "..impossible inverse in gdiv: 0."), ("Strchr([2, 5, 27])", '%12 = "\\x02\\x05\\e"'),
    ("while (1, )", "..user interrupt", True), ("y", "%13 = 5"), ("input()", "..a line has no input of its own"),
    ("1 + 1\u20282 + 2;\u20283 + 3", "%14 = 2\n%16 = 6"), ("[1..3000]", "..2999,3000]"),
    ("default(output, 3)", ""), ("2", "%19 = 2"), ("while (1, )", "..user interrupt", True), ("5", "%20 = 5"), ("default(output, 1)", ""), ("[1,\u2028 2]", "%22 = [1, 2]"),
    ("1/0", "..impossible inverse in gdiv: 0."), ("6", "%23 = 6"), ("???determinant", '..\n\nSee also:\n  "Finite abelian groups"'),
]

GP_TEXT_NO_NUMBERS: List[Line] = [
    ("1 + 1", "2"), ("[1, 2; 3, 4]", "\n[1 2]\n\n[3 4]"), ("default(output, 0)", ""), ("[1, 2; 3, 4]", "[1,2;3,4]"), ('"%5 = a"', '"%5 = a"'), ('print("%6 = 5"); 8', "%6 = 5\n8"),
    ("%1", "2"), ("f(x) = x^2", "(x)->x^2"), ("1 + 1\u20282 + 2;\u20283 + 3", "2\n6"), ("1/0", "..impossible inverse in gdiv: 0."), ("default(output, 3)", ""),
    ("2", "2"), ("while (1, )", "..user interrupt", True), ("5", "5"), ("%", "5"),
]

# Values without their numbers, whose `%` and `%1` are gp's own.
GP_NO_NUMBERS: List[Line] = [
    ("1 + 1", "{latex:$2$}"),
    ("% + 1", "{latex:$3$}"),
    ("%1", "{latex:$2$}"),
    ("[1, 2; 3, 4]", r"{latex:$\begin{pmatrix}1&2\\ 3&4\end{pmatrix}$}"),
    ('"a b"', '"a b"'),
    ('"%1 = 2"', '"%1 = 2"'),
    ("f(x) = x^2", "(x)->x^2"),
    ('print("a"); f(3)', "a\n{latex:$9$}"),
    ("1/0", "  ***   at top-level: 1/0\n  ***                  ^--\n  *** _/_: impossible inverse in gdiv: 0."),
    ("1 + 1\u20282 + 2", "{latex:$2$}\n{latex:$4$}"),
    ("while (1, )", "..user interrupt", True),
    ("f(4)", "{latex:$16$}"),
    ("default(output, 3)", ""),
    ("2", "{latex:$2$}"),
    ("while (1, )", "..user interrupt", True),
    ("5", "{latex:$5$}"),
]

# A line that takes longer than the seconds of its session ends by itself.
GP_SECONDS: List[Line] = [("y = 5", r"{latex:$\%1 = 5$}"), ("while (1, )", "..user interrupt"), ("y + 1", r"{latex:$\%2 = 6$}")]
