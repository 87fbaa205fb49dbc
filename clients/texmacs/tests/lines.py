"""Forty lines for each of three systems, with what their answers have in them."""
from typing import Dict, List, Tuple

Line = Tuple[str, str]

LINES: Dict[str, List[Line]] = {
    "gp": [
        ("1 + 1", " = 2$"), ("factor(12)", "pmatrix"), ("x^2 / 3", "\\frac{1}{3}"), ("1/0", "impossible inverse"), ("f(n) = n^2 + 1", "(n)->n^2+1"), ("f(3)", " = 10$"),
        ("print(\"a\")", "a"), ("\"a b\"", "\"a b\""), ("[1, 2; 3, 4]", "pmatrix"), ("[1, 2; 3, 4]^-1", "\\frac{3}{2}"), ("", ""), ("my(s = 0);\nfor (i = 1, 4, s += i);\ns", "10"), ("nextprime(100)", " = 101$"),
        ("polroots(x^2 - 2)~", "pmatrix"), ("Mod(3, 7)^5", "\\bmod"), ("error(\"boo\")", "boo"), ("vector(3, i, i^2)", "9"), ("sqrtint(50)", " = 7$"), ("binomial(10, 3)", " = 120$"), ("2^100", "1267650600228229401496703205376"),
        ("gcd(12, 18)", " = 6$"), ("sum(i = 1, 100, i)", " = 5050$"), ("deriv(x^3)", "3"), ("{1 +", "syntax error"), ("/* open", "run-away comment"), ("v", "v"), ("isprime(97)", " = 1$"), ("matdet([1, 2; 3, 4])", "-2"),
        ("intformal(x)", "\\frac{1}{2}"), ("eulerphi(36)", " = 12$"), ("print1(\"b\")", "b"), ("if (1, \"yes\", \"no\")", "yes"), ("x", " = x$"), ("10!", " = 3628800$"), ("contfrac(22/7)", "7"), ("nothing(3)", "not a function"),
        ("Str(5)", "\"5\""), ("[]", ""), ("f", "(n)->n^2+1"), ("6 * 7", " = 42$"),
    ],
    "python": [
        ("x = 6", ""), ("x * 7", "42"), ("print('a')", "a"), ("print('\u00e9 \u03b1')", "\u00e9 \u03b1"), ("1/0", "ZeroDivisionError"), ("", ""), ("def f(n):\n    return n + 1\nf(2)", "3"), ("[i for i in range(3)]", "[0, 1, 2]"), ("'a\"b'", "a\"b"), ("'back\\\\slash'", "slash"),
        ("undefined", "NameError"), ("import math", ""), ("math.pi", "3.14159"), ("len('abc')", "3"), ("{'a': 1}", "{'a': 1}"), ("None", ""), ("# nothing", ""), ("print(1); 2", "1\n2"), ("for i in range(2):\n    print(i)", "0\n1"), ("input()", "EOF"),
        ("exit()", "SystemExit"), ("_", ""), ("'x' * 5", "xxxxx"), ("f(", "SyntaxError"), ("sorted([2, 1])", "[1, 2]"), ("sum(range(101))", "5050"), ("2 ** 100", "1267650600228229401496703205376"), ("'<b> & %'", "<b> & %"), ("chr(2) + chr(5)", "\\x02\\x05"), ("print(chr(2) + 'q' + chr(5))", "q"),
        ("class C: pass", ""), ("C", "C"), ("raise ValueError('boo')", "boo"), ("import sys; print('e', file=sys.stderr)", "e"), ("x", "6"), ("x += 1", ""), ("x", "7"), ("True and False", "False"), ("divmod(7, 2)", "(3, 1)"), ("6 * 7", "42"),
    ],
    "maxima": [
        ("1 + 1", "$2$"), ("x^2 / 3", "x^2"), ("1/0", "expt"), ("f(n) := n^2 + 1", "f"), ("f(3)", "$10$"), ("diff(sin(x), x)", "cos"), ("integrate(x, x)", "x^2"), ("solve(x^2 = 4, x)", "x"), ("matrix([1, 2], [3, 4])", "pmatrix"), ("a: 5$", ""),
        ("a", "$5$"), ("\"text\"", "text"), ("print(\"p\")$", "p"), ("expand((x + 1)^3)", "x^3"), ("factor(x^2 - 1)", "x"), ("2^100", "1267650600228229401496703205376"), ("gcd(12, 18)", "$6$"), ("primep(97)", "true"), ("sum(i, i, 1, 100)", "$5050$"), ("error(\"boo\")", "boo"),
        ("(1 +", "incorrect syntax"), ("", ""), ("true", "true"), ("limit(1/x, x, inf)", "$0$"), ("sqrt(8)", "2^{"), ("float(1/4)", "0.25"), ("binomial(10, 3)", "$120$"), ("[1, 2]", "1"), ("length([1, 2])", "$2$"), ("is(1 < 2)", "true"),
        ("if 1 < 2 then 3 else 4", "$3$"), ("for i thru 2 do print(i)", "1"), ("nothing", "nothing"), ("kill(a)", "done"), ("a", "a"), ("determinant(matrix([1, 2], [3, 4]))", "-2"), ("subst(2, x, x^3)", "$8$"), ("ratsimp(x/x)", "$1$"), ("%pi", "pi"), ("6 * 7", "$42$"),
    ],
}
# What a TAB after these finds.
COMPLETED: Dict[str, Tuple[str, str]] = {"gp": ("facto", '"facto" '), "python": ("pri", '"pri" "nt"'), "maxima": ("integr", '"integr" ')}
# A line without an end.
BUSY = {"gp": "while (1, )", "python": "while True: pass", "maxima": "while true do 0"}
PROGRAMS = {"gp": "gp", "python": "python3", "maxima": "maxima"}
