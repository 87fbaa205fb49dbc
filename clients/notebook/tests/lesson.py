"""An hour of a teacher: 66 cells in gp, Maxima, Python and prose, with what each has to show.

Of an answer it is a text that it has somewhere; `ERROR` is one that is marked as an error, `PICTURE` has a picture, `NOTHING` is an answer without output. Of
prose it is a text that it says when it is set.
"""

from typing import List, Optional, Tuple

ERROR, PICTURE, NOTHING = "ERROR", "PICTURE", "NOTHING"
Cell = Tuple[Optional[str], str, str]

GP: List[Cell] = [
    (None, "# Primes, sums and a curve\n\nWe count primes: $\\pi(x)$ is about $x/\\log x$. Cells in **gp** come first.", "We count primes"),
    ("gp", "primes(12)", "2&3&5&7&11"),
    ("gp", "factor(2^64 + 1)", "274177&1"),
    ("gp", "isprime(2^61 - 1)", "= 1"),
    ("gp", "pi_(x) = primepi(x)", "primepi(x)"),
    ("gp", "pi_(10^6)", "78498"),
    ("gp", "vector(6, k, pi_(10^k))", "4&25&168&1229"),
    ("gp", "{table(n) =\n    my(rows = []);\n    for(k = 1, n,\n        rows = concat(rows, [[10^k, pi_(10^k), round(10^k / log(10^k))]]));\n    matconcat(rows~)\n}", "matconcat(rows~)"),
    ("gp", "table(5)", "100000&9592"),
    (None, "## A sum\n\n| sum | value |\n|---|---|\n| $\\sum 1/n^2$ | $\\pi^2/6$ |\n\nSee [the first cell](#cell-1).", "value"),
    ("gp", "sumpos(n = 1, 1 / n^2)", "1.6449340668"),
    ("gp", "Pi^2 / 6", "1.6449340668"),
    ("gp", "intnum(x = 0, 1, 1 / (1 + x^2)) - Pi / 4", "10^{-38}"),
    ("gp", "taylor(log(1 + x), x, 6)", "x^5"),
    ("gp", "1 / 0", ERROR),
    ("gp", "ellinit([0, -1, 1, 0, 0]).disc", "-11"),
    ("gp", "E = ellinit([0, -1, 1, 0, 0]);", NOTHING),
    ("gp", "ellap(E, 101)", "2"),
    ("gp", "[ellap(E, p) | p <- primes(10)]", "-2&-1&1&-2"),
    ("gp", "plot(x = -3, 3, x^3 - 3*x)", "|"),
    ("gp", "print(\"one line\"); print(\"and another\"); 42", "and another"),
    ("gp", "matrix(4, 4, i, j, gcd(i, j))", "1&2&1&2"),
    ("gp", "matdet(matrix(8, 8, i, j, gcd(i, j)))", "= 768"),
    ("gp", "?factor", "factorization"),
]
MAXIMA: List[Cell] = [
    (None, "# The same in Maxima\n\nIts answers are set as formulas, too.", "too"),
    ("maxima", "integrate(1 / (1 + x^4), x);", "\\arctan"),
    ("maxima", "f(x) := x^3 - 3*x$", NOTHING),
    ("maxima", "solve(f(x) = 0, x);", "\\sqrt{3}"),
    ("maxima", "diff(f(x), x);", "3\\,x^2-3"),
    ("maxima", "factor(x^8 - 1);", "x^4+1"),
    ("maxima", "limit(sin(x) / x, x, 0);", "1"),
    ("maxima", "sum(k^2, k, 1, n), simpsum;", "2\\,n^3"),
    ("maxima", "taylor(exp(x), x, 0, 5);", "120"),
    ("maxima", "M: matrix([1, 2], [3, 4])$\ninvert(M);", "frac"),
    ("maxima", "determinant(M);", "-2"),
    ("maxima", "plot2d(f(x), [x, -2, 2])$", PICTURE),
    ("maxima", "foo(;", ERROR),
    ("maxima", "block([s: 0],\n    for k: 1 thru 100 do s: s + k,\n    s);", "5050"),
    ("maxima", "display2d: false$", NOTHING),
    ("maxima", "expand((a + b)^5);", "10\\,a^2"),
]
PYTHON: List[Cell] = [
    (None, "# And in Python\n\n- plots by matplotlib\n- formulas by sympy\n\n> An error is seen at a glance.", "at a glance"),
    ("python", "import math, sympy\nimport matplotlib.pyplot as plt", NOTHING),
    ("python", "math.comb(50, 25)", "126410606437752"),
    ("python", "def sieve(n):\n    flags = [True] * (n + 1)\n    for p in range(2, int(n ** 0.5) + 1):\n        if flags[p]:\n            flags[p * p::p] = [False] * len(flags[p * p::p])\n    return [k for k in range(2, n + 1) if flags[k]]", NOTHING),
    ("python", "sieve(50)", "41, 43, 47"),
    ("python", "len(sieve(10 ** 6))", "78498"),
    ("python", "x = sympy.Symbol('x')\nsympy.integrate(sympy.exp(-x ** 2), (x, -sympy.oo, sympy.oo))", "\\sqrt{\\pi}"),
    ("python", "sympy.Matrix(3, 3, lambda i, j: x ** (i + j))", "x^{4}"),
    ("python", "sympy.factor(x ** 6 - 1)", "x^{2} + x + 1"),
    ("python", "plt.plot([n / math.log(n) for n in range(2, 500)])\nplt.plot([len(sieve(n)) for n in range(2, 500)])\nplt.title('primes')\nplt.show()", PICTURE),
    ("python", "for n in (10, 100, 1000):\n    print(n, len(sieve(n)))", "1000 168"),
    ("python", "1 / 0", "ZeroDivisionError"),
    ("python", "class Point:\n    def __init__(self, x, y):\n        self.x, self.y = x, y\n\n    def __repr__(self):\n        return f'({self.x}, {self.y})'", NOTHING),
    ("python", "[Point(n, n ** 2) for n in range(4)]", "[(0, 0), (1, 1), (2, 4), (3, 9)]"),
    ("python", "print('\\x1b[31mred\\x1b[0m, and done')", "red, and done"),
    ("python", "{n: math.factorial(n) for n in range(6)}", "5: 120"),
    ("python", "input('a number? ')", ERROR),
    ("python", "'\\n'.join('*' * n for n in range(1, 6))", "*****"),
    ("python", "sum(1 for _ in range(3_000_000))", "3000000"),
    ("python", "help(math.gcd)", "Greatest Common Divisor"),
]
END: List[Cell] = [
    (None, "# At the end\n\nBoth count 78,498 primes up to $10^6$.", "Both count"),
    ("gp", "pi_(10^6) - 78498", "= 0"),
    ("maxima", "is(78498 = 78498);", "true"),
    ("python", "len(sieve(10 ** 6)) == 78498", "True"),
    (None, "$$\\int_{-\\infty}^{\\infty} e^{-x^2}\\,dx = \\sqrt{\\pi}$$", "π"),
    ("gp", "\\\\ the end", NOTHING),
]
LESSON = GP + MAXIMA + PYTHON + END
