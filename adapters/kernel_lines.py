"""Lines for kernels of Jupyter besides python3, with what their outputs are, as those in `cases.py`; and lines by which python3 draws."""
from typing import List, Tuple

from gp_lines import Line

# Of Debian's r-cran-irkernel. It reads no input, and a sink is none for its values.
IR: List[Line] = [
    ("1 + 1", "[1] 2"), ("x <- 6", ""), ("x; 7", "[1] 6\n[1] 7"), (".Last.value", "[1] 7"), ("", ""), ("# nothing", ""), ("NULL", "NULL"), ("invisible(3)", ""),
    ("print('a')", '[1] "a"'), ("cat('a\\n')", "a"), ("cat('a')", "a"), ("message('m')", "m"), ("1 +", "..unexpected end of input"), ("stop('boo')", "..Error in eval(expr, envir, enclos): boo"),
    ("f <- function(n) stop('in f'); f(1)", "..Error in f(1): in f"), ("warning('w')", "..Warning message"), ("undefined", "..object 'undefined' not found"),
    ("f <- function(n) {\u2028  n * n\u2028}\u2028f(3)", "[1] 9"), ("if (x == 6) {\u2028  'six'\u2028} else {\u2028  'other'\u2028}", '[1] "six"'),
    ("readline('n? ')", "[a line has no input of its own]"), ("scan()", "numeric(0)"), ("readLines('stdin', n = 1)", "character(0)"), ("'caf\u00e9'", '[1] "caf\u00e9"'),
    ("plot(1:3)", "..{image/png;base64:"), ("plot(1:3); hist(1:4); 'two'", '..[1] "two"\n{image/png;base64:'), ("pdf('/dev/null'); plot(1); dev.off()", "png \n  2 "),
    ("matrix(1:4, 2)", "     [,1] [,2]\n[1,] 1    3   \n[2,] 2    4   "), ("c(1, 2, 3)", "[1] 1 2 3"), ("list(1, 'a')", '[[1]]\n[1] 1\n\n[[2]]\n[1] "a"'),
    ("data.frame(a = 1:2, b = c('x', 'y'))", "  a b\n1 1 x\n2 2 y"), ("factor(c('a', 'b'))", "[1] a b\nLevels: a b"), ("TRUE", "[1] TRUE"), ("1i", "[1] 0+1i"), ("function(x) x", "function(x) x"),
    ("cat('ab\\rxy\\n')", "xy"), ("cat('\\033[31mred\\033[0m\\n')", "red"), ("cat('a\\005b\\002c\\n')", "a\\x05b\\x02c"), ("system('echo below')", ""), ("system('cat')", ""),
    ("IRdisplay::display_html('<b>a</b>')", "[text/html]"), ("IRdisplay::display_latex('$x^2$')", "{latex:$x^2$}"), ("IRdisplay::display_svg('<svg/>')", "{image/svg+xml:<svg/>}"),
    ("?sin", "..Trigonometric Functions"), ("while (TRUE) 0", "", True), ("x", "[1] 6"), ("Sys.sleep(100)", "", True), ("x + 1", "[1] 7"),
    ("for (i in 1:1000) cat(i, '\\n')", "..\n1000"), ("cat(strrep('x', 9000000))", "..x\n[10000"), ("sqrt(-1)", "..[1] NaN"), ("sink('/dev/null'); sink()", ""), ("invisible(gc())", ""),
    ("y = 1; z = 2", ""), ("y + z", "[1] 3"), ("Sys.setenv(A = 'b'); Sys.getenv('A')", '[1] "b"'), ("print(x); x", "[1] 6\n[1] 6"), ("tryCatch(stop('t'), error = function(e) 5)", "[1] 5"),
    ("strsplit('a,b', ',')[[1]]", '[1] "a" "b"'), ("2^100", "[1] 1.267651e+30"), ("sum(1:100)", "[1] 5050"),
]

# Of Debian's python3-octave-kernel, which begins each output with an empty line, and has its interpreter at a terminal: so what reads waits.
OCTAVE: List[Line] = [
    ("1 + 1", "\nans = 2"), ("ans", "\nans = 2"), ("x = [1 2; 3 4]", "\nx =\n\n   1   2\n   3   4"), ("x(5, 5)", "..out of bound 2"), ("disp('a')", "\na"), ('disp("a\\tb")', "\na\tb"),
    ("1 +", "..parse error"), ("undefined", "..'undefined' undefined"), ("", ""), ("y = 3;", ""), ("y", "\ny = 3"), ("% a remark", ""), ("# another", ""), ('printf("a")', "\na"), ('printf("a\\n")', "\na"),
    ('fprintf(2, "err\\n")', "\nerr"), ('error("boo")', "\nerror: boo"), ('warning("careful")', "\nwarning: careful"), ("for i = 1:2\u2028  disp(i)\u2028end", "..1\n2"),
    ("function s = k(n)\u2028  s = n + 1;\u2028end", ""), ("k(3)", "\nans = 4"), ('if y == 3\u2028  disp("three")\u2028else\u2028  disp("other")\u2028end', "..three"), ("a = 1; b = 2; a + b", "\nans = 3"),
    ("[1 2 3]", "\nans =\n\n   1   2   3"), ("'it''s'", "\nans = it's"), ("1e10", "\nans = 1.0000e+10"), ("pi", "\nans = 3.1416"), ("1/0", "\nans = Inf"), ("true", "\nans = 1"),
    ('{1, "a"}', "\nans =\n{\n  [1,1] = 1\n  [1,2] = a\n}"), ("@(x) x + 1", "\nans =\n\n@(x) x + 1"), ("x'", "\nans =\n\n   1   3\n   2   4"), ("x \\ [1; 2]", "..0.5000"), ("zeros(2, 0)", "\nans = [](2x0)"),
    ("plot(1:3)", "..{image/png;base64:"), ("figure; plot(2:-1:1)", "..{image/png;base64:"), ('system("echo below")', "\nbelow\nans = 0"), ("num2str(pi, 8)", "\nans = 3.1415927"), ('disp("a\\rb")', "\nb"),
    ("help sin", "..Compute the sine"), ("while true, end", "", True), ("y", "\ny = 3"), ("pause(100)", "..Pausing execution", True), ("y + 1", "\nans = 4"), ("for i = 1:1000, disp(i), end", "..\n1000"),
    ("z = int8(200)", "\nz = 127"), ("!echo a", "a"), ("1; 2", "\nans = 2"), ("s.a = 5;", ""), ("s.a", "\nans = 5"), ('strsplit("a,b", ","){2}', "\nans = b"),
    ('try, error("in"), catch e, disp(e.message), end', "\nin"), ("format long", ""), ("pi", "\nans = 3.141592653589793"), ("format short", ""), ("mod(-7, 3)", "\nans = 2"), ("sum(1:100)", "\nans = 5050"),
    ("isprime(97)", "\nans = 1"), ("numel(primes(100))", "\nans = 25"), ("det(x)", "\nans = -2"),
]

# Of Debian's xpython, the kernel of Python that stands on xeus. SIGINT ends it.
XPYTHON: List[Line] = [
    ("1 + 1", "2"), ("_ + 1", "3"), ("x = 6", ""), ("x; 7", "7"), ("", ""), ("# nothing", ""), ("None", ""), ("print('a')", "a"), ("print('a', end='')", "a"), ("print('a'); 8", "a\n8"), ("print('  a  b ')", "  a  b "),
    ("for i in range(3): print(i)", "0\n1\n2"), ("import sys; print('out'); print('err', file=sys.stderr); print('out')", "out\nerr\nout"), ("1/0", "..ZeroDivisionError: division by zero"),
    ("print('before'); 1/0", "..before\n-------"), ("raise ValueError('boo')", "..ValueError: boo"), ("def f(", "..SyntaxError"), ("undefined", "..NameError: name 'undefined' is not defined"),
    ("def f(n):\u2028    return n * n\u2028f(3)", "9"), ("if x == 6:\u2028    print('six')\u2028else:\u2028    print('other')", "six"), ("'''a\u2028b'''", "'a\\nb'"), ("input('n? ')", "..RuntimeError"),
    ("'caf\u00e9'", "'caf\u00e9'"), ("print('a\\x05b\\x02c')", "a\\x05b\\x02c"), ("print('a\\rb')", "b"), ("from IPython.display import clear_output, display, Image, Latex, SVG; display(1); 3", "1\n3"),
    ("Latex('$x^2$')", "{latex:$x^2$}"), ("display(Latex('$x$'))", "{latex:$x$}"), ("Image(b'\\x89PNG\\r\\n\\x1a\\n' + bytes(5))", "..{image/png;base64:iVBORw0KGgo"), ("SVG('<svg/>')", "{image/svg+xml:<svg/>}"),
    ("{'a': 1}", "{'a': 1}"), ("[1, 2]", "[1, 2]"), ("import os; _ = os.system('echo below')", ""), ("!echo from a shell", "from a shell"), ("%%bash\u2028echo one", "one"), ("%time 5", "..Wall time"),
    ("len?", "..Return the number of items in a container."), ("class A: pass", ""), ("True", "True"), ("3 > 4", "False"), ("'a' * 3", "'aaa'"), ("import time; time.sleep(0.1); 5", "5"),
    ("len('x' * 9000000)", "9000000"), ("print('x' * 9_000_000)", "..x\n[10000"), ("for i in range(1000): display(i)", "..\n999"), ("x", "6"), ("y = 1; z = 2; y + z", "3"),
    ("print('a'); clear_output(); print('b')", "b"), ("assert x == 7", "..AssertionError"), ("import this", "..Beautiful is better than ugly."), ("2 ** 200", "1606938044258990275541962092341162602522202993782792835301376"),
    ("round(3.14159, 2)", "3.14"), ("sorted([3, 1, 2])", "[1, 2, 3]"), ("0.1 + 0.2", "0.30000000000000004"), ("[k for k in range(3)]", "[0, 1, 2]"), ("print(*'abc', sep='\\n')", "a\nb\nc"),
    ("import math; math.factorial(20)", "2432902008176640000"), ("'%05d' % 42", "'00042'"), ("del y", ""), ("y", "..NameError"),
]

# How IPython shows pictures. Its figures are PNG, the same bytes each time.
PICTURES: List[Tuple[str, str]] = [
    ("import io; import matplotlib.pyplot as plt", ""), ("p = plt.plot([1, 3, 2])", "{image/png;base64}"), ("p = plt.plot([1, 2]); plt.show(); print('b')", "{image/png;base64}\nb"),
    ("f = plt.figure(); p = f.add_subplot().plot([1, 2]); plt.close(); f", "{image/png;base64}"), ("display(f)", "{image/png;base64}"), ("print('a'); display(f, f); 5", "a\n{image/png;base64}\n{image/png;base64}\n5"),
    ("from IPython.display import Image, SVG; b = io.BytesIO(); f.savefig(b); Image(b.getvalue())", "{image/png;base64}"), ("display(Image(b.getvalue(), width=100))", "{image/png;base64}"),
    ("b = io.BytesIO(); f.savefig(b, format='jpg'); Image(b.getvalue())", "{image/jpeg;base64}"), ("SVG('<svg/>')", "{image/svg+xml}"), ("Image(url='https://example.org/a.png')", "..Image object"),
    ("import PIL.Image; PIL.Image.new('RGB', (2, 2))", "{image/png;base64}"), ("[SVG('<svg/>')]", "..SVG object"),
]
