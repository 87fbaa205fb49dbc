"""Lines for each adapter, one after the other in one session, and what of their answers is marked as an error; `try` evaluates them.

Of a text that begins with `..` it is what the error has somewhere. What only looks like an error, as it is printed or caught, is none.
"""
from typing import Dict, List, Tuple

NO_INPUT = "a line has no input of its own"
PYTHON: List[Tuple[str, str]] = [
    ("1 / 0", "..ZeroDivisionError: division by zero"), ("print('so'); [][1]", "..IndexError: list index out of range"), ("print(", "..SyntaxError"),
    ("print('Traceback (most recent call last):')", ""), ("try: 1 / 0\u2028except ZeroDivisionError: print('Error: caught')", ""), ("2", ""),
]

ERRORS: Dict[str, List[Tuple[str, str]]] = {
    "gp": [
        ("1/0", "  ***   at top-level: 1/0\n  ***                  ^--\n  *** _/_: impossible inverse in gdiv: 0."), ('print("so"); error("a\\nb")', "..  ***   user error: a\nb"),
        ("1 + ", "..syntax error"), ("factor(x^2", "..syntax error"), ('"open', "..run-away string"), ('warning("careful"); 2', ""), ('print("  *** no")', ""), ('print("  ***   at top-level: 1/0"); 3', ""),
        ("/* open", ""), ("iferr(1/0, E, print(E))", ""), ("4\u20281/0\u20285", "..impossible inverse"), ("input()", ".." + NO_INPUT), ("6", ""),
    ],
    "gp --text": [("1/0", "..impossible inverse"), ('print("so"); error("boo")', "..  ***   user error: boo"), ('warning("careful"); 2', ""), ("while(", "..syntax error")],
    "python": [*PYTHON, ("exit()", "..SystemExit"), ("'\\x1b[31m'", ""), ("raise ValueError('\\x1b[31mred\\x1b[0m')", "..ValueError: red")],
    "jupyter python3": [
        *PYTHON, ("%nothing", "UsageError: Line magic function `%nothing` not found."), ("print('so')\u2028%nothing", "UsageError: Line magic function `%nothing` not found."), ("input()", "..StdinNotImplementedError"),
        ("!ls /nowhere", ""),
    ],
    "prompted.py python": [*PYTHON, ("import os; os.fork() or 1 / 0", ""), ("3", "")],
    "prompted.py sh": [("nothing", "bash: nothing: command not found"), ("echo a; cd /nowhere; echo b", "bash: cd: /nowhere: No such file or directory"), ("for", "..syntax error"), ("cat <&10", NO_INPUT), ("false", "")],
    "prompted.py bc": [("1 / 0", "..Divide by zero"), ("1 +", "..syntax error"), ("2 ^ 0.5", ""), ("read()", NO_INPUT), ('"so"', "")],
    "prompted.py octave": [
        ("1 +", "..parse error"), ("disp('a'); error('no')", "error: no"), ("nothing", "..'nothing' undefined"), ("disp('error: none')", ""), ("try, error('no'), catch, disp('error: caught'), end", ""),
        ("warning('w')", ""), ('error("a\\nb")', "..a\nb"), ("input('')", f"error: {NO_INPUT}"), ("2", ""),
    ],
    "prompted.py R": [
        ('stop("no")', "Error: no"), ('cat("so"); stop("no")', "Error: no"), ("f <- function(x) stop('in f'); f(1)", "Error in f(1) : in f"), ("1 +", "..unexpected end of input"), ('warning("w")', ""),
        ('try(stop("t"))', ""), ('tryCatch(stop("t"), error = function(e) 5)', ""), ('cat("Error: none\\n")', ""), ('signalCondition(simpleError("q")); 5', ""), ('signalCondition(simpleError("q")); stop("r")', "Error: r"),
        ("g <- function(n) g(n + 1); g(1)", "..Error: "), ("readline()", f"Error: {NO_INPUT}"), ("2", ""),
    ],
    "prompted.py gap": [("1 / 0;", "..must not be zero"), ("1 +;", "..Syntax error: expression expected"), ('Error("a");', "Error, a"), ('Print("no Error, a\\n");', ""), ("2;", "")],
    "prompted.py maxima": [
        ("1 / 0", "..undefined: 0 to a negative exponent."), ('print("so"); error("no")', "..no\n -- an error."), ("1 +", "..incorrect syntax"), ("errcatch(1 / 0)", ""), (":lisp (car 5)", "..Lisp error"),
        ('print("-- an error. To debug this try: debugmode(true);")$', ""), ('read("a")', ".." + NO_INPUT), ("2", ""),
    ],
    "prompted.py maxima --latex": [("1 / 0", "..undefined: 0 to a negative exponent."), ("x / 3", "")],
    "prompted.py M2": [("1 / 0", "..division by zero"), ('error "no"', "..error: no"), ("(1 +", "..syntax error"), ('try error "e" else 5', ""), ('print "error: none"', ""), ("print 3; 1 / 0", "..division by zero")],
    "prompted.py giac": [("1 /", "..syntax error"), ('throw("no")', '"""no"" Error: Bad Argument Value"'), ("inv([[1, 1], [1, 1]])", '"Not invertible Error: Bad Argument Value"'), ('"Error"', ""), ("1 / 0", "")],
    "prompted.py singular": [("foo", "..`foo` is undefined"), ('print("a"); ERROR("no");', "   ? no"), ("1 +;", "..error occurred"), ('print("? none")', ""), ("2;", "")],
    "prompted.py gnuplot": [("print foo", "..undefined variable: foo"), ("foo", "..invalid command"), ('print "a"; print 1 / 0', "..undefined value"), ('print "line 0: none"', ""), ("pause -1", NO_INPUT), ("print 2", "")],
    "prompted.py yacas": [("foo(", "..closing bracket"), ('Check(False, "no")', 'String(1) : "no"'), ('TrapError(Check(False, "e"), 5)', ""), ("Read()", NO_INPUT), ("2", "")],
}
