"""Lines that could take what isn't theirs, for each adapter: they read, aren't finished, send the output elsewhere, ask for help, or write much
or no line's end. `try` evaluates each with a numbered line after it, whose answer must be its number.
"""
from typing import Dict, List

ODD_LINES: Dict[str, List[str]] = {
    "gp": [
        "input()", "x = input(); x", "read(\"/dev/stdin\")", "readstr(\"/dev/stdin\")", "system(\"cat\")", "system(\"head -n 1\")", "extern(\"cat\")", "externstr(\"cat\")", "print1(\"none\")",
        "print1(\"a\\nb\")", "print(1001)", "print(\"%1 = 5\")", "?sin", "??sin", "?", "???", "\\p 30", "\\e 1\u2028\\e 0", "\\s", "\\v", "\\u", "\\d", "\\ps 5", "#", "#", "f(n) = {", "h =",
        "{1 +", "/* open", "\"open", "1 + \\", "(1 +", "[1, 2", "1)", "}", "]", "\\\\ a remark", "for (i = 1, 3", "if (1,", "my(x", "error(\"a\")", "error(\"a\\nb\")", "iferr(error(1), E, 2)", "trap(, 1, 2)", "breakpoint()",
        "vector(5000, i, i)", "2^20000", "for (i = 1, 3000, print(i))", "for (i = 1, 3000, print1(i))", "alarm(1); while (1, )", "default(colors, \"no\")", "writebin(\"/dev/null\", 1)", "\\w /dev/null",
        "install(nothing, v)", "Strchr([2, 5, 27])", "print(Strchr([2, 5, 27]))", "kill(x)", "allocatemem(10^7)", "1/0; 2", "default(breakloop, 0)", "1/0",
    ],
    "python": [
        "input()", "x = input('x? ')", "import os, sys, time", "sys.stdin.read()", "sys.stdin.readline()", "os.read(0, 10)", "open('/dev/stdin').read()", "os.system('cat')", "os.system('head -n 1')",
        "import subprocess; subprocess.run('cat')", "subprocess.run(['sh'])", "subprocess.run(['python3', '-i'])", "os.popen('cat').read()", "import getpass; getpass.getpass()", "breakpoint()", "import pdb; pdb.set_trace()",
        "import code; code.interact()", "help(len)", "help()", "license", "print(", "'open", "'''open", "def f(:", "f(", "if True:", "for i in range(3):", "  indented", "# a remark", "\\", "1 +", "(1", "1)", "raise ValueError('a')",
        "print('a', end='')", "sys.stdout.write('b')", "sys.stderr.write('c')", "print('\\x02\\x05\\x1b')", "print('x' * 100000)", "for i in range(3000): print(i)", "'y' * 50000", "sys.stdout = None; sys.stdout = sys.__stdout__",
        "os.close(1)", "os.close(0)", "os.close(2)", "os.dup2(os.open('/dev/null', os.O_WRONLY), 1)", "os.fork() and None", "import threading; threading.Thread(target=print, args=('late',)).start()", "sys.exit", "sys.ps1 = 'p '",
        "import signal; signal.raise_signal(signal.SIGINT)", "os.kill(os.getpid(), 2)", "raise KeyboardInterrupt", "os.system('kill -INT 0')", "lambda: 0", "del x", "import nothing", "\"it's\"", "'a\\'b'", "'\\u00e9 \\u20ac'", "[].x",
    ],
    "sh": [
        "read x", "read x; echo $x", "cat", "head -n 1", "cat <&0", "cat /dev/stdin", "sh", "sh -i", "bash -i", "python3 -i", "read -u 0 x", "mapfile x", "select x in a b; do echo $x; done", "cat <&10", "read -u 10 x; echo got", "while read -u 10 -t 1 x; do :; done",
        "exec </dev/null", "exec 0<&-", "cat; cat", "echo 'open", "echo \"open", "echo `open", "echo $(open", "if true; then", "for i in 1 2; do", "f() {", "{", "(", ")", "}", "case x in", "cat <<E", "echo \\", "# a remark", "echo a # b",
        "set -x; echo 5; set +x", "set -v; echo 5; set +v", "trap 'echo t' DEBUG; echo 5; trap - DEBUG", "exec >/dev/null; echo 5; exec >&199", "exec 2>/dev/null", "exec 2>&199", "printf a", "printf 'a\\nb'", "echo m123456",
        "printf '\\002\\005\\033'", "yes | head -n 5000", "head -c 100000 /dev/zero | tr '\\0' x", "set -e; false; true", "set +e", "false", "set -u; echo $nothing", "set +u", "set -n; set +n", "sleep 0.1 & wait", "(sleep 0.3; echo late) &",
        "kill -INT $$", "kill -INT 0", "nothing_of_that_name", "ls /nowhere", "less /etc/passwd", "man true", "alias echo=false; unalias echo", "PS1=p; PS2=q", "printf() { :; }", "unset -f printf", "echo \"it's\"", "stty -a",
        "cd /", "set -o posix", "set +o posix", "shopt -s extglob", "history", "fc -l", "bind -p", "jobs; fg", "logout", "return 1",
    ],
    "bc": [
        "read()", "x = read()", "read ()", "define f() { return read(); }", "f()", "{", "}", "(1 +", "1 +", "1 + \\", "\"open", "/* open", "# a remark", "/* a */ 2", "if (0)", "if (1)", "while (0)", "for (i = 0; i < 0; i++)", "define g(x)", "define g(x) {",
        "g(1)", "else", "if (1) {", "{ 1; 2", "1/0", "sqrt(-1)", "ibase = 16", "A", "ibase = A", "obase = 16", "255", "obase = A", "scale = 50", "a(1) * 4", "scale = 0", "print \"a\"", "print \"a\\nb\"", "\"a\"", "\"a\u2028b\"", "2 ^ 5000", "for (i = 0; i < 3000; i++) i",
        "last", "warranty", "limits", "halt1", "return", "break", "continue", "auto x", "x = = 1", "1 ; 2", "a[1] = 5; a[1]", "length(12345)", "print 1, 2, \"\\q\"", "-1", "!", "@", "'", "$x", "1 2", "define h(x) { auto y; y = x; return (y); }", "h(3)",
    ],
    "octave": [
        "input(\"v? \")", "x = input(\"v? \")", "x = input(\"v? \", \"s\")", "keyboard", "keyboard(\"k> \")", "yes_or_no(\"a\")", "kbhit()", "pause", "pause(0.1)", "pause(Inf)", "fgetl(stdin)", "fscanf(stdin, \"%d\")", "system(\"cat\")", "[s, t] = system(\"cat\")", "system(\"sh\")",
        "shell_cmd(\"cat\")", "popen(\"cat\", \"r\")", "menu(\"a\", \"b\")", "1 +", "(1 +", "[1 2", "{1", "\"open", "'open", "for i = 1:2", "if true", "function f", "%{", "% a remark", "# a remark", "1 ...", "\\", "end", ")", "endfunction",
        "help sin", "doc sin", "help nothing", "error(\"a\")", "error(\"a\\n\")", "error(\"id:x\", \"b\")", "rethrow(lasterror())", "warning(\"w\")", "printf(\"a\")", "fprintf(stderr, \"b\")", "disp(1); printf(\"c\")", "puts(\"a\\nb\")", "fdisp(stdout, 5)", "printf(\"%d\\n\", 1:3000)",
        "repmat(\"x\", 1, 50000)", "rand(100);", "disp = 5", "clear disp", "eval(\"1 +\")", "eval(\"error('x')\", \"7\")", "clear all", "close all", "fclose(\"all\");", "more on", "more off", "page_screen_output(true);", "page_screen_output(false);", "echo on", "echo off", "dbstop in sin",
        "dbstop if error", "error(\"stopped\")", "dbquit", "dbclear if error", "PS1(\"p\")", "x.y = 1", "@(t) t + 1", "nothing", "1/0", "unwind_protect, error(\"u\"), unwind_protect_cleanup, 5, end", "diary /dev/null", "diary off", "crash_dumps_octave_core(0)", "ans", "\"it's\"", "'say \"so\"'",
    ],
    "R": [
        "readline(\"x? \")", "x <- readline()", "scan()", "scan(\"\")", "scan(n = 1)", "scan(text = \"1 2\")", "readLines(n = 1)", "readLines(stdin(), 1)", "readLines(\"stdin\", 1)", "system(\"cat\")", "system(\"cat\", intern = TRUE)", "system(\"sh\")", "system2(\"cat\")",
        "menu(c(\"a\", \"b\"))", "menu(c(\"a\", \"b\"), graphics = FALSE)", "invisible(askYesNo(\"a\"))", "file.choose()", "edit(1)", "help(sin)", "?mean", "help(nothing)", "help.start()", "vignette()", "demo()", "example(mean)", "data()", "sink(\"/dev/null\"); print(5); sink()", "sink(tempfile())\u2028print(5)\u2028sink()",
        "sink(stdout(), type = \"message\"); message(\"m\"); sink(type = \"message\")", "capture.output(print(5))", "options(echo = TRUE)", "options(prompt = \"p\")", "options(error = NULL)", "stop(\"a\")", "options(error = quote(5))", "stop(\"b\")", "options(warn = 1); warning(\"w\"); options(warn = 0)", "warning(\"w\")", "warnings()",
        "options(warn = 2); warning(\"w\")", "options(warn = 0)", "1 +", "(1 +", "{", "}", "\"open", "'open", "`open", "function(x", "if (TRUE)", "else 5", "# a remark", "1 + )", "5 5", "cat(\"a\")", "cat(\"a\\nb\")", "message(\"m\")", "print(1:3000)", "strrep(\"x\", 50000)",
        "print <- 3", "rm(print)", "cat <- function(...) stop(\"mine\")", "rm(cat)", "rm(list = ls())", "browser()\u20281", "traceback()", "f <- function() stop(\"in f\")", "f()", "tryCatch(stop(\"t\"), error = function(e) 5)", "try(stop(\"t\"))", "on.exit(5)", "return(5)", "quote(x)", "nothing", "library(nothing)", "\"it's\"", "invisible(5)", "Sys.sleep(0.1)",
        "debug(f)", "undebug(f)", "source(\"/dev/stdin\")", "parse(\"\")", "read.table(stdin())", "interactive()",
    ],
    "gap": [
        "ReadLine(InputTextUser());", "InputFromUser(\"x? \");", "ReadAll(InputTextUser());", "x := ReadLine(InputTextUser());", "Exec(\"cat\");", "Exec(\"echo\", \"a\");", "Exec(\"sh\");", "Process(DirectoryCurrent(), \"/bin/cat\", InputTextNone(), OutputTextUser(), []);", "Read(\"/dev/stdin\");", "InputTextFile(\"*stdin*\");",
        "ReadLine(InputTextFile(\"*stdin*\"));", "1 +;", "(1 +", "[1, 2", "\"open", "'o", "if true then", "for i in [1, 2] do", "function(x)", "while true do", "repeat", "end;", "fi;", ")", "# a remark", "1 \\", "?Factors", "??group", "?", "Error(\"a\");", "Error(\"a\\nb\");", "1/0;", "nothing;", "Print(\"a\");", "Print(\"a\\nb\");",
        "PrintTo(\"*errout*\", \"e\");", "Print([1..3000]);", "for i in [1..3000] do Print(i, \"\\n\"); od;", "2^20000;", "5;;", "5; 6;", "5;; 6;", "f := function(n) return n; end", "f(", "f(1, 2);", "LogTo(\"/dev/null\");", "LogTo();", "break;", "return 5;", "last;", "last2;", "CallFuncList(Error, [\"c\"]);", "SizeScreen([80, 24]);",
        "SizeScreen([40, 24]);", "SizeScreen([80, 24]);", "\"it's\"", "'\\''", "\"a\\\"b\"", "Display(5);", "View(5);", "IsBound(y);", "Unbind(x);", "MakeReadOnlyGlobal(\"f\");", "f := 3;", "Info(InfoWarning, 1, \"i\");", "LoadPackage(\"nothing\");", "OnBreak();", "Pager(\"a\");", "Print(\"\\002\\005\\033\");", "Sleep(0);",
    ],
    "maxima": [
        "read(\"v? \")", "x: read()", "readonly(\"v? \")", "break()", "asksign(z)", "integrate(u^n, u)", "entermatrix(2, 2)", "system(\"cat\")", "system(\"sh\")", "system(\"echo a\")", "to_lisp()", "describe(\"sin\")", "? sin", "?? integr", "example(diff)", "demo(\"nothing\")", "playback()", ":lisp (read)", ":lisp (princ 5)", ":lisp (",
        ":lisp (error \"l\")", "1 +", "(1 +", "[1, 2", "\"open", "/* open", "f(x) :=", "if true then", "for i thru 3 do", "block(", ")", "]", "/* a remark */", "1; 2", "1$ 2$", "a: 5$", "1/0", "error(\"e\")", "errcatch(1/0)", "kill(all)", "kill(nothing)", "reset()", "ibase: 36.", "ibase: a", "obase: 36.", "35", "obase: a",
        "display2d: true; x/3; display2d: false", "print(\"a\")$", "print(\"a\", \"b\")", "makelist(i, i, 1, 300)", "for i thru 2000 do print(i)", "2^20000", "writefile(\"/dev/null\")", "closefile()", "load(\"nothing\")", "batch(\"/dev/null\")", "batchload(\"/dev/null\")", "plot2d(x, [x, 0, 1])", "debugmode(true); debugmode(false)", ":top", ":q",
        "nothing", "'x", "\"it's\"", "\"a\\\"b\"", "throw(5)", "catch(throw(5))", "labels(\"%o\")", "remvalue(all)", "values", "compile(f)", "printfile(\"/dev/null\")", "openr(\"/dev/stdin\")", "readline(openr(\"/dev/stdin\"))", "bug_report()",
    ],
    "M2": [
        "read \"x? \"", "read stdio", "x = read()", "input \"/dev/null\"", "run \"cat\"", "run \"sh\"", "run \"echo a\"", "get \"!cat\"", "get \"!echo a\"", "get stdio", "1 +", "(1 +", "{1", "[1", "\"open", "///open", "-* open", "-- a remark", "if true then", "for i to 3 do", "x ->", "f = x -> (", ")", "}", "1; 2", "5;", "null", "print \"a\"",
        "stdio << \"a\"", "<< \"a\"", "<< \"a\" << endl", "stderr << \"e\" << endl", "error \"e\"", "try error \"e\" else 5", "1/0", "nothing + 1", "nothing", "break", "return 5", "continue", "throw 5", "catch throw 5", "help ideal", "help \"nothing\"", "apropos \"ideal\"", "examples ideal", "load \"nothing\"", "needsPackage \"Nothing\"",
        "toString (1..3000)", "scan(3000, print)", "2^20000", "apply(100, i -> i)", "R = QQ[x, y]; ideal(x^2, y)", "topLevelMode", "\"it's\"", "\"a\\\"b\"", "symbol x", "oo", "ooo", "oooo", "o1", "debugLevel = 1", "debugLevel = 0", "printWidth = 40", "printWidth = 0", "alarm 0", "sleep 0", "end", "\"\\002\\005\"", "erase symbol f", "clearAll", "backtrace = false",
        "code methods ideal", "viewHelp \"nothing\"", "errorPrint = 5",
    ],
    "giac": [
        "input(x)", "input(\"x? \", x)", "InputStr x", "textinput(\"a\", x)", "system(\"cat\")", "read(\"/dev/stdin\")", "1 +", "(1 +", "[1, 2", "\"open", "/* open", "// a remark", "f(x) := {", "if (true) {", "for (;;", "}", ")", "1; 2", "5:;", "a := 5", "restart", "a", "print(\"a\")", "print(3)", "1/0", "error(\"e\")", "throw(\"t\")", "?sin", "help(sin)",
        "nothing", "2^20000", "seq(j, j, 1, 3000)", "\"it's\"", "\"a\\\"b\"", "\"\"", "ans()", "quit1", "maple_mode(1)", "maple_mode(0)", "xcas_mode(1)", "xcas_mode(0)", "g(n) := n + 1", "g(1)", "g(", "purge(a)", "rm_a_z()", "breakpoint(g, 1)", "debug(g(1))", "halt()", "pause(0)", "sleep(0)", "x:=x+1", "plot(x)", "digits := 30", "evalf(pi)", "sto(5, b)", "b", "$", "'x'", "%",
    ],
    "singular": [
        "read(\"\")", "string s = read(\"\")", "system(\"sh\", \"cat\")", "system(\"sh\", \"echo a\")", "system(\"sh\", \"sh\")", "pause()", "1 +", "(1 +", "\"open", "/* open", "// a remark", "proc f(int n) {", "if (1) {", "while (0) {", "for (int j = 1; j < 3; j++) {", "}", ")", "else", "if (0)", "foo", "foo(1)", "1/0", "ERROR(\"e\")", "int k = 5", "k", "k = ", "int k = \"a\"",
        "string t = \"a", "t", "print(\"a\")", "\"a\"", "printf(\"%s\", 1)", "dbprint(1, \"d\")", "help", "help ideal", "?ideal", "LIB \"general.lib\"", "LIB \"nothing.lib\"", "pause()", "monitor(\"/dev/null\")", "monitor(\"\")", "ring r = 0, (x, y), dp", "ideal i = x2, y", "i", "std(i)", "poly p = (x + y)^50; p", "2^5000", "for (int j = 1; j < 3000; j++) { j; }", "echo = 3; 1; echo = 0",
        "option(prot)", "option(noprot)", "listvar()", "kill k", "kill nothing", "type 5", "return (5)", "break", "execute(\"1 + 1;\")", "execute(\"1 + (;\")", "execute(\"string u = read(\\\"\\\");\")", "\"it's\"", "\"a\\\"b\"", "export k", "timer = 1; 2 + 2; timer = 0", "1; 2", "< \"/dev/null\"", "< \"nothing\"", "filecmd",
    ],
    "gnuplot": [
        "pause -1", "pause -1 \"hit\"", "pause mouse", "pause 0", "pause 0.1", "shell", "!cat", "!echo a", "system \"cat\"", "print system(\"cat\")", "x = system(\"cat\")", "load \"-\"", "load \"/dev/stdin\"", "plot \"-\"", "plot '-' with lines", "splot \"-\"", "stats \"-\"", "fit a*x \"-\" via a", "read", "call \"-\"", "$d << E", "print \"open", "print 'open", "if (1) {", "while (0) {",
        "do for [i = 1:2] {", "}", "{", "(", "print (1 +", "print 1 +", "# a remark", "print 1 # b", "print 1 \\", "foo", "print foo", "help plot", "help nothing", "?", "show all", "show version", "set print \"/dev/null\"; print 5; set print", "set output \"/dev/null\"", "set output", "set terminal unknown", "set terminal dumb", "plot sin(x)", "splot x*y", "replot", "plot [0:", "plot nothing", "reset",
        "reset session", "set multiplot", "unset multiplot", "print 1/0", "print 2**10", "f(x) = x**2", "print f(3)", "eval \"print 5\"", "eval \"print\"", "history", "print \"it's\"", "print 'a\"b'", "print \"a\\\"b\"", "print \"a\\nb\"", "printerr \"e\"", "do for [i = 1:2000] { print i }", "clear", "exit message \"bye\"1", "break", "continue", "raise", "lower", "bind", "test", "cd \"/nowhere\"", "undefine x",
    ],
    "yacas": [
        "Read()", "x := Read()", "ReadToken()", "ReadCmdLineString(\"x? \")", "SystemCall(\"cat\")", "SystemCall(\"echo a\")", "Load(\"/dev/null\")", "FromFile(\"/dev/stdin\") Read()", "FromString(\"5;\") Read()", "1 +", "(1 +", "[", "{1, 2", "\"open", "/* open", "// a remark", "foo(", ")", "]", "}", "If(True,", "While(True", "1; 2", "x := 5; y := 6", "5;", "", "True", "False",
        "IsPrime(7)", "IsPrime(8)", "2 = 2", "a := True", "a", "Out> True", "WriteString(\"a\")", "WriteString(\"a b\")", "Write(5)", "Echo(\"a\")", "Echo(1, 2)", "NewLine()", "Space(3)", "PrettyForm(x / 3)", "Check(False, \"e\")", "TrapError(Check(False, \"e\"), 5)", "1 / 0", "D(x) x^2", "Integrate(x) x^2", "2^5000", "For(i := 1, i <= 500, i++) Echo(i)", "1 .. 500", "Factor(x^2 - 1)",
        "Help(\"nothing\")", "%", "Bodied(\"b\", 5)", "\"it's\"", "\"a\\\"b\"", "'x", "ToFile(\"/dev/null\") Write(5)", "ToStdout() Write(5)", "Trace(True)", "TraceExp(1 + 1)", "Local(q)", "f(x) := x + 1", "f(2)", "f(", "Clear(a)", "a", "Undefined", "Infinity", "Prog(1)", "Use(\"nothing\")", "MaxEvalDepth(1000)", "g(x) := g(x)", "g(1)",
    ],
}
