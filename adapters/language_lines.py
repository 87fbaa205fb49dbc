"""Lines for the interpreters of languages.py, as those of cases.py and odd_lines.py: with what their outputs are, and what could take what isn't
theirs. A numbered line stands after each, and its answer."""
from typing import Dict, List, NamedTuple, Tuple

from gp_lines import Line

NO_INPUT = "a line has no input of its own"


class Lines(NamedTuple):
    program: str
    leaving: str
    busy: str
    number: str
    numbered: str
    cases: List[Line]
    odd: List[str]


def called(text: str, call: str, said: str = "", reported: str = "-5") -> List[Line]:
    """A function of several lines as one field, and its value at 10."""
    return [(text.replace("\n", "\u2028"), said), (call, reported)]


NODE: List[Line] = [
    ("1 + 1", "2"), ("_ + 1", "3"), ("x = {a: 1, b: [1, 2]}", "{ a: 1, b: [ 1, 2 ] }"), ("{a: 2}", "{ a: 2 }"), ("", ""), ("// a remark", ""), ("undefined", ""),
    ("null", "null"), ("const y = 5", ""), ("y + 1", "6"), ("'a\"b'", "'a\"b'"), ("console.log('a'); 3", "a\n3"), ("console.error('e')", "e"), ("foo(", "..SyntaxError"),
    ("null.x", "..TypeError: Cannot read properties of null"), ("throw {a: 1}", "Uncaught { a: 1 }"), ("await new Promise(done => setTimeout(() => done(7), 10))", "7"),
    ("while (true) {}", "..interrupted", True), ("await new Promise(() => {})", "..interrupted", True), ("y", "5"), ("require('fs').readFileSync(0, 'utf8')", "''"),
    *called("function k(n) {\n  let s = 0;\n  for (let i = 1; i <= n; i++) {\n    if (i % 2) s += i;\n    else s -= i;\n  }\n  return s;\n}", "k(10)"),
]
NODE_ODD = [
    "'open", "`open", "/* open", "(1 +", "[1", "1)", "}", "if (true) {", "function f(", "let y = 1", "process.stdin.read()", "process.stdout.write('a')", "process.stderr.write('b\\n')", "debugger",
    "for (let i = 0; i < 2000; i++) console.log(i)", "'x'.repeat(50000)", "Array(500).fill(1)", "process.on('x', () => 1) && 1", "new Error('e')", "Promise.resolve(3)", "await Promise.reject(new Error('r'))",
    "Symbol('s')", "x => x", "class A {}", "new A()", "import('fs') && 1", "with (1) {}", "return 3", "10n ** 30n", "NaN", "delete globalThis.x", "require('nothing')",
    "require('child_process').spawnSync('cat', {stdio: 'inherit'}).status", "require('child_process').execSync('echo sub', {stdio: 'inherit'})", "String.fromCharCode(2, 5, 27)",
]
RUBY: List[Line] = [
    ("1 + 1", "=> 2"), ("_ + 1", "=> 3"), ("x = 5", "=> 5"), ("", ""), ("nil", "=> nil"), ("'a\"b'", '=> "a\\"b"'), ("puts 'hi'; 3", "hi\n=> 3"), ("1/0", "..divided by 0 (ZeroDivisionError)"),
    ("foo(", "..SyntaxError"), ("nothing", "..NameError"), ("raise 'no'", "..no (RuntimeError)"), ("1 while true", "..interrupted (Interrupt)", True), ("sleep 100", "..interrupted (Interrupt)", True),
    ("x", "=> 5"), ("gets", "=> nil"), ("[1, 'b', nil]", '=> [1, "b", nil]'), ("warn 'w'", "w\n=> nil"), ("\"\\u00e9\"", '=> "é"'),
    *called("def k(n)\n  s = 0\n  (1..n).each do |i|\n    if i.odd?\n      s += i\n    else\n      s -= i\n    end\n  end\n  s\nend", "k(10)", "=> :k", "=> -5"),
]
RUBY_ODD = [
    "'open", '"open', "<<E", "=begin", "(1 +", "[1", "1)", "}", "end", "if true", "def f", "# a remark", "1 +", "STDIN.read", "$stdin.gets", "ARGF.read", "system('cat')", "`cat`", "system('echo sub')", "print 'a'",
    "$stdout.write('b')", "$stderr.puts 'c'", "2000.times { |i| puts i }", "'x' * 50000", "p 1, 2", "binding", "throw :a", "catch(:a) { throw :a, 3 }", "Thread.new { 1 }.value", "loop { break 4 }", "return 3", "next", "break",
    "fork { exit! }", "class A; end", "A.new.class", "__FILE__", "\"\\x02\\x05\\e\"", "Process.kill('INT', $$); sleep 1", "$stdout = StringIO.new; $stdout = STDOUT; 1", "lambda { |a| a }.call(1)", "def m; yield; end", "m",
]
PERL: List[Line] = [
    ("1 + 1", "2"), ("$x = 5", "5"), ("$x + 1;", ""), ('print "a\\n";', "a"), ("$x * 2", "10"), ("@a = (1, 2)", "1 2"), ("[1, 'b', undef]", '[\n  1,\n  "b",\n  undef\n]'), ("", ""), ("undef", "undef"),
    ('die "no\\n"', "no"), ("1/0", "..Illegal division by zero at input line 1."), ("foo(", "..syntax error"), ("1 while 1", "interrupted", True), ("sleep 100", "interrupted", True), ("$x", "5"), ("<STDIN>;", ""),
    ('warn "w\\n";', "w"), ("'a\"b'", 'a"b'),
    *called("sub k {\n  my ($n) = @_;\n  my $s = 0;\n  for my $i (1 .. $n) {\n    if ($i % 2) { $s += $i }\n    else { $s -= $i }\n  }\n  return $s;\n}", "k(10)"),
]
PERL_ODD = [
    "'open", '"open', "<<E", "=pod", "(1 +", "[1", "1)", "}", "if (1) {", "sub f {", "# a remark", "1 +", "my @l = <STDIN>; 2", "read(STDIN, $y, 10)", "getc", "system('cat')", "`cat`;", "system('echo sub')", "print 'a'", "print STDERR 'b'",
    "print \"$_\\n\" for 1 .. 2000;", "'x' x 50000", "use strict; $z = 1", "no strict; $z = 1", "local $| = 1", "$0", "$@", "$!", "eval { die 3 }; 1", "goto X", "last", "next", "return 3", "fork or exit; wait; 1", "chr(2) . chr(5) . chr(27)",
    "{ a => 1 }", "sub { 1 }->()", "kill INT => $$; sleep 1", "select STDERR; select STDOUT; 1", "$SIG{ALRM} = sub { die 'alarm' }; alarm 1; 1 while 1", "require Nothing", "$_ = 3", "__PACKAGE__",
]
LUA: List[Line] = [
    ("1 + 1", "2"), ("x = 5", ""), ("x", "5"), ("", ""), ("-- a remark", ""), ("nil", "nil"), ("1, nil, 'b'", "1\tnil\tb"), ("'a\"b\\\\n'", 'a"b\\n'), ("print('hi') return 3", "hi\n3"), ("local y = 1", ""), ("y", "nil"),
    ("nil + 1", "line:1: attempt to perform arithmetic on a nil value"), ("foo(", "line:1: unexpected symbol near <eof>"), ("nothing()", "..attempt to call a nil value (global 'nothing')"), ("error('no', 0)", "no"), ("error({})", "(error object is a table value)"),
    ("error(setmetatable({}, {__tostring = function() return 'own' end}))", "own"), ("while true do end", "interrupted!", True), ("x", "5"), ("while true do end", "interrupted!", True), ("f = function() while true do end end f()", "line:1: interrupted!", True), ("os.execute('sleep 100')", "nil\tsignal\t2", True), ("x", "5"),
    ("io.read()", "nil"), ("io.stderr:write('w')", "..w"), ("arg", "nil"), ("'é'", "é"), ("#'é'", "2"),
    ("x = 5\u2028x * 2", "10"), ("x = 5\u2028x,\u20283 -- a remark\u2028", "5\t3"), ("x = 5\u2028x\u2028-- a remark", "5"), ("x = 7\u2028- 2", ""), ("x", "5"), ("f = function(a) return a end\u2028f(21)", "21"), ("x = f\u2028(3)", ""), ("x", "3"),
    ("function q()\u2028  f(1)\u2028end", ""), ("q()", ""), ("for i = 1, 2 do\u2028  print(i)\u2028end\u2028f 'b'", "1\n2\nb"), ("x = 5\u2028y +", "line:2: syntax error near '+'"), ("x = 5\u2028nil + 1", "line:2: attempt to perform arithmetic on a nil value"),
    *called("function k(n)\n  local s = 0\n  for i = 1, n do\n    if i % 2 == 1 then\n      s = s + i\n    else\n      s = s - i\n    end\n  end\n  return s\nend", "k(10)"),
]
LUA_ODD = [
    "'open", '"open', "[[open", "--[[ open", "(1 +", "{1", "1)", "}", "end", "if true then", "function f(", "1 +", "io.read('a')", "io.lines()()", "io.stdin:read('n')", "os.execute('cat')", "io.popen('cat'):read('a')", "os.execute('echo sub')", "io.write('a')", "io.stderr:write('b\\n')",
    "for i = 1, 2000 do print(i) end", "string.rep('x', 50000)", "print(1, 2)", "error()", "error(nil)", "coroutine.wrap(function() error('c') end)()", "coroutine.yield(1)", "return 3", "goto a", "break", "print = nil", "print(1)", "string.find = nil", "('x'):find('x')", "load = nil",
    "io.output('/dev/null')", "io.write('gone')", "io.output(io.stdout)", "io.stdout:close()", "io.stdout:setvbuf('full')", "io.write('late')", "io.stdout:setvbuf('no')", "setmetatable(_G, {__index = function(_, name) error('strict ' .. name) end})", "undefined", "setmetatable(_G, nil)",
    "string.char(2, 5, 27)", "pcall(error)", "(function(...) return select('#', ...) end)(nil, nil)", "local function g() return g() + 1 end return g()", "os.exit == nil", "require 'nothing'", "_ENV", "\\", "=1", "collectgarbage()",
]
TCL: List[Line] = [
    ("expr {1 + 1}", "2"), ("set x 5", "5"), ("set x", "5"), ("", ""), ("# a remark", ""), ("puts hi; expr 3", "hi\n3"), ("list a {b c}", "a {b c}"), ("set y \"a\\\"b\\\\\"", 'a"b\\'), ("puts -nonewline a", "a"), ("foo", 'invalid command name "foo"'),
    ("expr {1 / 0}", "divide by zero"), ("error no", "no"), ("foo {", "missing close-brace"), ('set z "open', 'missing "'), ("set nothing", 'can\'t read "nothing": no such variable'), ("break", 'invoked "break" outside of a loop'), ("continue", 'invoked "continue" outside of a loop'),
    ("return 7", "7"), ("gets stdin", ""), ("exec cat", ""), ("exec echo sub", "sub"), ("set errorInfo", "..no such variable"), ("set x 6; set x", "6"), ("set é é", "é"), ("info globals nothing*", ""), ("puts stderr w", "w"), ("while 1 {}", "? Ended", True), ("set x 5", "5"),
    *called("proc k {n} {\n  set s 0\n  for {set i 1} {$i <= $n} {incr i} {\n    if {$i % 2} {\n      incr s $i\n    } else {\n      incr s -$i\n    }\n  }\n  return $s\n}", "k 10"),
]
TCL_ODD = [
    "{", "}", '"', "[", "]", "(1 +", "puts {", "proc f {", "if 1 {", "# open {", "\\", "puts a\\", "read stdin", "gets stdin line", "exec cat <@stdin", "exec sh -c {echo e >&2}", "exec sh -c {exit 3}", "puts stdout b", "puts stderr c", "for {set i 0} {$i < 2000} {incr i} {puts $i}",
    "string repeat x 50000", "fconfigure stdout -buffering full", "puts -nonewline late", "fconfigure stdout -buffering none", "close stdout", "puts gone", "set stdout 1", "close stderr", "close stdin", "gets stdin", "fconfigure stdout -translation crlf", "rename puts theirs", "puts 1", "proc puts {args} {theirs own}", "puts 2", "rename puts {}; rename theirs puts",
    "uplevel #0 {set u 1}", "return -code error e", "return -code 7 r", "throw {A B} thrown", "try {error e} on error m {set m}", "after 10; set a 1", "after 10 {set ::done 1}; vwait done", "namespace eval n {proc p {} {return q}}", "n::p", "namespace current", "info level", "info script", "coroutine c eval {yield 1}", "yield",
    "proc r {} {r}; r", "interp create i; i eval {expr 2}", "package require nothing", "source nothing", "load nothing", "string map {a b} abc", "format %c%c%c 2 5 27", "encoding system", "exit_not", "unset x", "set x 5", "array set a {b c}", "parray a", "lsort {c a b}", "eval {set x 1", "list {", "list \\{",
]
GUILE: List[Line] = [
    ("(+ 1 1)", "2"), ("(define x 5)", ""), ("x", "5"), ("(car '())", "..Wrong type"), ('(display "a") 3', "a3"), ('"a\\"b"', '"a\\"b"'), ("", ""), ("; a remark", ""), ("(foo", "..end of input"), ("nothing", "..Unbound variable: nothing"),
    ("(let loop () (loop))", "interrupted", True), ("(sleep 100) 1", "..", True), ("x", "5"), ("(read-line)", "#<eof>"), ("(values 1 2)", "1\n2"), ("'a", "a"), ("#t", "#t"), ('(error "no" 1)', "no 1"), ("(throw 'a 1)", "..a"),
    *called("(define (k n)\n  (let loop ((i 1) (s 0))\n    (if (> i n)\n        s\n        (loop (+ i 1)\n              (if (odd? i)\n                  (+ s i)\n                  (- s i))))))", "(k 10)"),
]
GUILE_ODD = [
    '"open', "#|open", "(1", ")", "(((", "'", "#", "#\\a", "(if #f #f)", "(read)", "(read-char)", '(system "cat")', '(system "echo sub")', "(use-modules (ice-9 rdelim))", "(newline)", '(display "a\\nb")', "(do ((i 0 (+ i 1))) ((= i 2000)) (write i) (newline))",
    "(make-string 20000 #\\x)", "(iota 500)", "(lambda (x) x)", "(define-syntax y (syntax-rules () ((_ a) a)))", "(y 3)", "(call/cc (lambda (k) (k 1)))", "(raise 'r)", "(vector-ref (vector) 1)", "(/ 1 0)", "(assert #f)", "(with-output-to-string (lambda () (display 1)))",
    "(set! x 6)", "(begin)", "(let ((x 1)) x)", "(quote)", "`(1 ,(+ 1 1))", "(exact->inexact 1/3)", "(string->symbol \"a b\")", "(getenv \"HOME\")", "(kill (getpid) SIGINT) (sleep 1)", "(current-module)", "(eof-object)", "(apply + '(1 2))",
]
OCAML: List[Line] = [
    ("1 + 1", "- : int = 2"), ("let x = 5;;", "val x : int = 5"), ('x + "a"', "..This expression has type string"), ("", ""), ("(* a remark *)", ""), ("foo (", "..Syntax error"), ('failwith "no"', 'Exception: Failure "no".'), ("nothing", "..Unbound value nothing"),
    ("while true do () done", "Interrupted.", True), ("x", "- : int = 5"), ('print_string "a"; 3', "a- : int = 3"), ("read_line ()", "Exception: End_of_file."), ('"open', "..String literal not terminated"), ("(* open", "..Comment not terminated"),
    ("1;; 2", "- : int = 1\n- : int = 2"), ("1 / 0", "Exception: Division_by_zero."), ("type t = A | B", "type t = A | B"),
    *called("let k n =\n  let s = ref 0 in\n  for i = 1 to n do\n    if i mod 2 = 1\n    then s := !s + i\n    else s := !s - i\n  done;\n  !s", "k 10", "val k : int -> int = <fun>", "- : int = -5"),
]
OCAML_ODD = [
    "(1 +", "[1", "1)", "end", "let", "let y", "if true then", "match 1 with", "fun x ->", ";;", "1 +", "'", "'a'", "#nothing", "#quit_not", "#show List.map", "input_line stdin", "Sys.command \"cat\"", "Sys.command \"echo sub\"", "print_endline \"a\\nb\"",
    "prerr_endline \"e\"", "for i = 1 to 2000 do print_int i; print_newline () done", "String.make 50000 'x'", "List.init 500 (fun i -> i)", "assert false", "raise Exit", "exception E of int", "raise (E 3)", "let rec f n = f (n + 1) + 1 in f 0", "fun x -> x",
    "module M = struct let a = 1 end", "M.a", "open List", "let x = 6", "Obj.magic 0", "Printf.printf \"%d\" 3", "Format.printf \"%d@.\" 3", "\"\\002\\005\\027\"", "let _ = 1", "1.5 +. 1", "stdout", "flush stdout", "ignore 1",
]
SBCL: List[Line] = [
    ("(+ 1 1)", "2"), ("(+ * 1)", "3"), ("(defparameter *x* 5)", "*X*"), ("*x*", "5"), ("", ""), ("; a remark", ""), ("1 2", "1\n2"), ("(values)", ""), ('"a\\"b"', '"a\\"b"'), ('(princ "a")', 'a\n"a"'), ('(format t "a~%b")', "a\nb\nNIL"),
    ("(car 1)", "..TYPE-ERROR"), ("(foo", "END-OF-FILE: the form isn't complete"), ("nothing", "UNBOUND-VARIABLE: The variable NOTHING is unbound."), ('(error "no ~a" 1)', "SIMPLE-ERROR: no 1"), ("(break)", "SIMPLE-CONDITION: break"), ("(signal 'error)", "NIL"),
    ("(loop)", "SB-SYS:INTERACTIVE-INTERRUPT: interrupted", True), ("(sleep 100)", "SB-SYS:INTERACTIVE-INTERRUPT: interrupted", True), ("*x*", "5"), ("(read-line)", "END-OF-FILE: end of file"), ('(y-or-n-p "so?")', "..END-OF-FILE"), ("(values 1 2)", "1\n2"),
    *called("(defun k (n)\n  (let ((s 0))\n    (loop for i from 1 to n\n          do (if (oddp i)\n                 (incf s i)\n                 (decf s i)))\n    s))", "(k 10)", "K"),
]
SBCL_ODD = [
    '"open', "#|open", "|open", "(1", ")", "(((", "'", "#", "#\\a", "#<a>", "nothing:x", "(read)", "(read-char)", "(read-line *query-io*)", '(sb-ext:run-program "/bin/cat" nil :input t :output t)', '(sb-ext:run-program "/bin/echo" \'("sub") :output t)', '(warn "w")', "(setf y 1)", "(1+ 'a)",
    "(dotimes (i 2000) (print i))", "(make-string 20000 :initial-element #\\x)", "(loop for i below 500 collect i)", "(lambda (x) x)", "(defun g (n) (1+ (g n)))", "(g 1)", "(defmacro m (a) `(list ,a))", "(m 3)", "(throw 'a 1)", "(return 3)", "(go a)", "(abort)", "(continue)", "(invoke-debugger nil)",
    "(in-package :nothing)", "(defclass c () ())", "(make-instance 'nothing)", "(vector 1 2)", "(/ 1 0)", "(/ 1.0 0)", "(assert nil)", "(cerror \"go on\" \"no\")", "(handler-case (error \"e\") (error () 3))", "(setf *standard-output* (make-broadcast-stream))", "(princ 3)", "(setf *standard-output* sb-sys:*stdout*)",
    "(sb-thread:join-thread (sb-thread:make-thread (lambda () 3)))", "(sb-thread:join-thread (sb-thread:make-thread (lambda () (error \"e\"))))", "(map 'string #'code-char '(2 5 27))", "(require :sb-posix)", "(setf *print-base* 2)", "5", "(setf *print-base* 10)", "(list #1='(a) #1#)", "(code-char 233)",
    "(setf *package* 3)", "(let ((*standard-input* nil)) (read))", "(close *standard-output*)",
]
SWIPL: List[Line] = [
    ("X is 1 + 1.", "X = 2."), ("member(X, [a, b])", "X = a.\nX = b."), ("fail.", "false."), ("true", "true."), ("assertz(p(1)), assertz(p(2)).", "true."), ("p(X), Y = f(X, _).", "X = 1, Y = f(1, _).\nX = 2, Y = f(2, _)."), ("", ""), ("foo(", "..Syntax error"),
    ("nothing(1)", "..nothing/1"), ("X is 1/0", "..zero_divisor"), ("repeat, fail", "..int", True), ("p(X), !", "X = 1."), ("read(X)", "X = end_of_file."), ("[user].\u2028q(3).\u2028q(X) :- p(X).", ""), ("q(X)", "X = 3.\nX = 1.\nX = 2."),
    ("write(a), nl", "a\ntrue."), ("X = 'it''s'", "X = 'it\\'s'."), (":- X = 1, write(X), nl.", "1\ntrue."),
    *called("[user].\nk(N, S) :- k(N, 0, S).\nk(0, S, S) :- !.\nk(N, A, S) :-\n  (   N mod 2 =:= 1\n  ->  B is A + N\n  ;   B is A - N\n  ),\n  M is N - 1,\n  k(M, B, S).", "k(10, S)", "", "S = -5."),
]
SWIPL_ODD = [
    "'open", '"open', "/* open", "(a", "[1", "1)", "}", "% a remark", "X =", "X = Y", "_ = 1", "length(L, N)", "between(1, inf, X)", "read_term(user_input, X, [])", "get_char(C)", "shell(cat)", "shell('echo sub')", "format('~w', [a])", "format(user_error, 'e~n', [])",
    "forall(between(1, 2000, X), (write(X), nl))", "numlist(1, 500, L)", "throw(a)", "atom_length(X, Y)", "halt_not", "[user].\u2028open(", "[user].\u2028r(X) :- ", "listing(p/1)", "retract(p(1))", "p(X)", "op(700, xfx, ===>)", "X = (a ===> b)", "catch(throw(a), E, true)",
    "call_cleanup(true, true)", "set_prolog_flag(double_quotes, atom)", "set_prolog_flag(double_quotes, string)", "trace_not", "X = f(Y, Y, Z)", "string_codes(S, [2, 5, 27])", "current_op(P, xfx, is)", "ignore(fail)", "\\+ fail", "X == 1", "a ; b",
]
SQLITE: List[Line] = [
    ("select 1 + 1;", "2"), ("create table t(a, b)", ""), ("insert into t values (1, 'x'), (2, 'it''s')", ""), ("select * from t", "1|x\n2|it's"), ("", ""), ("-- a remark", ""), ("selec 1", "..syntax error"), ("select * from nosuch", "..no such table: nosuch"),
    ("select 'a", "a"), ('select "a', "a"), ("/* open", ""), ("select 1;\u2028select 2", "1\n2"), (".tables", "t"), (".headers on", ""), ("select a from t", "a\n1\n2"), (".mode list", ""), (".headers off", ""), (".nothing", "..unknown command"),
    ("with recursive c(x) as (select 1 union all select x + 1 from c) select count(*) from c", "? Ended", True), ("select count(*) from t", "..no such table"),
    *called("with recursive k(i, s) as (\n  select 0, 0\n  union all\n  select\n    i + 1,\n    case when i % 2 = 0\n      then s + i + 1\n      else s - i - 1\n    end\n  from k where i < 10\n)\nselect s from k where i = 10", "select 3", "-5", "3"),
]
SQLITE_ODD = [
    "select (1", "select 1)", "[open", "`open", "create trigger r after insert on t begin select 1", "begin", "insert into t values (3, 3)", "rollback", "commit", "end", "select", ".read /dev/null", ".read nothing", ".shell cat", ".shell echo sub", ".system true", ".print a", ".show",
    ".help", ".schema", ".dump", ".output /dev/null", "select 5", ".output", ".once /dev/null", "select 6", ".echo on", ".echo off", ".timer off", ".width 3", ".mode box", "select a from t", ".mode list", ".nullvalue none", "select null", "explain select 1", "pragma table_info(t)",
    "select randomblob(3) is null", "select x'020500'", "select hex('a')", "select printf('%5d', 3)", "values (1), (2)", "drop table nothing", "select 1/0", ".changes on", ".changes off", "attach ':memory:' as m", "detach m", "select char(2, 5, 27)",
]
GHCI: List[Line] = [
    ("1 + 1", "2"), ("it + 1", "3"), ("let x = 5", ""), ("x", "5"), ('x + "a"', "..No instance for"), ("", ""), ("-- a remark", ""), ("foo (", "..parse error"), ('error "no"', "..no"), ("nothing", "..not in scope"), ("head []", "..empty list"),
    ("let loop = loop in loop :: Int", "Interrupted.", True), ("x", "5"), ('putStr "a"', "a"), ("getLine", "..end of file"), ('"open', "..lexical error"), ("{- open", "..unterminated"), ("import Data.List", ""), ("sort [3, 1, 2]", "[1,2,3]"), (":t x", "x :: Num p => p"), (":nothing", "..unknown command"),
    *called("k :: Int -> Int\nk n = go 1 0\n  where\n    go i s\n      | i > n = s\n      | odd i =\n          go (i + 1) (s + i)\n      | otherwise =\n          go (i + 1) (s - i)", "k 10"),
]
GHCI_ODD = [
    "(1 +", "[1", "1)", "}", "let", "do", "if True then", "case 1 of", "where", "'", "'a'", ":{", ":}", ":", ":set -Wall", ":unset -Wall", ":m + Data.Char", "toUpper 'a'", ":i Bool", ":!cat", ":!echo sub", "getContents", "getChar", "System.IO.hPutStrLn System.IO.stderr \"e\"", "mapM_ print [1 .. 500]",
    "replicate 5000 'x'", "data T = A | B deriving Show", "A", "undefined", "1 `div` 0", "type S = String", "class C a where c :: a", "instance C Int where c = 3", "c :: Int", "f x = x + 1", "f 2", "let f 0 = 1; f n = n * f (n - 1)", "f 5", "\\x -> x", "return 3", "print 1 >> print 2", "\"\\2\\5\\ESC\"", ":load nothing", "x <- return 7",
]
FRICAS: List[Line] = [
    ("1 + 1", "   (1)  2"), ("x := 5", "   (2)  5"), ("% + 1", "   (3)  6"), ("y := 3;", ""), ("", ""), ("-- a remark", ""), ("(1 +", "..Missing mate"), ("1/0", "..division by zero"), ('"a b"', '   (5)  "a b"'), ("D(sin(t), t)", "   (6)  cos(t)"), ("foo(1)", "..no library operations named foo"), ("x", "   (7)  5"),
    ("f(n) == n + 1", ""), ("f 2", "..3"), ("factor 100", "..2"), ("output 3", "   3"),
]
FRICAS_ODD = [
    '"open', "[1", "1)", "]", "}", "if true then", "while false repeat 1", "for i in 1..3 repeat output i", "for i in 1..300 repeat output i", "x :=", ":=", "a +", "+ a", "g(n) == n^2", "g 3", "g(q)", ")set nothing", ")show Integer", ")what op nothingx", ")help", ")clear properties x", "x", "[i for i in 1..100]", "2^2000", "matrix [[1, 2], [3, 4]]",
    "integrate(1/(1+u^2), u)", "solve(u^2 = 4, u)", "error \"e\"", "output \"a\"", "%%(1)", "nothing", "1.5", "sqrt 2", "3 :: Float", "(1; 2)", "free x", "x; y", "#[1, 2]", "true", "not true", "reduce(+, [1, 2, 3])", "++ a remark", "_a := 1", "'a", ")lisp (+ 1 2)",
]
COQ: List[Line] = [
    ("Check 1.", "1\n     : nat"), ("Compute 1 + 1", "     = 2\n     : nat"), ("Check foo.", "..The reference foo was not found"), ("", ""), ("(* a remark *)", ""), ("Definition f (n : nat) :=\u2028  n + 1.", "f is defined"), ("Compute f 2.", "     = 3\n     : nat"),
    ("Check 1 +.", "..Syntax error"), ("Fixpoint g n := match n with 0 => 0 | S m => g m + g m end.", "..g is defined"), ("Eval compute in g 40.", "..User interrupt", True), ("Compute f 3.", "     = 4\n     : nat"), ("Lemma a : 1 = 1.", "..1 = 1"), ("reflexivity.", "No more goals."), ("Qed.", ""), ("Print a.", "a = eq_refl\n     : 1 = 1"),
    ("Fail Check foo.", "..has indeed failed"),
]
COQ_ODD = [
    'Check "a', "(* open", "Check (1", "Check 1)", "Check 1", ".", "..", "}", "{", "Qed.", "Proof.", "Abort.", "Lemma b : 1 = 2.", "reflexivity.", "auto.", "Show.", "idtac.", "Abort.", "Admitted.", "Goal True.", "exact I.", "Defined.", "Search nat.", "Print nat.", "Locate nat.", "About f.", "Require Import List.", "Import ListNotations.",
    "Check [1; 2].", "Compute [1; 2].", "Print Assumptions a.", "Set Printing All.", "Check 1 + 1.", "Unset Printing All.", "Inductive t := A | B.", "Check A.", "Reset nothing.", "Undo.", "Time Check 1.", "Variable v : nat.", "Check v.", "Notation \"a ++++ b\" := (a + b) (at level 50).", "Check 1 ++++ 2.", "Section s.", "End s.", "Redirect \"/dev/null\" Check 1.",
]

LANGUAGES: Dict[str, Lines] = {
    "node": Lines("node", "process.exit()", "while (true) {}", "'n%d'", "'n%d'", NODE, NODE_ODD),
    "ruby": Lines("ruby", "exit", "1 while true", "'n%d'", '=> "n%d"', RUBY, RUBY_ODD),
    "perl": Lines("perl", "exit", "1 while 1", "'n%d'", "n%d", PERL, PERL_ODD),
    "lua": Lines("lua", "os.exit()", "while true do end", "'n%d'", "n%d", LUA, LUA_ODD),
    "tcl": Lines("tclsh", "exit", "while 1 {}", "set n n%d", "n%d", TCL, TCL_ODD),
    "guile": Lines("guile", "(exit)", "(let loop () (loop))", "'n%d", "n%d", GUILE, GUILE_ODD),
    "ocaml": Lines("ocaml", "exit 0", "while true do () done", '"n%d"', '- : string = "n%d"', OCAML, OCAML_ODD),
    "sbcl": Lines("sbcl", "(exit)", "(loop)", "'n%d", "N%d", SBCL, SBCL_ODD),
    "swipl": Lines("swipl", "halt", "repeat, fail", "X = n%d", "X = n%d.", SWIPL, SWIPL_ODD),
    "sqlite3": Lines("sqlite3", ".quit", "with recursive c(x) as (select 1 union all select x + 1 from c) select count(*) from c", "select 'n%d'", "n%d", SQLITE, SQLITE_ODD),
    "ghci": Lines("ghci", ":quit", "let loop = loop in loop :: Int", '"n%d"', '"n%d"', GHCI, GHCI_ODD),
    "fricas": Lines("fricas", ")quit", "while true repeat y := 1", 'output "n%d"', "   n%d", FRICAS, FRICAS_ODD),
    "coqtop": Lines("coqtop", "Quit.", "Eval compute in (fix g n := match n with 0 => 0 | S m => g m + g m end) 60.", 'Fail Check n%d.', "The command has indeed failed with message:\nThe reference n%d was not found in the current environment.", COQ, COQ_ODD),
}
NAMED: Tuple[str, ...] = tuple(LANGUAGES)
