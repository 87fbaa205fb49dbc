"""Lines for the interpreters of languages.py, and what of their answers is marked as an error; as those of error_cases.py."""
from typing import Dict, List, Tuple

LANGUAGE_ERRORS: Dict[str, List[Tuple[str, str]]] = {
    "node": [
        ("null.x", "..Uncaught TypeError: Cannot read properties of null"), ("foo(", "Uncaught SyntaxError: Unexpected end of input"), ("console.log('so'); throw new Error('no')", "..Uncaught Error: no"),
        ("await Promise.reject(new Error('r'))", "..Uncaught Error: r"), ("console.error('Uncaught Error: none')", ""), ("try { null.x } catch (e) { 5 }", ""), ("new Error('a value')", ""), ("2", ""),
    ],
    "ruby": [
        ("1 / 0", "..divided by 0 (ZeroDivisionError)"), ("foo(", "..(SyntaxError)"), ("puts 'so'; raise 'no'", "..no (RuntimeError)"), ("nothing", "..(NameError)"), ("puts 'no (RuntimeError)'", ""),
        ("begin; raise 'caught'; rescue; 5; end", ""), ("warn 'careful'", ""), ("2", ""),
    ],
    "perl": [
        ("1 / 0", "Illegal division by zero at input line 1."), ("foo(", "syntax error at input line 1, at EOF"), ('print "so\\n"; die "no\\n"', "no"), ("nothing_here()", "..Undefined subroutine"),
        ('print "died at line 1.\\n"', ""), ('eval { die "caught\\n" }; 5', ""), ('warn "careful\\n"', ""), ("2", ""),
    ],
    "lua": [
        ("nil + 1", "line:1: attempt to perform arithmetic on a nil value"), ("foo(", "line:1: unexpected symbol near <eof>"), ("print('so') error('no', 0)", "no"), ("nothing()", "..attempt to call a nil value"), ("print('line:1: none')", ""),
        ("pcall(error, 'caught')", ""), ("io.stderr:write('careful\\n')", ""), ("2", ""),
    ],
    "tcl": [
        ("expr {1 / 0}", "divide by zero"), ("foo {", "missing close-brace"), ("puts so; error no", "no"), ("nothing", 'invalid command name "nothing"'), ("break", 'invoked "break" outside of a loop'), ("puts {invalid command name}", ""),
        ("catch {error caught} m; set m", ""), ("puts stderr careful", ""), ("set x 2", ""),
    ],
    "guile": [
        ("(/ 1 0)", "..numerical-overflow"), ("(car", "..unexpected end of input"), ('(begin (display "so\\n") (error "no"))', "no"), ("nothing", "Unbound variable: nothing"), ('(display "Error: none")', ""),
        ('(catch #t (lambda () (error "caught")) (lambda _ 5))', ""), ("2", ""),
    ],
    "ocaml": [
        ("1 / 0", "Exception: Division_by_zero."), ("1 +", "..Error: Syntax error"), ('print_string "so\\n"; failwith "no"', 'Exception: Failure "no".'), ("nothing", "..Error: Unbound value nothing"),
        ('1 + "a"', "..Error: This expression has type string"), ('print_string "Error: none\\n"', ""), ('try failwith "caught" with _ -> 5', ""), ("2", ""),
    ],
    "sbcl": [
        ("(/ 1 0)", "..DIVISION-BY-ZERO"), ("(foo", "END-OF-FILE: the form isn't complete"), ('(progn (princ "so") (terpri) (error "no"))', "SIMPLE-ERROR: no"), ("nothing", "UNBOUND-VARIABLE: The variable NOTHING is unbound."), ('(princ "SIMPLE-ERROR: none")', ""),
        ('(handler-case (error "caught") (error () 5))', ""), ('(warn "careful")', ""), ("(make-condition 'error)", ""), ("2", ""),
    ],
    "swipl": [
        ("X is 1 / 0.", "..zero_divisor"), ("foo(.", "..Syntax error"), ("write(so), nl, throw(no).", "Unknown message: no"), ("nothing.", "Unknown procedure: nothing/0"), ("write('Warning: none'), nl.", ""),
        ("catch(throw(caught), _, true).", ""), ("fail.", ""), ("X = 2.", ""),
    ],
    "ghci": [
        ("1 `div` 0", "*** Exception: divide by zero"), ("foo(", "..parse error"), ('putStrLn "so" >> error "no"', "..*** Exception: no"), ("nothing", "..Variable not in scope: nothing"), ('putStrLn "Exception: none"', ""), ("2", ""),
    ],
    "fricas": [("1/0", "..division by zero"), ("foo(", "..Missing mate."), ('error "no"', "..no"), ("nothing", ""), ("2", "")],
    "coqtop": [("Check nothing.", "..The reference nothing was not found"), ("Check (", "..Syntax error"), ("Eval compute in 1 + true.", "..has type \"bool\""), ("Foo.", "..Syntax error"), ("Check 2.", "")],
    "sqlite3": [
        ("select 1 / nothing", "..Parse error"), ("selec 1", '..Parse error: near "selec": syntax error'), ("insert into t values (1)", "Parse error: no such table: t"), (".nothing", "..Error: unknown command"),
        ("select 1/0", ""), ("select 2", ""),
    ],
}
