"""The interpreters of languages that `prompted.py` knows beside those of profiles.py. Most have a loop of their own in the folder `loops`, which
evaluates a line that stands in double quotes, tells its value and marks an error, and keeps the commands from what a line reads."""
import os
import re
from typing import Callable, List

from profiles import COMMANDS, HERE, PROFILES as SYSTEMS, Profile
from statements import quoted

LOOPS = os.path.join(HERE, "loops")
OF_SQL = re.compile(rb"""'(?:[^']|'')*'|"(?:[^"]|"")*"|`[^`]*`|\[[^]]*\]|--[^\n]*|/\*.*?\*/""", re.DOTALL)
SQL_OPEN = re.compile(rb"""['"`[]|/\*""")
SQL_CLOSES = {b"'": b"'", b'"': b'"', b"`": b"`", b"[": b"]", b"/*": b"*/"}

SBCL = "exec sbcl --noinform --no-sysinit --no-userinit --disable-debugger --load \"$0\" --eval '(tmhost::answer-lines)' 3<&0 </dev/null"

LUA_RUNS = 200  # of the loop: an interrupt ends one


def in_sql(text: bytes) -> bytes:
    """Statements with what is open in them closed, or a command of the shell, whose lines are commands, too."""
    if text.lstrip().startswith(b".") or not text.strip():
        return text.lstrip()
    is_open = SQL_OPEN.search(OF_SQL.sub(b"", text))
    return text + (SQL_CLOSES[is_open[0]] if is_open else b"") + b"\n;"


def in_ghci(text: bytes) -> bytes:
    """Several lines are one block; a command of ghci's stands alone."""
    return text if re.match(rb"\s*(?::[^{}]|\Z)", text) else b":{\n" + re.sub(rb"(?m)^\s*:[{}]\s*$", b"", text) + b"\n:}"


def in_coq(text: bytes) -> bytes:
    """Sentences, of which the last one ends."""
    bare = re.sub(rb'"[^"]*"|\(\*.*?\*\)', b"", text, flags=re.DOTALL)
    is_open = re.search(rb'"|\(\*', bare)
    text += {b'"': b'"', b"(*": b"*)"}[is_open[0]] if is_open else b""
    return text if not bare.strip() or bare.rstrip().endswith((b".", b"{", b"}")) else text + b"."


def by_loop(prompt: bytes, *words: str, statement: Callable[[bytes], bytes] = quoted, names: str = "", word: str = Profile.word) -> Profile:
    return Profile([one.replace("LOOPS", LOOPS) for one in words], "{0} {1}", prompt, statement=statement, names=names, word=word)


LANGUAGES = {
    "node": by_loop(b"> ", "sh", "-c", 'exec node "$0" 3<&0 </dev/null', "LOOPS/node.js"),
    "ruby": by_loop(b"irb> ", "ruby", "LOOPS/ruby.rb"),
    "perl": by_loop(b"", "perl", "LOOPS/perl.pl"),
    "lua": by_loop(
        b"> ", "sh", "-c", 'exec lua "$@" 3<&0 </dev/null', "lua", "-e", "dofile [[LOOPS/lua.lua]]", *["-e", "debug.getregistry().tmhost()"] * LUA_RUNS,
        names="?{0}", word=r"(?<![\w:])(?<![^.]\.)[A-Za-z_]\w*(?:\.(?!\.)\w*)*\Z",
    ),
    "tcl": by_loop(b"% ", "sh", "-c", 'exec tclsh "$0" 3<&0 </dev/null', "LOOPS/tcl.tcl", names="?{0}", word=r"(?<![\w:])[A-Za-z_]\w*\Z"),
    "guile": by_loop(b"scheme@(guile-user)> ", "guile", "--no-auto-compile", "-s", "LOOPS/guile.scm"),
    "ocaml": by_loop(b"# ", "sh", "-c", 'exec ocaml -noinit -noprompt -I +compiler-libs 3<&0 <"$0"', "LOOPS/ocaml.ml"),
    "sbcl": by_loop(b"* ", "sh", "-c", SBCL, "LOOPS/sbcl.lisp"),
    "swipl": by_loop(b"?- ", "swipl", "-q", "-f", "none", "LOOPS/swipl.pl"),
    "sqlite3": Profile(
        ["sqlite3", "-batch", "-init", os.devnull],
        ".shell printf %s%s {0} {1}",
        b"sqlite> ",
        statement=in_sql,
        noise=rb"(?m)(?<=error) near line \d+(?=: )",
        ends=b"",
        errors=rb"(?m)^(?:Parse error|Runtime error|Error)\b.*(?:\n  .*)*|^unknown option.*|^Usage: .*",
    ),
    "ghci": Profile(
        ["ghci", "-v0", "-ignore-dot-ghci", "-ghci-script", COMMANDS],
        ":!printf '%s%s\\n' {0} {1}",  # `it` stays
        b"ghci> ",
        ("System.IO.hSetBuffering System.IO.stdout System.IO.NoBuffering",),
        in_ghci,
        rb"(?<=<interactive>):\d+(?=:\d)|(?<=interactive:Ghci)\d+",
        errors=rb"(?ms)^<interactive>:\d+:.*|^\*\*\* Exception: .*|^unknown command .*|^Interrupted\.",
    ),
    "fricas": Profile(
        ["fricas", "-nosman"],
        ')lisp (progn (format t "~a~a~%" "{0}" "{1}") (finish-output))',
        b"-> ",
        (")set messages prompt none", ")set messages type off", ")set breakmode nobreak", ")set quit unprotected", ")set output length 200"),
        lambda text: text.replace(b"\n", b" "),
        errors=rb"(?ms)^ *>> .*|^  Line +\d+: .*? error\(s\) parsing *$|^   (?:There are \w+|Cannot find|Error signalled from user code:)\s.*",
        noise=rb"\AValue = NIL\n",
    ),
    # It can't print a text at every place, so the marker is a name that nothing has.
    "coqtop": Profile(
        ["coqtop", "-q"],
        "Check {0}{1}.",
        b"Coq < ",
        ("Set Printing Width 1000.",),
        in_coq,
        noise=rb"(?m)^(?:\w+ < )+|Toplevel input, characters \d+-\d+:\n> Check m[0-9a-f]+\.\n> +\^+\nError: The reference \Z",
        ends=b" was not found in the current environment.\n",
        errors=rb"(?ms)^(?:Toplevel input, characters .*?\n)?(?:> .*?\n)*(?:Error:|Syntax error:) .*",
    ),
}

PROFILES = {**SYSTEMS, **LANGUAGES}
NAMES: List[str] = list(PROFILES)
