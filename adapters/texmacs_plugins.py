"""Plugins that GNU TeXmacs ships: what starts each, what it is sent for an input, and where its answer ends."""
import dataclasses
import glob
import os
import re
import shutil
import subprocess
import sys
from typing import Callable, Dict, List, Tuple

BIN = "BIN"  # in words stands for the folder of TeXmacs' own programs
PLUGINS = "PLUGINS"  # for that of its plugins
MARK, SIZE = b"MARK", b"SIZE"  # in a request stand for a name that is nowhere else, and its length
ASKED_OF_SCILAB = b"mprintf('%sverbatim:MARK%s', ascii(2), ascii(5))\n"
COMPLETES = b'\x10(complete "MARK" SIZE)\n'
AFTER = 0.2  # seconds after the end of an answer in which more of it may come
SETTLED = 1.0  # seconds after its greeting
# Where its plugins and programs are, in the order in which they are looked for.
ROOTS = ("/usr/share/texmacs", "/usr/share/texmacs/TeXmacs", "/usr/local/share/TeXmacs", "/usr/share/TeXmacs")
BINS = ("/usr/libexec/*/texmacs/bin", "/usr/libexec/*/*/texmacs/bin", "/usr/lib/texmacs/*/bin", "/usr/lib/*/texmacs/bin", "/usr/local/libexec/TeXmacs/bin")


def framed(line: bytes) -> bytes:
    """As `SourceCode` with its own end."""
    return line + b"\n<EOF>\n"


def in_one(line: bytes) -> bytes:
    return line.replace(b"\n", b" ") + b"\n"


def as_it_is(line: bytes) -> bytes:
    return line + b"\n"


def closed(line: bytes) -> bytes:
    """As Maxima's plugin sends it."""
    line = line.rstrip()
    return in_one(b"0;" if not line else line if line.endswith((b";", b"$")) else line + b";")


def in_r(line: bytes) -> bytes:
    return line.replace(b"\n", b";;") + b"\n"


@dataclasses.dataclass(frozen=True)
class Plugin:
    """`ends` says where the blocks of an answer end: "prompt", with the one that has or is the prompt; "block", with the first that isn't empty of
    all but orders. Where there is a `request`, it ends before the answer to that. `begins` says the same of the greeting. A plugin that
    `skips` an empty line says nothing to it."""

    words: Tuple[str, ...]
    form: Callable[[bytes], bytes]
    ends: str
    begins: str = "prompt"
    skips: bool = False
    needs: str = ""  # the program that it stands on
    request: bytes = b""  # what is sent after an input, whose answer has the MARK
    heeds: bool = True  # an interrupt; one that doesn't ends by it
    ready: bytes = b""  # a pattern of the prompt at which it waits for a new input, and for no answer or rest of one


def tmpy(name: str, needs: str, request: bytes = b"") -> Plugin:
    words = (sys.executable, "-X", "utf8", f"{PLUGINS}/tmpy/session/tm_{name}.py")
    return Plugin(words, framed, "request" if request else "block", "prompt", True, needs, request)


SCILAB = f"exec('{PLUGINS}/scilab/scilab/init-scilab.sce', 'errcatch', -1); mprintf('%sverbatim:Scilab%s', ascii(2), ascii(5))"
KNOWN: Dict[str, Plugin] = {
    "python": tmpy("python", "python3", COMPLETES),
    "sympy": tmpy("sympy", "python3", COMPLETES),
    "gnuplot": tmpy("gnuplot", "gnuplot"),
    "graphviz": tmpy("graphviz", "dot"),
    "asymptote": tmpy("asy", "asy"),
    **{name: tmpy(name, "latex") for name in ("dratex", "tikz", "xypic")},
    "plantuml": tmpy("plantuml", "plantuml"),
    "graph": tmpy("graph", "dot"),
    "eukleides": Plugin((sys.executable, "-X", "utf8", f"{PLUGINS}/eukleides/python/tm_eukleides.py"), framed, "block", "prompt", True, "eukleides"),
    "octave": Plugin(("octave", "--no-gui", "-qi", f"{PLUGINS}/octave/octave/tmstart.m"), framed, "prompt", skips=True, needs="octave"),
    "maxima": Plugin((f"{BIN}/tm_maxima", "VERSION", "LISP"), closed, "prompt", needs="maxima", ready=rb"\(%i\d+\) "),
    "r": Plugin((f"{BIN}/tm_r",), in_r, "prompt", "text", needs="R", ready=rb"> "),
    "shell": Plugin((f"{BIN}/tm_shell",), in_one, "block", "text", needs="sh", heeds=False),
    "pari": Plugin(("gp", "--texmacs"), in_one, "request", "text", needs="gp", request=b'print("MARK")\n'),
    "yacas": Plugin(("yacas", "--texmacs"), in_one, "block", "text", True, needs="yacas"),
    "fricas": Plugin(("fricas", "-texmacs"), in_one, "prompt", needs="fricas"),
    "axiom": Plugin((f"{BIN}/tm_axiom",), in_one, "prompt", needs="axiom"),
    "lisp": Plugin((f"{BIN}/tm_lisp", "Clisp"), in_one, "prompt", skips=True, needs="clisp"),
    "scilab": Plugin(("stdbuf", "-o0", "scilab-cli", "-nb", "-e", SCILAB), as_it_is, "request", "block", needs="scilab-cli", request=ASKED_OF_SCILAB, heeds=False),
    "giac": Plugin(("giac", "--texmacs"), in_one, "prompt", needs="giac"),
    "macaulay2": Plugin(("M2", "--texmacs"), in_one, "request", "block", needs="M2", request=b'<< "MARK" << endl;\n'),
}


def root_folder() -> str:
    """What TeXmacs calls its path."""
    named = os.environ.get("TEXMACS_PATH")
    return next((path for path in ([named] if named else ROOTS) if os.path.isdir(os.path.join(path, "plugins"))), ROOTS[0])


def bin_folder(root: str) -> str:
    named = os.environ.get("TEXMACS_BIN_PATH", "")
    found = [os.path.join(named, "bin"), os.path.join(root, "bin"), *(path for pattern in BINS for path in sorted(glob.glob(pattern)))]
    return next((path for path in found if os.path.isfile(os.path.join(path, "tm_maxima")) or os.path.isfile(os.path.join(path, "tm_shell"))), found[1])


def words_of(name: str) -> List[str]:
    """What starts a plugin."""
    root = root_folder()
    words = [word.replace(PLUGINS, root + "/plugins").replace(BIN, bin_folder(root)) for word in KNOWN[name].words]
    if name == "maxima":
        reported = subprocess.run(["maxima", "--list-avail"], stdout=subprocess.PIPE, stderr=subprocess.DEVNULL).stdout.decode()
        found = re.search(r"version ([^,]*), lisp (\S+)", reported)
        words = [words[0], *(found.groups() if found else ())]
    return words


def environment() -> Dict[str, str]:
    """What TeXmacs tells its plugins, with a folder that they put files into."""
    home = os.environ.get("TEXMACS_HOME_PATH") or os.path.expanduser("~/.TeXmacs")
    os.makedirs(os.path.join(home, "system", "tmp"), exist_ok=True)
    return {**os.environ, "TEXMACS_PATH": root_folder(), "TEXMACS_HOME_PATH": home}


def lacking(name: str) -> str:
    """What isn't here of what a plugin needs; nothing where all is."""
    plugin, words = KNOWN[name], words_of(name)
    missing = [plugin.needs] if plugin.needs and shutil.which(plugin.needs) is None else []
    missing += [word for word in words if os.path.isabs(word) and not os.path.exists(word)]
    if os.path.isabs(words[0]) or words[0] == plugin.needs or shutil.which(words[0]):
        return ", ".join(missing)
    return ", ".join([*missing, words[0]])
