"""Words of interpreters that a user may start a session with: those that are on this machine. They are commands, which other machines have elsewhere."""

import os
import re
import shutil
from typing import Dict, Iterator, List, Tuple, Union

from tmhost.program import search_path
from tmhost.starting import COMMAND, PROGRAMS

Suggestion = Dict[str, Union[str, bool]]

# The adapter with its words, and whether it answers completions. A session is named after the adapter, in small letters.
ADAPTERS: List[Tuple[str, bool]] = [
    ("python", True),
    ("gp", True),
    ("sh", False),
    ("bc", False),
    ("octave", True),
    ("R", True),
    ("gap", False),
    ("maxima --latex", True),
    ("M2 --latex", False),
    ("giac --latex", False),
    ("singular", False),
    ("gnuplot", False),
    ("yacas", False),
    ("fricas", False),
    ("coqtop", False),
    ("node", False),
    ("ruby", False),
    ("perl", False),
    ("lua", True),
    ("tcl", True),
    ("guile", False),
    ("ocaml", False),
    ("ghci", False),
    ("sbcl", False),
    ("swipl", False),
    ("sqlite3", False),
]

# Where kernels of Jupyter lie, in the order in which it looks for them, and the package of Debian's Python that the adapter wants.
KERNELS = ("~/.local/share/jupyter/kernels", "/usr/local/share/jupyter/kernels", "/usr/share/jupyter/kernels")
JUPYTER_CLIENT = "/usr/lib/python3/dist-packages/jupyter_client"
KERNEL = re.compile(r"[A-Za-z0-9_-]{1,24}", re.ASCII)  # a name that a session's may be made of


def kernels() -> List[str]:
    """The names of the kernels of Jupyter that are here."""
    if not os.path.isdir(JUPYTER_CLIENT):
        return []
    folders = [os.path.expanduser(folder) for folder in KERNELS]
    found = [name for folder in folders if os.path.isdir(folder) for name in sorted(os.listdir(folder)) if os.path.isfile(os.path.join(folder, name, "kernel.json"))]
    return [name for name in dict.fromkeys(found) if KERNEL.fullmatch(name)]


def known() -> Iterator[Tuple[str, str, bool]]:
    """The name of each session, its adapter with its words, and whether that answers completions."""
    for words, tab in ADAPTERS:
        name = words.split()[0]
        if shutil.which(PROGRAMS[name][0]):
            yield name.lower(), COMMAND + words, tab
    yield from ((f"jupyter-{name}", f"tmhost-jupyter {name}", True) for name in kernels())


def suggestions() -> List[Suggestion]:
    """Those whose adapter is a command here."""
    path = search_path()
    return [{"name": name, "words": words, "tab": tab} for name, words, tab in known() if shutil.which(words.split()[0], path=path)]
