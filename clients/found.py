"""Which program the tests of clients run over: the one that TMHOST names, one that was built in this tree (the proved one first), or the one on PATH. As a
command it prints the path."""

import os
import shutil
from typing import Optional

CLIENTS = os.path.dirname(os.path.realpath(__file__))
BUILT = [os.path.join(os.path.dirname(CLIENTS), "crates", "tmhost", "out", *names) for names in (("tmhost",), ("checked", "tmhost"))]


def find_program() -> Optional[str]:
    """Its path. None where there is none; where TMHOST names one that isn't there, it is what TMHOST names."""
    built = [path for path in BUILT if os.path.isfile(path)]
    named = os.environ.get("TMHOST") or (built[0] if built else shutil.which("tmhost"))
    return os.path.abspath(shutil.which(named) or named) if named else None


if __name__ == "__main__":
    print(find_program() or BUILT[0])
