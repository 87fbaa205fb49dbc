"""Which Python runs a command: the first one on PATH, or Debian's where that has more of the modules that the command needs."""
import importlib.util
import os
import signal
import subprocess
import sys
from typing import Sequence, Tuple

DEBIANS = "/usr/bin/python3"  # packages as python3-yaml are for this one alone
COUNT = "import importlib.util as u, sys; sys.exit(0 if sys.version_info < {} else 100 + sum(u.find_spec(one) is not None for one in {}))"
BASE = 100  # of the status by which it tells how many there are


def count_here(modules: Sequence[str]) -> int:
    return sum(importlib.util.find_spec(one) is not None for one in modules)


def count_there(modules: Sequence[str], least: Tuple[int, int]) -> int:
    """How many of the modules Debian's Python has; below 0 where it isn't there, or is too old."""
    try:
        return subprocess.run([DEBIANS, "-c", COUNT.format(least, list(modules))], stdin=subprocess.DEVNULL, stderr=subprocess.DEVNULL).returncode - BASE
    except OSError:
        return -1


def choose(modules: Sequence[str], least: Tuple[int, int] = (3, 9)) -> None:
    """Goes on in Debian's Python where that has more of the modules, or this one is too old. A Control-C that comes while that one starts waits until it
    is here, too, since a Python without its first modules would show a traceback for it."""
    signal.pthread_sigmask(signal.SIG_UNBLOCK, {signal.SIGINT})
    is_old = sys.version_info < least
    here = -1 if is_old else count_here(modules)
    if here < len(modules) and sys.executable != DEBIANS and count_there(modules, least) > here:
        signal.pthread_sigmask(signal.SIG_BLOCK, {signal.SIGINT})
        try:
            os.execv(DEBIANS, [DEBIANS, "-B", *sys.argv])
        finally:
            signal.pthread_sigmask(signal.SIG_UNBLOCK, {signal.SIGINT})
    if is_old:
        sys.exit(f"{os.path.basename(sys.argv[0])}: it wants Python {least[0]}.{least[1]}, and {sys.executable} is {sys.version.split()[0]}")
