"""The flag `--version` of a client: its name, and what the program says of itself."""

import argparse
import subprocess
from typing import Any, NoReturn, Optional

from .errors import plain
from .program import find_program


class ShowVersion(argparse.Action):
    """Shows which program the client is over, and ends. It counts also where words are missing that the client wants."""

    def __init__(self, option_strings: Any, dest: str) -> None:
        super().__init__(option_strings, argparse.SUPPRESS, nargs=0, default=argparse.SUPPRESS, help="show this name, and which program it is over")

    def __call__(self, parser: argparse.ArgumentParser, namespace: argparse.Namespace, values: Any, option_string: Optional[str] = None) -> NoReturn:
        try:
            words = [find_program(), "--version"]
            # Its standard error is the user's: a checkout's program may have to be built first.
            done = subprocess.run(words, stdin=subprocess.DEVNULL, stdout=subprocess.PIPE)
        except OSError as error:
            parser.exit(1, f"{parser.prog}: {plain(error)}\n")
        if done.returncode:
            parser.exit(1, f"{parser.prog}: {' '.join(words)} ended with status {done.returncode}\n")
        print(f"{parser.prog}: {done.stdout.decode('utf-8', 'replace').strip()}")
        parser.exit()
