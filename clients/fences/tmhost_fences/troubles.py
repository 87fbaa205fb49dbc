"""What keeps a text from being read, or woven, or imported."""
import importlib
import sys
from typing import Any

OF_PIP = {"markdown_it": "markdown-it-py", "yaml": "pyyaml"}  # names under which pip has a module, where it has another one


class Trouble(Exception):
    """It says in words what went wrong, in one line or several. Nothing was written then."""

    def __init__(self, *lines: str) -> None:
        super().__init__("\n".join(lines))
        self.lines = lines


class Missing(Trouble):
    """A module isn't installed, so nothing is known of the text."""


def needed(module: str, package: str) -> Any:
    """A module that isn't of Python's own library."""
    try:
        return importlib.import_module(module)
    except ImportError as error:
        by_pip = f"{sys.executable} -m pip install {OF_PIP.get(module, module)}"
        raise Missing(f"there is no {module}: install Debian's package {package} (apt-get install {package}), or {by_pip}") from error
