"""Makes kernels that Jupyter finds."""
import argparse
import importlib.util
import json
import os
import re
import sys
import tempfile
from typing import Any, Dict, Tuple

from .languages import LANGUAGES, PREFIX, language_of
from .sheet import Given, sessions_of

COMMAND = os.path.join(os.path.dirname(os.path.dirname(os.path.realpath(__file__))), "tmhost-jupyter-kernel")
SESSION = re.compile(r"[A-Za-z0-9_-]{1,32}", re.ASCII)
NOT_IN_NAMES = re.compile(r"[^A-Za-z0-9._-]+")


class BadWords(Exception):
    """Why no kernel is made."""


def fixed(words: Tuple[str, ...]) -> Tuple[str, ...]:
    """The words of an interpreter, with full paths of programs: Jupyter starts kernels in the folders of notebooks."""
    return tuple(os.path.abspath(word) if "/" in word and not word.startswith("-") and os.path.exists(word) else word for word in words)


def session_of_sheet(sheet: str, wanted: str) -> Tuple[str, Tuple[str, ...]]:
    sessions = sessions_of(sheet)
    found = [(name, words) for name, words in sessions if wanted in ("", name)]
    if len(found) != 1:
        there = ", ".join(name for name, _ in sessions) or "none"
        raise BadWords(f"--session has to name one of the sessions of {sheet}: {there}")
    return found[0]


def of_sheet(given: argparse.Namespace) -> Tuple[Given, str]:
    """What a kernel for a session of a worksheet is, and what it is called."""
    if given.words or given.tab:
        raise BadWords("a session of a worksheet has its words: --sheet goes with no others, and without --tab")
    session, words = session_of_sheet(given.sheet, given.session)
    stem = os.path.basename(given.sheet).removesuffix(".tmhost")
    name = given.name or PREFIX + NOT_IN_NAMES.sub("-", f"{stem}-{session}").lower()
    return Given(name, session, (), False, os.path.abspath(given.sheet)), f"{stem}: {session} (tmhost)"


def of_words(given: argparse.Namespace) -> Tuple[Given, str]:
    """What a kernel for an interpreter is, and what it is called."""
    if not given.words:
        raise BadWords(f"name a language ({', '.join(LANGUAGES)}), or the words of an interpreter, or a worksheet by --sheet")
    known = LANGUAGES.get(given.words[0]) if len(given.words) == 1 else None
    words = known.words if known else fixed(tuple(given.words))
    session = given.session or (given.words[0] if known else language_of(words))
    if not SESSION.fullmatch(session):
        raise BadWords(f"a session's name has 1 to 32 letters, digits, _ and -, and {session!r} is none: say --session NAME")
    name = given.name or PREFIX + session.lower()
    return Given(name, session, words, given.tab or bool(known and known.tab), ""), f"{known.title if known else session} (tmhost)"


def kernel(given: Given, title: str, program: str, language: str) -> Dict[str, Any]:
    """What Jupyter reads of a kernel."""
    flags = [*(["--sheet", given.sheet] if given.sheet else []), *(["--tab"] if given.tab else [])]
    words = ["start", "-f", "{connection_file}", "--name", given.name, "--session", given.session, *flags, "--", *given.words]
    return {
        "argv": [sys.executable, "-B", "-Xfrozen_modules=off", COMMAND, *words], "display_name": title, "language": language, "interrupt_mode": "signal",
        "env": {"TMHOST": os.path.abspath(program) if "/" in program else program}, "metadata": {"debugger": False}}


def install(given: argparse.Namespace, program: str) -> str:
    """Makes a kernel, and says where."""
    from jupyter_client.kernelspec import KernelSpecManager

    if importlib.util.find_spec("ipykernel") is None:  # which the kernel wants
        raise ImportError("No module named 'ipykernel'")
    made, title = of_sheet(given) if given.sheet else of_words(given)
    language = language_of(made.words) or made.session
    with tempfile.TemporaryDirectory() as folder:
        with open(os.path.join(folder, "kernel.json"), "w", encoding="utf-8") as file:
            json.dump(kernel(made, given.title or title, program, language), file, indent=1)
        os.chmod(folder, 0o755)
        kernels = KernelSpecManager()  # type: ignore[no-untyped-call]
        where = kernels.install_kernel_spec(folder, made.name, user=not given.prefix, prefix=given.prefix or None)  # type: ignore[no-untyped-call]
    return f"{made.name}: {given.title or title}, in {where}"
