"""What stands in no README beside it: files of definitions and of code of the crates, modules of the clients, and what lies in hostile, install and theorem."""

import pathlib
import re
from collections.abc import Iterable, Iterator

ROOT = pathlib.Path(__file__).resolve().parent.parent
FOLDERS = ("hostile", "install", "theorem")
MODULES = (".py", ".js", ".el")
# A file between backquotes, maybe with folders before it and words of a command after it.
NAMED = re.compile(r"`((?:[\w.-]+/)*[\w.-]+)(?: [^`\n]*)?`")
# Of what a file of code consists that only lists others.
OF_LIST = re.compile(r"//[^\n]*|#!?\[[^\]\n]*\]|(?:pub )?(?:mod|use) [^;{}]*(?:\{[^;{}]*\})?;|\s+")


def readme_of(folder: pathlib.Path) -> str:
    """The text of a folder's README, where it has one."""
    file = folder / "README.md"
    return file.read_text(encoding="utf-8") if file.exists() else ""


def definitions() -> Iterator[str]:
    """Files of definitions that the README of their crate doesn't name."""
    for file in sorted(ROOT.glob("crates/*/specs/*.antt")):
        text = readme_of(file.parent.parent)
        if file.stem not in ("Lib", "inside") and text and f"specs/{file.name}" not in text:
            yield f"{file.relative_to(ROOT)}: its crate's README doesn't name it"


def of_crates() -> Iterator[str]:
    """Files of code that the README of their crate doesn't name, where it has one: those with tests have none. A file that only lists others needs no name."""
    for crate in sorted(ROOT.glob("crates/*")):
        text = readme_of(crate)
        for file in sorted((crate / "src").rglob("*.rt")) if text else ():
            is_list = file.name == "lib.rt" and not OF_LIST.sub("", file.read_text(encoding="utf-8"))
            if not is_list and f"`{file.relative_to(crate)}`" not in text:
                yield f"{file.relative_to(ROOT)}: its crate's README doesn't name it"


def files_in(text: str, folders: Iterable[str]) -> set[str]:
    """The files that a text names. One that stands there without its folder lies in that of the one before it in its line, the first of a line in any of these."""
    found: set[str] = set()
    for line in text.split("\n"):
        where = list(folders)
        for path in NAMED.findall(line):
            folder, slash, name = path.rpartition("/")
            where = [folder] if slash else where
            found.update(f"{each}/{name}" for each in where)
    return found


def of_clients() -> Iterator[str]:
    """Modules of clients that neither their README names nor that of all clients, which says a client's in the row that begins with its name, or by their path."""
    every = readme_of(ROOT / "clients")
    by_path = files_in(every, ())
    for client in sorted(it for it in (ROOT / "clients").iterdir() if it.is_dir()):
        folders = (".", "lib", "page", "tmhost", f"tmhost_{client.name}")
        row = "\n".join(line for line in every.split("\n") if line.startswith(f"| {client.name} |"))
        named = files_in(readme_of(client) + "\n" + row, folders)
        for file in sorted(it for folder in folders for it in (client / folder).glob("*") if it.suffix in MODULES and it.name != "__init__.py"):
            name = f"{file.parent.relative_to(client)}/{file.name}"
            if name not in named and f"{client.name}/{name}" not in by_path:
                yield f"{file.relative_to(ROOT)}: neither its client's README names it, nor that of clients"


def of_folders() -> Iterator[str]:
    """What the README of one of these folders doesn't name. A command without its folder isn't named: it may be one of tmhost's."""
    for folder in FOLDERS:
        named = set(NAMED.findall(readme_of(ROOT / folder)))
        for file in sorted(it for it in (ROOT / folder).iterdir() if it.name != "README.md" and not it.name.startswith((".", "__"))):
            if f"{folder}/{file.name}" not in named and not (file.suffix and file.name in named):
                yield f"{folder}/{file.name}: {folder}/README.md doesn't name it"


def code() -> list[str]:
    """All files of code that no README names."""
    return [*of_crates(), *of_clients(), *of_folders()]
