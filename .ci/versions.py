"""Which versions of the program and of the kit the code, its cases, clients and pages name."""

import os
import pathlib
import re

ROOT = pathlib.Path(__file__).resolve().parent.parent
# Where the number of a version stands: in the first object of an output, as JSON, code and definitions have it; in `--version`; in names of files; in a client.
VERSION = re.compile(
    r"""(?:hello\W+version\W+|"version", "|codes "version"\) \(string \(codes "|VERSION(?:: &str)? = "|tmhost |tmhost[_-]|^version = "|`git grep -lF |`\.ci/cases )(\d+\.\d+\.\d+)(?!\d)""",
    re.M,
)


def numbers() -> dict[str, list[str]]:
    """Each version of the program that is named, with the places."""
    found: dict[str, list[str]] = {}
    for folder, folders, names in os.walk(ROOT):
        folders[:] = [name for name in folders if name[0] != "." and name not in ("out", "node_modules", "__pycache__")]
        for file in (pathlib.Path(folder, name) for name in sorted(names) if not name.endswith(".png") and name != "CHANGELOG.md"):
            text = file.read_text(encoding="utf-8", errors="ignore")
            for match in VERSION.finditer(text):
                found.setdefault(match[1], []).append(f"{file.relative_to(ROOT)}:{text.count(chr(10), 0, match.start()) + 1}")
    return found


def other_numbers(found: dict[str, list[str]]) -> list[str]:
    """The places of each version but the one that is named most often."""
    most = max(found, key=lambda it: len(found[it]), default="")
    return [f"{place}: version {number}, and elsewhere {most}" for number, places in found.items() if number != most for place in places]


def kits() -> set[str]:
    """The kits that README and `--version` name: one, where both are true."""
    named = [re.search(r"rattle-kit-\w+", (ROOT / name).read_text(encoding="utf-8")) for name in ("README.md", "crates/build_kind/src/lib.rt")]
    return {kit[0] if kit else "none" for kit in named}


def tell(found: dict[str, list[str]]) -> None:
    print(f"kits that README and --version name: {', '.join(sorted(kits()))}")
    print(f"versions that the code, its cases and the pages name: {', '.join(sorted(found))}")
