"""Files of mutants, `*.edit`: which lines of which files of a crate one changes, one after another."""

import dataclasses
import pathlib
from collections.abc import Iterator


class Misfit(Exception):
    """Why a change can't be made."""


@dataclasses.dataclass(frozen=True)
class Change:
    """What stands in a file of the crate once, and what takes its place."""

    file: str
    old: str
    new: str

    def place(self, text: str) -> int:
        """Where it stands in the file's text."""
        if (count := text.count(self.old)) != 1:
            raise Misfit(f"`{self.old.strip()}` stands {count} times in {self.file}, and not once")
        return text.index(self.old)

    def made(self, text: str) -> str:
        self.place(text)
        return text.replace(self.old, self.new)


def changes(edit: pathlib.Path) -> Iterator[Change]:
    file, old = "", ""
    for line in edit.read_text().splitlines():
        word, _, rest = line.partition(":")
        rest = rest.removeprefix(" ")
        if word == "file":
            file = rest.strip()
        elif word == "old":
            old = rest
        elif word == "new":
            yield Change(file, old, rest)
