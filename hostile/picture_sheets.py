"""Worksheets whose answers are hostile pictures, and what is known of these by the pages of the repository."""

from __future__ import annotations

import base64
import binascii
import os
import sys
from typing import NamedTuple, Optional

from area import escaped
from formula_readers import Element, output_of
from model import Difference
from picture_cases import OPENING, Case, png
from picture_pages import Seen, Watched
from program import Program

SESSION = "gp"  # known to no reader as a language
# It answers a line by the bytes of the file of that name.
INTERPRETER = """import sys
def write(data):
    sys.stdout.buffer.write(data)
    sys.stdout.buffer.flush()
write(b"\\2verbatim:\\5")
for line in sys.stdin:
    with open(sys.argv[1] + "/" + line.strip(), "rb") as file:
        write(file.read())
"""
# What a picture in a page begins with, by its format.
BEGINS = {b"image/png;base64": ("PNG", b"\x89PNG\r\n\x1a\n\0\0\0\rIHDR"), b"image/jpeg;base64": ("JPEG", b"\xff\xd8\xff")}


class Field(NamedTuple):
    """A case that is the answer of a field, and how its output is printed."""

    case: Case
    printed: str


def as_printed(text: bytes, kept: bytes = b"") -> str:
    return escaped(text, kept).decode(errors="replace")


def drawn_in_page(case: Case) -> Optional[Element]:
    """The image that a page has of a case, by docs/use/EXPORT.md."""
    name, data = "SVG", case.text
    if case.format in BEGINS:
        name, magic = BEGINS[case.format]
        try:
            data = base64.b64decode(case.text, validate=True)
        except binascii.Error:
            return None
        if len(case.text) % 4 or not data.startswith(magic):
            return None
    elif case.format != b"image/svg+xml" or not data.startswith((b"<svg", b"<?xml")):
        return None
    kind = case.format.decode().removesuffix(";base64")
    return "img", {"alt": f"A picture ({name})", "src": f"data:{kind};base64,{base64.b64encode(data).decode()}"}


def harmless(case: Case) -> Case:
    """One of the same format that is shown in the same way."""
    if drawn_in_page(case) is None:
        return case._replace(text=b"x")
    known = {b"image/png;base64": base64.b64encode(png()), b"image/jpeg;base64": b"/9j/4AAQ"}
    return case._replace(text=known.get(case.format, f"{OPENING}</svg>".encode()))


class Worksheet:
    """A worksheet whose fields are answered by an interpreter that writes these cases."""

    def __init__(self, program: Program, name: str, all_cases: list[Case]) -> None:
        self.program, self.name, self.folder = program, name, os.path.abspath(f"{program.folder}/{name}.blocks")
        self.words = f"{sys.executable} {program.write('interpreter.py', INTERPRETER)} {self.folder}"
        os.mkdir(self.folder)
        for number, case in enumerate(all_cases, 1):
            with open(f"{self.folder}/{number}", "wb") as file:
                file.write(case.block())
        self.path = program.create(name)
        self.evaluate(all_cases)
        self.fields = [Field(case, as_printed(b"{" + case.format + b":") + as_printed(case.text, b"\t\n") + "}") for case in all_cases]

    def evaluate(self, all_cases: list[Case]) -> None:
        """Each case is answered by its block; of one whose format is no tag the interpreter has ended, and the next line starts another."""
        script = f"session {SESSION} plain {self.words}\n"
        script += "".join(f"new {number - 1} {SESSION} {number}\neval {number}\nwait\n" for number in range(1, len(all_cases) + 1))
        told = self.program.run(self.path, script.encode()).stdout.decode()
        for number, case in enumerate(all_cases, 1):
            if (f"\nanswered {number}\n" in told) == case.is_refused():
                raise Difference(f"{case.tries}: the answer of a tag that is{' none' if case.is_refused() else ' one'} is {told!r}")
        same("the lives that ended", told.count(f"ended {SESSION} BadTag lost 1\n"), sum(case.is_refused() for case in all_cases))
        with open(self.path, "rb") as file:
            kept = file.read()
        for case in all_cases:
            if not case.is_refused() and case.block() not in kept:
                raise Difference(f"{case.tries}: the file hasn't its bytes")

    def exported(self, form: str) -> str:
        return output_of([self.program.path, "export", form, self.path])


def same(what: str, got: object, wanted: object) -> None:
    if got != wanted:
        raise Difference(f"{what}: {got!r:.2000} in place of {wanted!r:.2000}")


class Sheets(NamedTuple):
    """A worksheet of hostile pictures, another one of harmless pictures in their place, and a browser where one may see them."""

    hostile: Worksheet
    harmless: Worksheet
    watched: Optional[Watched]

    def seen(self, name: str, page: str) -> Optional[Seen]:
        """The page as Chromium has it, where it may see it."""
        return self.watched.see(name, self.hostile.program.write("page.html", page)) if self.watched else None


def sheets_of(program: Program, name: str, some: list[Case], watched: Optional[Watched]) -> Sheets:
    return Sheets(Worksheet(program, name, some), Worksheet(program, f"{name}.harmless", [harmless(case) for case in some]), watched)


def check_elements(name: str, elements: list[Element], wanted: list[Element]) -> None:
    at = next((at for at, pair in enumerate(zip(elements, wanted)) if pair[0] != pair[1]), min(len(elements), len(wanted)))
    if len(elements) != len(wanted) or at < len(wanted):
        raise Difference(f"{name}: the element {elements[at : at + 1]!r:.500} in place of {wanted[at : at + 1]!r:.500}")
