"""Which names can stand at the end of a line of gp: those that gp tells, and those to which earlier lines gave a value."""
import re
from typing import Set, Tuple

QUESTIONS = (b"\\c", b"?.", b"?0")  # to gp: for its functions, its members, and the functions that a user has made
OF_CURVES = "a1 a2 a3 a4 a6 b2 b4 b6 b8 c4 c6".split()  # members that gp lists as `a1-a6, b2-b8, c4-c6`
MOST = 10_000  # names of earlier lines
NUMBER = re.compile(r"(?<!\w)[\d.]+\w*\Z")  # what has its dot itself
GIVEN = re.compile(rb"(\.\s*)?\b([A-Za-z]\w*)\s*(?:\([^()]*\)\s*)?(?:[-+*/\\%^]|<<|>>|\\/)?=(?!=)")  # what is assigned to, and a member's dot
MEMBER = re.compile(r"^([A-Za-z]\w*(?:, *[A-Za-z]\w*)*) *:", re.MULTILINE)


def word_at_end(text: str) -> Tuple[bool, str]:
    """Whether a member stands at the end of a text, and the word there, which is empty where there is none."""
    found = re.search(r"(\.?)\s*(\w*)\Z", text)
    dot, word = (found[1], found[2]) if found else ("", "")
    before = text[:found.start()] if found else ""
    if dot and (NUMBER.search(before) or not re.search(r"[\w)\]}]\s*\Z", before)):
        return False, ""
    return bool(dot), word if not word[:1].isdigit() else ""


def as_text(reported: bytes) -> str:
    return reported.decode("utf-8", "replace")


class Names:
    """The names of a session that its lines have."""

    def __init__(self) -> None:
        self.given: Set[str] = set()
        self.members: Set[str] = set(OF_CURVES)

    def read(self, line: bytes) -> None:
        """Takes the names to which a line gives a value."""
        for dot, name in GIVEN.findall(line):
            names = self.members if dot else self.given
            if len(names) < MOST:
                names.add(name.decode())

    def after(self, front: bytes, functions: bytes, members: bytes, made: bytes) -> Tuple[str, Set[str]]:
        """The word at the end of a text, and the names that may stand there; what gp has reported to the questions comes after the text."""
        is_member, word = word_at_end(as_text(front))
        if is_member:
            found = {name for group in MEMBER.findall(as_text(members)) for name in group.replace(" ", "").split(",")}
            return word, found | self.members
        return word, {*as_text(functions).split(), *as_text(made).split(), *self.given} if word else set()
