"""Prose: fields of a session whose only word is `true`, and which are never evaluated, as tmhost-notebook keeps them."""
import re
from collections.abc import Callable, Iterator

from tmhost_fences.fields import LINE_END, LONGEST_INPUT

from .fences import ATTRIBUTE, Fence, Html, Paragraph, Reader, fences_of

NAME = "prose"
WORDS = ("true",)
NAMES = re.compile(r"prose(-\d{1,6})?")
ITEM = re.compile(r"(?:[*+-]|\d{1,9}[.)])[ \t]+\S")
# A line of dashes that is no underline, with text directly below: for pandoc and others it may begin a table or front matter that goes on
# over the ends of blocks of code.
DASHES = re.compile(r" {0,3}-[- ]*-[- ]*")
REFERENCE = re.compile(r"\]:")
# A line like a fence. Where CommonMark takes it for text, as in a block of HTML, others may not.
MARK = re.compile(r"^[ \t>*+\d.)-]*(?:```|~~~)", re.MULTILINE)
HTML = [(re.compile("<!--"), "-->"), (re.compile(r"<\?"), "?>"), (re.compile("<!\\["), "]]>"), (re.compile("<![A-Za-z]"), ">")]
VERBATIM = re.compile(r"<(pre|script|style|textarea)\b", re.IGNORECASE)
# A tag with a value in quotes, or one that ends an element; and what follows where it is whole.
TAG = re.compile(r"<(?:/(?=[A-Za-z])|[A-Za-z](?=[^<>]*=\s*[\"']))")
WHOLE_TAG = re.compile(rf"</[A-Za-z][A-Za-z0-9-]*\s*>|<[A-Za-z][A-Za-z0-9-]*(?:{ATTRIBUTE})*\s*/?>")
WITHIN = r"(?:[^$\n]|\n(?![ \t]*\n))"  # a formula, which goes over no empty line
MATH = re.compile(rf"\$\${WITHIN}+\$\$|\$[^$\s](?:{WITHIN}*[^$\s])?\$(?!\d)")
NO_COMMAND = re.compile(r"\\[^A-Za-z]")
COMMAND = re.compile(r"\\[A-Za-z]")
PAIRS = (("[", "]"), ("{", "}"), ("\\begin", "\\end"))


def is_prose(session: str) -> bool:
    """Whether a session is one of prose by its name."""
    return NAMES.fullmatch(session) is not None


def size_of(text: str) -> int:
    """The bytes of a text as an input."""
    return len(text.replace("\n", LINE_END).encode("utf-8", "surrogatepass"))


def is_open_fence(reader: Reader) -> bool:
    """Whether a fence or HTML is open that is in no quote and no list."""
    return not reader.containers and isinstance(reader.leaf, (Fence, Html))


def cut(text: str, begins: Callable[[Reader, str, str], bool]) -> list[str]:
    """The text in blocks. `begins` says whether one begins with a line, by what is open there and the line before."""
    reader, blocks = Reader(), list[list[str]]()
    for number, line in enumerate(text.split("\n"), 1):
        if blocks and not begins(reader, blocks[-1][-1], line):
            blocks[-1].append(line)
        else:
            blocks.append([line])
        reader.take(number, line)
    return ["\n".join(block) for block in blocks]


def begins_block(reader: Reader, before: str, line: str) -> bool:
    """Whether a line stands at the left edge after an empty one, and no fence and no HTML is open."""
    return not before.strip() and bool(line[:1].strip()) and not is_open_fence(reader)


def begins_item(reader: Reader, _: str, line: str) -> bool:
    """Whether a line is a further item of a list that isn't in another one."""
    return bool(reader.containers) and ITEM.match(line) is not None


def blocks_of(text: str) -> Iterator[str]:
    """The text in blocks, and those that no field can hold in the items of their lists."""
    for block in cut(text, begins_block):
        yield from [block] if size_of(block) <= LONGEST_INPUT else cut(block, begins_item)


def parts_of(text: str) -> list[str]:
    """Prose as inputs that fields can hold, each with as many of its blocks as it holds. A block that no field can hold stays whole."""
    if size_of(text) <= LONGEST_INPUT:
        return [text]
    parts: list[str] = []
    for block in blocks_of(text):
        joined = f"{parts[-1]}\n{block}" if parts else block
        if parts and size_of(joined.rstrip()) <= LONGEST_INPUT:
            parts[-1] = joined
        else:
            parts.append(block)
    return [part.rstrip() for part in parts]


def outside_of_fences(lines: list[str], fences: list[Fence]) -> str:
    """The lines that are in no closed fence, each at its place."""
    kept = list(lines)
    for fence in fences:
        if fence.is_closed:
            kept[fence.line - 1 : fence.end] = [""] * (fence.end - fence.line + 1)
    return "\n".join(kept)


def is_open_after(lines: list[str]) -> bool:
    """Whether CommonMark takes what stands after these lines for a part of what is open there."""
    reader = Reader()
    for number, line in enumerate([*lines, "", "```after", "```"], 1):
        reader.take(number, line)
    last = reader.fences[-1] if reader.fences else None
    return last is None or last.info != "after" or bool(last.lines) or reader.leaf is not None or bool(reader.containers)


def has_open_html(text: str) -> bool:
    """Whether something begins that readers take to its end over empty lines, without that end."""
    if any(text.find(end, found.end()) < 0 for begin, end in HTML for found in begin.finditer(text)):
        return True
    if any(not WHOLE_TAG.match(text, found.start()) for found in TAG.finditer(text)):
        return True
    return any(not re.search(rf"</{found[1]}", text[found.end() :], re.IGNORECASE) for found in VERBATIM.finditer(text))


def is_open(text: str, begin: str, end: str) -> bool:
    """Whether one of these pairs has no end in the text."""
    depth = 0
    for found in re.finditer(f"{re.escape(begin)}|{re.escape(end)}", text):
        depth = depth + 1 if found[0] == begin else max(0, depth - 1)
    return depth > 0


def has_open_pair(text: str) -> bool:
    """Whether a bracket, or a brace or an environment of TeX, has no end, which pandoc looks for over the ends of blocks. Of formulas between
    dollars each reader knows the end."""
    plain = NO_COMMAND.sub("", MATH.sub("", text))
    pairs = PAIRS if COMMAND.search(plain) else PAIRS[:1]
    return any(is_open(plain, begin, end) for begin, end in pairs)


def has_open_dashes(lines: list[str]) -> bool:
    """Whether a line of dashes stands directly above text, and is no underline of a paragraph. No line is one of a fence."""
    reader = Reader()
    for number, (before, line, below) in enumerate(zip(["", *lines], lines, [*lines[1:], ""]), 1):
        is_underline = isinstance(reader.leaf, Paragraph) and "|" not in before and not DASHES.fullmatch(before)
        if DASHES.fullmatch(line) and below.strip() and not is_underline:
            return True
        reader.take(number, line)
    return False


def open_end(text: str) -> str | None:
    """Why what stands after this text, an empty line between them, might be read as a part of it, by CommonMark or by other readers."""
    lines = text.split("\n")
    outside = outside_of_fences(lines, fences_of(text))
    if is_open_after(lines) or MARK.search(outside):
        return "a fence or HTML in it has no end"
    if has_open_html(outside):
        return "HTML in it has no end"
    if has_open_dashes(outside.split("\n")):
        return "it has a line of dashes with text directly below, which may begin a table or front matter"
    return "a bracket or TeX in it has no end" if has_open_pair(outside) else None
