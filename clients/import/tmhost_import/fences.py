"""A CommonMark text line by line: what is open after each line, which a parser of whole texts doesn't tell. Prose is cut and closed by it.

The fences of documents are found by tmhost_fences. Blocks are found as CommonMark 0.31.2 says: which containers go on, which begin, and what a
line is then. What is no fence is distinguished only as far as it decides where one begins. References are paragraphs here: a line of `=` or `-`
after one is taken for a heading.
"""
import dataclasses
import re

TAB = 4  # columns
MOST_LEVELS = 100  # of containers; what would open one more is text
FENCE = re.compile(r"(?:(`{3,})([^`]*)|(~{3,})(.*))")
HEADING = re.compile(r"#{1,6}(?:[ \t].*)?")
UNDERLINE = re.compile(r"(?:=+|-+)[ \t]*")
MARKER = re.compile(r"(?:[*+-]|(\d{1,9})[.)])(?=[ \t]|$)", re.ASCII)
ATTRIBUTE = r"\s+[A-Za-z_:][A-Za-z0-9_.:-]*(?:\s*=\s*(?:[^\s\"'=<>`]+|'[^']*'|\"[^\"]*\"))?"
ELEMENTS = (
    "address|article|aside|base|basefont|blockquote|body|caption|center|col|colgroup|dd|details|dialog|dir|div|dl|dt|fieldset|figcaption|"
    "figure|footer|form|frame|frameset|h[1-6]|head|header|hr|html|iframe|legend|li|link|main|menu|menuitem|nav|noframes|ol|optgroup|option|"
    "p|param|search|section|summary|table|tbody|td|tfoot|th|thead|title|tr|track|ul"
)
BLANK = re.compile(r"[ \t]*$")
# How blocks of HTML begin, and what ends each: a line that has it, or an empty line.
HTML = [
    (re.compile(r"<(?:script|pre|textarea|style)(?:[\s>]|$)", re.IGNORECASE), re.compile("</(?:script|pre|textarea|style)>", re.IGNORECASE)),
    (re.compile(r"<!--"), re.compile("-->")),
    (re.compile(r"<\?"), re.compile(r"\?>")),
    (re.compile(r"<![A-Za-z]"), re.compile(">")),
    (re.compile(r"<!\[CDATA\["), re.compile(r"\]\]>")),
    (re.compile(rf"</?(?:{ELEMENTS})(?:\s|/?>|$)", re.IGNORECASE), BLANK),
]
# One that can't stand directly after a line of a paragraph.
TAG = re.compile(rf"(?:<[A-Za-z][A-Za-z0-9-]*(?:{ATTRIBUTE})*\s*/?>|</[A-Za-z][A-Za-z0-9-]*\s*>)[ \t]*")


class Line:
    """A line that is taken from the left."""

    def __init__(self, text: str) -> None:
        self.text = text
        self.at = 0
        self.column = 0
        self.spare = 0  # columns that are left of a tab of which a part was taken

    def rest(self) -> str:
        return " " * self.spare + self.text[self.at :]

    def body(self) -> str:
        """What is left after the blanks."""
        return self.text[self.at :].lstrip(" \t")

    def indent(self) -> int:
        """The columns of the blanks that come next."""
        column = self.column + self.spare
        blanks = self.text[self.at : len(self.text) - len(self.body())]
        return self.spare + len((" " * (column % TAB) + blanks).expandtabs(TAB)) - column % TAB

    def skip(self, columns: int) -> None:
        """Takes blanks of so many columns, or those that there are."""
        while columns and (self.spare or self.text[self.at : self.at + 1] in (" ", "\t")):
            if not self.spare:
                self.spare = TAB - self.column % TAB if self.text[self.at] == "\t" else 1
                self.at += 1
            taken = min(columns, self.spare)
            self.spare, self.column, columns = self.spare - taken, self.column + taken, columns - taken

    def take(self, length: int) -> None:
        """Takes a mark of so many characters after the blanks."""
        self.skip(self.indent())
        self.at, self.column = self.at + length, self.column + length


@dataclasses.dataclass
class Container:
    """A block quote, or an item of a list."""

    offset: int = 0  # of an item, the columns in front of what belongs to it
    is_empty: bool = False  # whether it is an item of which there is nothing but its mark


@dataclasses.dataclass
class Fence:
    line: int
    indent: int
    mark: str
    info: str
    lines: list[str] = dataclasses.field(default_factory=list)
    is_closed: bool = False

    @property
    def end(self) -> int:
        """Its last line."""
        return self.line + len(self.lines) + self.is_closed

    def is_closed_by(self, line: Line) -> bool:
        body = line.body().rstrip(" \t")
        return line.indent() < 4 and len(body) >= len(self.mark) and not body.strip(self.mark[0])


@dataclasses.dataclass
class Html:
    end: re.Pattern[str]


class Paragraph:
    pass


def is_break(body: str) -> bool:
    """Whether it is a line across the page: three marks of one kind or more, and blanks."""
    mark = body[:1]
    return mark in ("*", "_", "-") and body.count(mark) > 2 and not body.strip(mark + " \t")


def quote_begins(line: Line) -> bool:
    """Takes the mark of a block quote, where one comes next."""
    if line.indent() > 3 or not line.body().startswith(">"):
        return False
    line.take(1)
    line.skip(1)
    return True


def item_begins(line: Line, interrupts: bool) -> Container | None:
    """Takes the mark of an item, where one comes next. Few can stand directly after a line of a paragraph."""
    indent, body = line.indent(), line.body()
    found = MARKER.match(body)
    if not found or indent > 3 or is_break(body):
        return None
    is_empty = not body[found.end() :].strip(" \t")
    if interrupts and (is_empty or int(found[1] or 1) != 1):
        return None
    line.take(found.end())
    blanks = line.indent()
    padding = 1 if is_empty or blanks > 4 else blanks
    line.skip(padding)
    return Container(indent + found.end() + padding, is_empty)


def goes_on(container: Container, line: Line) -> bool:
    """Whether the line belongs to a container that is open; what says so is taken from it."""
    if not container.offset:
        return quote_begins(line)
    if line.indent() >= container.offset:
        line.skip(container.offset)
        return True
    is_blank = not line.body()
    line.skip(line.indent() if is_blank else 0)
    return is_blank and not container.is_empty


class Reader:
    """What is open after the lines so far, and the fences that were found."""

    def __init__(self) -> None:
        self.containers: list[Container] = []
        self.leaf: Fence | Html | Paragraph | None = None
        self.fences: list[Fence] = []

    def take(self, number: int, text: str) -> None:
        line, going = Line(text), 0
        while going < len(self.containers) and goes_on(self.containers[going], line):
            going += 1
        is_whole = going == len(self.containers)
        if is_whole and isinstance(self.leaf, Fence):
            self.take_code(self.leaf, line)
        elif is_whole and isinstance(self.leaf, Html):
            self.end_html(line.rest())
        else:
            self.take_new(number, line, going)

    def take_code(self, fence: Fence, line: Line) -> None:
        if fence.is_closed_by(line):
            self.leaf, fence.is_closed = None, True
        else:
            line.skip(fence.indent)
            fence.lines.append(line.rest())

    def end_html(self, text: str) -> None:
        if isinstance(self.leaf, Html) and (self.leaf.end.match(text) if self.leaf.end is BLANK else self.leaf.end.search(text)):
            self.leaf = None

    def take_new(self, number: int, line: Line, going: int) -> None:
        """Takes a line, of which the first `going` containers have taken their marks, for which no fence and no HTML is open."""
        going = self.open_containers(line, going)
        body, is_code = line.body(), line.indent() > 3
        leaf = None if is_code or not body else self.leaf_of(number, line, body, going == len(self.containers))
        is_text = isinstance(leaf, Paragraph) or is_code
        if body and is_text and isinstance(self.leaf, Paragraph):
            return  # the paragraph goes on, also where containers do not
        self.close(going)
        self.leaf = leaf
        if body:
            self.fill()
        if isinstance(leaf, Html):
            self.end_html(line.rest())

    def open_containers(self, line: Line, going: int) -> int:
        """Opens the containers that begin next, and tells how many are open now of which the line is a part."""
        while going < MOST_LEVELS and (container := self.container_of(line, going)):
            self.close(going)
            self.leaf = None
            self.fill()
            self.containers.append(container)
            going += 1
        return going

    def container_of(self, line: Line, going: int) -> Container | None:
        if quote_begins(line):
            return Container()
        is_heading = isinstance(self.leaf, Paragraph) and going == len(self.containers)
        if is_heading and line.indent() < 4 and UNDERLINE.fullmatch(line.body()):
            return None
        return item_begins(line, is_heading)

    def leaf_of(self, number: int, line: Line, body: str, is_whole: bool) -> Fence | Html | Paragraph | None:
        """What the text of a line begins, that is no code by its indentation; none for a heading or a break, which end with it."""
        if found := FENCE.fullmatch(body):
            fence = Fence(number, line.indent(), found[1] or found[3], (found[2] or found[4] or "").strip(" \t"))
            self.fences.append(fence)
            return fence
        for begin, end in HTML:
            if begin.match(body):
                return Html(end)
        is_open = isinstance(self.leaf, Paragraph)
        if not is_open and TAG.fullmatch(body):
            return Html(BLANK)
        is_underline = is_open and is_whole and UNDERLINE.fullmatch(body)
        return None if is_underline or HEADING.fullmatch(body) or is_break(body) else Paragraph()

    def close(self, going: int) -> None:
        """Closes the containers after the first ones, and what is open in them."""
        if going < len(self.containers):
            del self.containers[going:]
            self.leaf = None

    def fill(self) -> None:
        if self.containers:
            self.containers[-1].is_empty = False


def lines_of(text: str) -> list[str]:
    """The lines of a text, without their ends, whichever these are."""
    return text.replace("\r\n", "\n").replace("\r", "\n").removesuffix("\n").split("\n")


def fences_of(text: str) -> list[Fence]:
    reader = Reader()
    for number, line in enumerate(lines_of(text), 1):
        reader.take(number, line)
    return reader.fences
