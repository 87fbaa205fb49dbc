"""The fenced blocks of a CommonMark text, also those in block quotes and in items of lists, as markdown-it finds them."""
import dataclasses
import re
from typing import Any, Dict, List, Sequence, Tuple

from .info import LITERAL, Info, ignored, info_of, is_evaluated, options_in
from .troubles import needed

LINE = re.compile(r"[^\r\n]*(?:\r\n|\r|\n)|[^\r\n]+\Z")
FENCE = "fence"


def cut(line: str) -> Tuple[str, str]:
    """A line and its end."""
    content = line.rstrip("\r\n")
    return content, line[len(content) :]


@dataclasses.dataclass(frozen=True)
class Block:
    """A fence. `begin` and `end` are lines of the text, from 0: that of its mark, and the one after it."""

    begin: int
    end: int
    mark: str
    info: Info
    info_text: str
    content: Tuple[str, ...]
    before_end: str  # what stands in front of the mark that closes it: marks of quotes and blanks, where it is closed
    is_in_container: bool

    @property
    def is_closed(self) -> bool:
        return self.end - self.begin == len(self.content) + 2 and not self.before_end.strip(" \t>")

    @property
    def is_evaluated(self) -> bool:
        return is_evaluated(self.info.options, self.content) and not self.info.flags([LITERAL])

    @property
    def options(self) -> Dict[str, str]:
        """Those at the fence, and those in remarks in front of its code, which come before the others."""
        return {**self.info.options, **options_in(self.content)}

    @property
    def ignored(self) -> List[str]:
        """The options of knitr and Quarto that are. What else has a value at a fence that is no chunk is something else."""
        return ignored(self.options if self.info.is_chunk else options_in(self.content))


def tokens_of(lines: Sequence[str]) -> List[Any]:
    """What markdown-it finds in lines without their ends."""
    parser = needed("markdown_it", "python3-markdown-it").MarkdownIt("commonmark").disable("inline")
    # A parser makes another character of a NUL. Here it becomes a control character, which no field can hold either.
    tokens: List[Any] = parser.parse("".join(line + "\n" for line in lines).replace("\0", "\1"))
    return tokens


def block_of(token: Any, lines: Sequence[str], first: int) -> Block:
    """The fence of a token. The first line that was parsed is the line `first` of the text, and `lines` are those from there on."""
    begin, end = token.map
    closing = lines[end - 1].rstrip(" \t")
    info = token.info.strip()
    content = tuple(token.content.split("\n")[:-1])
    return Block(begin + first, end + first, token.markup, info_of(info), info, content, closing.rstrip(token.markup[0]), token.level > 0)


def blocks_of(lines: Sequence[str], first: int = 0) -> List[Block]:
    """The fences of a text, from its line `first` on."""
    body = lines[first:]
    return [block_of(token, body, first) for token in tokens_of(body) if token.type == FENCE]
