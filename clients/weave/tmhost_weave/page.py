"""A page of a woven text that stands alone: its prose, code, answers, pictures and formulas, of what the worksheet has already."""
import base64
import html
import os
import re
import urllib.parse
from typing import Any, Dict, Iterator, List, Mapping, Optional, Sequence, Tuple

from tmhost_fences.blocks import FENCE, Block, block_of, cut
from tmhost_fences.info import NO, REMARK
from tmhost_fences.troubles import Trouble, needed

from .answers import ERROR, FORMULA, NO_ANSWER, PICTURE, Piece, Shown
from .document import Document
from .dollars import DISPLAY, TEX, add_to
from .figures import STYLE as WIDTH_OF, WITH_TEXT, add_figures
from .files import Stamp, read, stamp_of
from .headings import add_names, first_heading, text_of
from .links import ELSEWHERE, lead_to_pages
from .matter import Matter
from .setting import Formula, typeset
from .style import FOOT, HEAD, STYLE

FORMATS = {"gif": "gif", "jpeg": "jpeg", "jpg": "jpeg", "png": "png", "svg": "svg+xml", "webp": "webp"}  # of pictures, by how their files' names end
NOT_SEEN = re.compile("[\x00-\x08\x0b\x0c\x0e-\x1f\x7f\ud800-\udfff]")

NO_PAGES: Mapping[str, str] = {}


def is_codeless(options: Mapping[str, str], is_so_by_default: bool) -> bool:
    """Whether the author wants no code in a page: by `echo` and `include` of knitr and Quarto."""
    said = options.get("echo", "").lower()
    return options.get("include", "").lower() in NO or (said in NO if said else is_so_by_default)


def code_of(block: Block, is_of_session: bool) -> List[str]:
    """The lines of a fence that a page shows: without the options in remarks in front of them, where they are such."""
    lines = list(block.content)
    while lines and (is_of_session or block.info.is_chunk) and REMARK.match(lines[0]):
        del lines[0]
    return lines


def address_of(data: bytes, format: str) -> str:
    return f"data:image/{format};base64,{base64.b64encode(data).decode('ascii')}"


def formulas_in(tokens: Sequence[Any], lines: Sequence[str] = (), begin: int = 0, end: int = 0) -> Iterator[Tuple[Formula, int]]:
    """The formulas of tokens of these lines, each with the one, from 0, in which it begins. Of a paragraph these are those from `begin` up to `end`."""
    for token in tokens:
        begin, end = token.map or (begin, end)
        if token.type == TEX:
            formula = formula_of(token)
            first = formula[0].split("\n", 1)[0]
            begin = next((at for at in range(begin, min(end, len(lines))) if first in lines[at]), begin)
            yield formula, begin
        yield from formulas_in(token.children or (), lines, begin, end)


def formula_of(token: Any) -> Formula:
    return token.markup + token.content + token.markup, token.markup == DISPLAY


class Page:
    """`shown` is what stands after each fence of the document, `pictures` the data of those that it shows, by the names of their files. Pictures of the prose are
    sought from a folder on. `pages` are the names of pages of the same call, by the paths of their texts. `counts` says how many lines of answers stand after each
    fence in the file of the text, whose lines are named. `reported` is what is to be said of the page, `is_whole` whether all is in it, and `has_unset` whether a
    formula can't be set."""

    def __init__(
        self, document: Document, shown: Sequence[Shown], pictures: Mapping[str, bytes], matter: Matter, folder: str, pages: Mapping[str, str] = NO_PAGES,
        counts: Sequence[int] = (),
    ) -> None:
        bare = Document(document.bare)
        self._answered_at = [(fence.end, count) for fence, count in zip(bare.fences, counts)]
        self.shown: Dict[int, Shown] = {fence.begin: one for fence, one in zip(bare.fences, shown)}
        self.first, self.matter, self.pictures, self.folder = matter.lines, matter, pictures, folder
        self.lines = [cut(line)[0] for line in bare.lines[self.first :]]
        self.reported: List[str] = []
        self.files: Dict[str, Stamp] = {}  # pictures of the prose, each as it was before it was read
        self.is_whole = True
        self._env: Dict[str, Any] = {}
        self._parser, self._tokens = self._parsed()
        self._title = self._title_of(matter.title)
        add_names(self._tokens)
        add_figures(self._tokens)
        lead_to_pages(self._title, folder, pages)
        lead_to_pages(self._tokens, folder, pages)
        lines: Dict[Formula, int] = {}
        for formula, line in [*((one, self.first + at) for one, at in formulas_in(self._tokens, self.lines)), *self._answered()]:
            lines[formula] = min(line, lines.get(formula, line))
        self._formulas = typeset([*(one for one, _ in formulas_in(self._title)), *lines])
        told = [self._told(said, lines.get(one)) for one, said in self._formulas.unset.items()]
        self.reported += [said for _, said in sorted(told, key=lambda one: one[0])]
        self.reported += self._formulas.reported
        self.is_whole &= self._formulas.is_set
        self.has_unset = bool(self._formulas.unset)

    def _parsed(self) -> Tuple[Any, List[Any]]:
        """The text as its readers expect it, with tables and formulas. Where that hides a fence of a session, as CommonMark alone."""
        text = "".join(line + "\n" for line in self.lines)
        for is_extended in (True, False):
            parser = needed("markdown_it", "python3-markdown-it").MarkdownIt("commonmark")
            if is_extended:
                parser.enable(["table", "strikethrough"])
                add_to(parser)
            self._env = {}
            tokens = parser.parse(text, self._env)
            if set(self.shown) <= {token.map[0] + self.first for token in tokens if token.type == FENCE}:
                parser.renderer.rules.update({FENCE: self._fence, TEX: self._tex, "image": self._image})
                return parser, tokens
        raise Trouble("a fence is not found again, so there is no page")

    def _title_of(self, title: str) -> List[Any]:
        """A title, in which what looks like HTML is text."""
        has_html, self._parser.options["html"] = self._parser.options["html"], False
        found: List[Any] = self._parser.parseInline(title, self._env)
        self._parser.options["html"] = has_html
        return found

    def _rendered(self, tokens: List[Any]) -> str:
        return str(self._parser.renderer.render(tokens, self._parser.options, self._env))

    def _answered(self) -> Iterator[Tuple[Formula, int]]:
        """The formulas of the answers, each with the line of its fence."""
        return (((piece.text, True), begin) for begin, one in self.shown.items() for piece in one.pieces if piece.kind == FORMULA)

    def _told(self, text: str, line: Optional[int]) -> Tuple[int, str]:
        """What is said of a line of the text without answers, from 0, after its number in the file, which comes first; of the title none is known."""
        if line is None:
            return 0, text
        number = 1 + line + sum(count for end, count in self._answered_at if end <= line)
        return number, f"line {number}: {text}"

    def html(self, name: str) -> bytes:
        """The page, for a text of this name."""
        body = self._head() + self._rendered(self._tokens)
        title = text_of(self._title[0].children) or first_heading(self._tokens) or name
        head = HEAD.format(language=self.matter.language, title=html.escape(title), styles=STYLE + self._formulas.styles)
        return NOT_SEEN.sub("\ufffd", head + body + FOOT).encode("utf-8")

    def _head(self) -> str:
        """What the front matter says of the text."""
        title = self._rendered(self._title)
        rest = (("subtitle", self.matter.subtitle), ("author", ", ".join(self.matter.authors)), ("date", self.matter.date))
        lines = [f"<h1>{title}</h1>"] * bool(title) + [f'<p class="{name}">{html.escape(text)}</p>' for name, text in rest if text]
        return '<header class="title">\n' + "\n".join(lines) + "\n</header>\n" if lines else ""

    # ---- rules of the parser, which make HTML of a token

    def _fence(self, tokens: List[Any], at: int, options: Any, env: Any) -> str:
        block = block_of(tokens[at], self.lines, self.first)
        shown = self.shown.get(block.begin)
        is_hidden = is_codeless(block.options, self.matter.hides_code and (shown is not None or block.info.is_chunk))
        code = "\n".join(code_of(block, shown is not None))
        language = f' class="language-{html.escape(block.info.name)}"' if block.info.name else ""
        written = f'<pre class="{"in" if shown else "text"}" dir="ltr"><code{language}>{html.escape(code)}</code></pre>\n'
        parts = [written] if code.strip() and not is_hidden else []
        parts += self._answer(shown) if shown else []
        return '<div class="cell">\n' + "".join(parts) + "</div>\n" if shown and parts else "".join(parts)

    def _answer(self, shown: Shown) -> List[str]:
        pieces = [self._piece(piece) for piece in shown.pieces]
        return ["<details><summary>Answer</summary>\n", *pieces, "</details>\n"] if shown.is_folded and pieces else pieces

    def _piece(self, piece: Piece) -> str:
        if piece.kind == FORMULA:
            return f'<div class="out">{self._formulas.set[piece.text, True]}</div>\n'
        if piece.kind == PICTURE:
            name = urllib.parse.unquote(piece.text).rsplit("/", 1)[-1]
            return f'<div class="out"><img src="{address_of(self.pictures[name], FORMATS[name.rsplit(".", 1)[-1]])}" alt=""></div>\n'
        if piece.kind == NO_ANSWER:
            return f'<p class="none">{html.escape(piece.text)}</p>\n'
        kind = "out error" if piece.kind == ERROR else "out"
        return f'<pre class="{kind}" dir="ltr">{html.escape(piece.text)}</pre>\n'

    def _tex(self, tokens: List[Any], at: int, options: Any, env: Any) -> str:
        formula = formula_of(tokens[at])
        found = self._formulas.set[formula]
        return found.replace('class="tex"', 'class="tex display"', 1) + "\n" * bool(tokens[at].block) if formula[1] else found

    def _image(self, tokens: List[Any], at: int, options: Any, env: Any) -> str:
        token = tokens[at]
        address, alt = str(token.attrGet("src") or ""), text_of(token.children or [])
        title = token.attrGet("title")
        found = address if address.startswith("data:") else self._file_at(address)
        if found is None:
            return f'<a href="{html.escape(address)}">{html.escape(alt or address)}</a>'
        rest = "".join(f' {name}="{html.escape(str(value))}"' for name, value in (("title", title), ("style", token.meta.get(WIDTH_OF))) if value)
        text = f"\n<figcaption>{self._parser.renderer.renderInline(token.children, options, env)}</figcaption>" if WITH_TEXT in token.meta else ""
        return f'<img src="{html.escape(found)}" alt="{html.escape(alt)}"{rest}>{text}'

    def _file_at(self, address: str) -> Optional[str]:
        """The data of a picture of the prose; None where it isn't put into the page, which is said."""
        path = urllib.parse.unquote(address)
        format = FORMATS.get(path.rsplit(".", 1)[-1].lower())
        if ELSEWHERE.match(address):
            self._say(f"the picture {path} isn't in the page, since it is elsewhere: there is a link to it")
            return None
        try:
            file = os.path.join(self.folder, path)
            self.files[file] = stamp_of(file)
            if format and not os.path.isdir(file):
                return address_of(read(file), format)
            why = f"it is none of {', '.join(FORMATS)}"
        except (OSError, ValueError, Trouble) as error:
            why = getattr(error, "strerror", None) or str(error)
        self._say(f"the picture {path} isn't in the page: {why}")
        self.is_whole = False
        return None

    def _say(self, text: str) -> None:
        self.reported += [text] if text not in self.reported else []
