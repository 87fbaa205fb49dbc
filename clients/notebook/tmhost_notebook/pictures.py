"""Which blocks of an answer are pictures that the page may draw: blocks with one text, whose format is a MIME type, and whose bytes were looked at.

A browser runs no script of a picture in an `img`, and loads nothing for it; but one may be made so that it takes minutes to draw. So a PNG or JPEG
has so many dots at most, and an SVG is of elements that draw at once: no scripts, filters, animations or pages in it, and references draw
only so many elements again. Each dash of a line counts as an element.

Such a picture may still take a second or more, as one of 120,000 circles through which others are seen. So of an answer only some are drawn at once,
and the page asks before it draws the others.
"""

import base64
import binascii
import bisect
import itertools
import re
from typing import Dict, Iterable, List, NamedTuple, Optional, Tuple
from xml.parsers import expat

from tmhost import Block, readable

from .dashes import Dashes, may_have_dashes

LONGEST = 8_000_000  # characters of the pictures of an answer, and of one
LONGEST_SVG = 4_000_000
MOST_DOTS = 25_000_000
MOST_ELEMENTS = 300_000  # with those that references draw again, and dashes
MOST_IMAGES = 100  # within an SVG
DEEPEST = 64  # elements in one another
DEEPEST_REFERENCE = 8  # what refers to what refers ..

# What an answer may have of each, to be drawn unasked.
ELEMENTS_AT_ONCE = 10_000  # with those that references draw again
DASHES_AT_ONCE = 200_000
CHARACTERS_AT_ONCE = 1_000_000  # of an SVG
DOTS_AT_ONCE = 100_000_000

ELEMENTS = frozenset(
    "svg g defs symbol use path rect circle ellipse line polyline polygon text tspan textPath image clipPath mask pattern marker "
    "linearGradient radialGradient stop style title desc metadata a switch "
    "filter feFlood feComposite".split()  # gnuplot defines one; none is used, since nothing may refer to it by `filter`
)
SVG, XLINK = "http://www.w3.org/2000/svg", "http://www.w3.org/1999/xlink"
UNDRAWN = ("title", "desc", "metadata")  # what stands in these isn't drawn
REFERENCE = re.compile(r"url\s*\(\s*[\"']?#([^)\"'\s]+)[\"']?\s*\)", re.IGNORECASE)
UNWANTED = re.compile(r"[\\@]|url\s*\(|filter|animation|transition|image-set|element\s*\(", re.IGNORECASE)  # in a style
IMAGE = re.compile(r"data:image/(?:png|jpe?g);base64,(.*)", re.DOTALL)


class Picture(NamedTuple):
    address: str  # which has all of it
    about: str
    weight: float  # as a part of what an answer has drawn at once
    is_heavy: bool = False  # it is drawn when a user asks for it


class NotDrawn(Exception):
    """It is no picture, or one that isn't drawn."""


def dots_of_png(data: bytes) -> Tuple[int, int]:
    if data[:8] != b"\x89PNG\r\n\x1a\n" or data[12:16] != b"IHDR" or len(data) < 33:
        raise NotDrawn
    return int.from_bytes(data[16:20], "big"), int.from_bytes(data[20:24], "big")


def dots_of_jpeg(data: bytes) -> Tuple[int, int]:
    """By its frame's head, which comes after others."""
    if data[:3] != b"\xff\xd8\xff":
        raise NotDrawn
    at = 2
    while data[at : at + 1] == b"\xff" and len(data) > at + 9:
        kind, length = data[at + 1], int.from_bytes(data[at + 2 : at + 4], "big")
        if 0xC0 <= kind <= 0xCF and kind not in (0xC4, 0xC8, 0xCC):
            return int.from_bytes(data[at + 7 : at + 9], "big"), int.from_bytes(data[at + 5 : at + 7], "big")
        at += 2 + max(2, length)
    raise NotDrawn


def of_dots(data: bytes) -> Tuple[int, int]:
    """The width and height of a PNG or JPEG that has dots, and not too many."""
    width, height = dots_of_png(data) if data[:1] == b"\x89" else dots_of_jpeg(data)
    if not 0 < width * height <= MOST_DOTS:
        raise NotDrawn
    return width, height


def decoded(text: str) -> bytes:
    try:
        return base64.b64decode("".join(text.split()), validate=True)
    except (binascii.Error, ValueError):
        raise NotDrawn from None


class Drawing:
    """An SVG as it is read: its elements in their order, the places of those with a name, and who refers to which name."""

    def __init__(self, text: str) -> None:
        self.count = self.images = self.undrawn = 0
        self.opened: List[Tuple[str, str, int]] = []  # the elements that are open: what each is, its name, and its number
        self.named: Dict[str, List[Tuple[int, int]]] = {}  # the numbers of an element and of the one after all that is in it
        self.references: List[Tuple[int, str]] = []
        self.style = ""
        self.dashes = Dashes() if may_have_dashes(text) else None
        reader = expat.ParserCreate("utf-8", " ")
        reader.buffer_text = True
        reader.StartElementHandler, reader.EndElementHandler, reader.CharacterDataHandler = self.begin, self.end, self.characters
        reader.EntityDeclHandler = reader.ProcessingInstructionHandler = refuse
        reader.XmlDeclHandler = lambda version, encoding, standalone: refuse() if (encoding or "utf-8").lower() != "utf-8" else None
        reader.StartDoctypeDeclHandler = lambda name, system, public, has_own: refuse() if has_own else None
        try:
            reader.Parse(text.encode(), True)
        except (expat.ExpatError, UnicodeEncodeError):
            raise NotDrawn from None
        self.look_at_style(self.style)
        if self.dashes and not self.dashes.sheet(self.style):
            raise NotDrawn
        self.look_at_references()

    def begin(self, name: str, attributes: Dict[str, str]) -> None:
        place, _, local = name.rpartition(" ")
        self.count += 1
        is_fine = place != SVG if self.undrawn else place == SVG and local in ELEMENTS
        if not is_fine or len(self.opened) >= DEEPEST or self.count > MOST_ELEMENTS or (not self.opened and local != "svg"):
            raise NotDrawn
        self.opened.append((name, attributes.get("id", ""), self.count))
        if not self.undrawn:
            for key, value in attributes.items():
                self.attribute(local, key, value)
        if self.dashes and not self.dashes.begin(self.count, local, {} if self.undrawn else attributes):
            raise NotDrawn
        self.undrawn += bool(self.undrawn) or local in UNDRAWN

    def attribute(self, element: str, name: str, value: str) -> None:
        if name in ("href", f"{XLINK} href"):
            if element == "image":
                self.image(value)
            elif value.startswith("#"):
                self.references.append((self.count, value[1:]))
            elif element != "a":  # whose link can't be used in a picture
                raise NotDrawn
            return
        self.references += [(self.count, found) for found in REFERENCE.findall(value)]
        value = REFERENCE.sub("", value)
        if name == "style":
            self.look_at_style(value)
        elif name == "filter" or name.startswith("on") or "\\" in value or "url" in value.lower():
            raise NotDrawn

    def image(self, address: str) -> None:
        found = IMAGE.fullmatch(address)
        self.images += 1
        if not found or self.images > MOST_IMAGES:
            raise NotDrawn
        of_dots(decoded(found[1]))

    def end(self, name: str) -> None:
        _, own, number = self.opened.pop()
        if self.dashes:
            self.dashes.end()
        self.undrawn -= bool(self.undrawn)
        if own:
            self.named.setdefault(own, []).append((number, self.count + 1))

    def characters(self, text: str) -> None:
        if self.opened[-1][0] == f"{SVG} style":
            self.style += text
        elif self.dashes and not self.undrawn and text.strip():
            self.dashes.letters(self.opened[-1][2], len(text))

    def look_at_style(self, style: str) -> None:
        if UNWANTED.search(style):
            raise NotDrawn

    def look_at_references(self) -> None:
        """What is drawn with all that is drawn again, references within what is referred to among it, has so many elements at most."""
        self.references.sort()
        self.elements = self.drawn(itertools.repeat(1, self.count))
        dashes = (self.dashes.of(number) for number in range(1, self.count + 1)) if self.dashes else None
        self.dashes_drawn = self.drawn(dashes) if dashes else 0
        if self.elements + self.dashes_drawn > MOST_ELEMENTS:
            raise NotDrawn

    def drawn(self, each: Iterable[int]) -> int:
        """How much is drawn where each element has so much."""
        self.costs = list(itertools.accumulate(each, initial=0))
        self.weights: Dict[Tuple[int, int], int] = {}
        return self.costs[-1] + self.weight(0, self.count + 1, 0)

    def weight(self, begin: int, end: int, depth: int) -> int:
        """How many elements the references in a range of elements draw again."""
        if depth > DEEPEST_REFERENCE:
            raise NotDrawn
        drawn = 0
        for at in range(bisect.bisect_left(self.references, (begin, "")), bisect.bisect_left(self.references, (end, ""))):
            for target in self.named.get(self.references[at][1], ()):
                if target not in self.weights:
                    self.weights[target] = self.costs[target[1] - 1] - self.costs[target[0] - 1] + self.weight(*target, depth + 1)
                drawn += self.weights[target]
        return drawn


def refuse(*reported: object) -> None:
    raise NotDrawn


def of_svg(text: str) -> Picture:
    if len(text) > LONGEST_SVG:
        raise NotDrawn
    drawing = Drawing(text)
    weight = drawing.elements / ELEMENTS_AT_ONCE + drawing.dashes_drawn / DASHES_AT_ONCE + len(text) / CHARACTERS_AT_ONCE
    return Picture("data:image/svg+xml;base64," + base64.b64encode(text.encode()).decode(), f"SVG, {len(text.encode()):,} bytes", weight)


def of_base64(kind: str, text: str) -> Picture:
    data = decoded(text)
    if (kind == "png") != (data[:1] == b"\x89"):
        raise NotDrawn
    return of_bytes(data)


def of_bytes(data: bytes) -> Picture:
    """The picture that a PNG or JPEG is."""
    kind = "png" if data[:1] == b"\x89" else "jpeg"
    width, height = of_dots(data)
    address = f"data:image/{kind};base64," + base64.b64encode(data).decode()
    return Picture(address, f"{kind.upper()}, {width} by {height}, {len(data):,} bytes", width * height / DOTS_AT_ONCE)


def picture_of(block: Block) -> Optional[Picture]:
    """The picture that a block is; None where it is none, or one that isn't drawn."""
    [text] = block.items if len(block.items) == 1 else [b""]
    tag = readable(block.tag)
    if block.kind != "format" or not tag.startswith("image/") or not isinstance(text, str) or len(text) > LONGEST:
        return None
    try:
        if tag == "image/svg+xml":
            return of_svg(text)
        return of_base64(tag[6:-7], text) if tag in ("image/png;base64", "image/jpeg;base64") else None
    except NotDrawn:
        return None


def pictures_in(block: Block) -> Dict[int, Picture]:
    """The pictures in a block, by the identity of theirs. Those after what is drawn at once are heavy."""
    found: Dict[int, Picture] = {}
    left, at_once, open_blocks = LONGEST, 1.0, [block]
    while open_blocks:
        one = open_blocks.pop()
        picture = picture_of(one)
        if picture is not None and len(picture.address) <= left:
            left -= len(picture.address)
            is_heavy = picture.weight > at_once
            at_once -= 0 if is_heavy else picture.weight
            found[id(one)] = picture._replace(is_heavy=is_heavy)
        else:
            open_blocks += [item for item in reversed(one.items) if isinstance(item, Block)]
    return found
