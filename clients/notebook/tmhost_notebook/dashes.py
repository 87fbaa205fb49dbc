"""How many dashes the lines of an SVG have at most. A browser draws each, so a short line whose dashes are tiny takes it as long as many elements."""

import math
import re
from typing import Dict, List

NUMBER = re.compile(r"[-+]?(?:\d+\.?\d*|\.\d+)(?:[eE][-+]?\d+)?")
IN_STYLE = re.compile(r"stroke-dasharray\s*:([^;}]*)", re.IGNORECASE)
SIZES = re.compile(r"font(?:-size)?\s*:([^;}]*)", re.IGNORECASE)
OF_SHAPES = frozenset("x1 x2 y1 y2 width height r rx ry".split())
FONT = 16.0
MOST = 10**12
OUTLINE = 20  # of a letter, as many times as it is high


def numbers(text: str) -> List[float]:
    return [float(number) for number in NUMBER.findall(text)]


def along(values: List[float]) -> float:
    """The length of a line through these points."""
    return sum(abs(two - one) for one, two in zip(values, values[2:]))


def length_of(path: str) -> float:
    """A bound of the length of a path. No curve is longer than the line through its points."""
    values = numbers(path)
    total = sum(abs(one) for one in values)
    letters = set(re.sub(r"[eE](?=[-+\d])", "", path)) & set("MLHVCSQTAZmlhvcsqtaz")
    if letters <= set("MLCQSTZz"):
        return 4 * along(values)
    return 2 * total if letters <= set("mlhvcsqtz") else 8 * total * len(values)


def may_have_dashes(text: str) -> bool:
    """Whether an SVG may name them, perhaps by the numbers of characters."""
    return "&#" in text or "dasharray" in text.lower()


def period_in(value: str) -> float:
    """The length after which dashes begin again; without an end where there are none, and below 0 where it isn't known."""
    if "(" in value:
        return -1.0
    return sum(abs(one) for one in numbers(value)) or math.inf


class Dashes:
    """`everywhere` is the shortest period of a style sheet, and of what draws other elements again, which have its dashes then."""

    def __init__(self) -> None:
        self.everywhere = math.inf
        self.opened = [math.inf]  # the period of each element that is open
        self.periods: Dict[int, float] = {}  # of elements, by their numbers
        self.lengths: Dict[int, float] = {}
        self.font = FONT

    def begin(self, element: int, name: str, attributes: Dict[str, str]) -> bool:
        """Takes an element; false where it isn't known what it means."""
        self.opened.append(self.opened[-1])
        is_reported = all([self.attribute(element, *one) for one in attributes.items()])
        self.periods[element] = self.opened[-1]
        if name == "use":
            self.everywhere = min(self.everywhere, self.opened[-1])
        return is_reported

    def end(self) -> None:
        self.opened.pop()

    def attribute(self, element: int, name: str, value: str) -> bool:
        if name == "stroke-dasharray" or name == "style":
            period = period_in(value) if name == "stroke-dasharray" else self.style(value)
            self.opened[-1] = self.opened[-1] if period == math.inf else period
            return period >= 0
        if name == "font-size":
            self.take_font(value)
        length = length_of(value) if name == "d" else along(numbers(value)) * 2 if name == "points" else 0.0
        if name in OF_SHAPES or name == "pathLength":
            length = 8 * sum(abs(one) for one in numbers(value))
        self.lengths[element] = self.lengths.get(element, 0.0) + length
        return name != "vector-effect"

    def style(self, text: str) -> float:
        """The shortest period in a style; none below 0 where it isn't known."""
        for found in SIZES.findall(text):
            self.take_font(found)
        return -1.0 if "vector-effect" in text.lower() else min(map(period_in, IN_STYLE.findall(text)), default=math.inf)

    def sheet(self, text: str) -> bool:
        period = self.style(text)
        self.everywhere = min(self.everywhere, period)
        return period >= 0

    def take_font(self, text: str) -> None:
        self.font = max(self.font, *(abs(one) for one in numbers(text)), 0.0)

    def letters(self, element: int, count: int) -> None:
        self.lengths[element] = self.lengths.get(element, 0.0) + OUTLINE * count * self.font

    def of(self, element: int) -> int:
        """How many dashes an element may have."""
        period = min(self.everywhere, self.periods.get(element, math.inf))
        return int(min(self.lengths.get(element, 0.0) / period, MOST))
