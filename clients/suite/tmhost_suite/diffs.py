"""What differs between a wanted answer and one that came: lines that are alike by the rules are shown as one."""
import difflib
from typing import List, Optional, Sequence, Tuple

from .rules import ANY_LINES, Rules, line_matches

CONTEXT = 2  # lines
MOST = 40_000  # comparisons; of longer texts each line goes with the one at its place

Line = Tuple[str, str]  # as it is shown, and as it is compared


def diff(wanted: Optional[str], came: str, rules: Rules, what: str) -> List[str]:
    """A unified diff, with two lines of head. `what` stands after the names of the texts."""
    lines, others = lines_of(wanted or "", came, rules)
    one = joined(lines, others, rules) if wanted is not None else []
    other = [shown for shown, _ in others] if came or not what else []
    return list(difflib.unified_diff(one, other, f"wanted{what}", f"came{what}", lineterm="", n=CONTEXT))


def lines_of(wanted: str, came: str, rules: Rules) -> Tuple[List[Line], List[Line]]:
    """The lines of both. Where the rules made other lines of them, those are shown."""
    as_they_are = rules.laid_out(wanted, came)
    compared = rules.laid_out(rules.normalised(wanted, set()), rules.normalised(came, set()))
    shown = as_they_are if list(map(len, as_they_are)) == list(map(len, compared)) else compared
    lines, others = (list(zip(*pair)) for pair in zip(shown, compared))
    return lines, others


def joined(lines: List[Line], others: List[Line], rules: Rules) -> List[str]:
    """The wanted lines, and in place of those that go with what came, what they go with. What stands before the first `...`, and after the
    last one, belongs to the beginning and to the end of what came."""
    gaps = [at for at, (_, compared) in enumerate(lines) if compared == ANY_LINES]
    if not gaps or gaps[0] + len(lines) - gaps[-1] - 1 > len(others):
        return stretch(lines, others, rules)
    last = len(others) - (len(lines) - gaps[-1] - 1)
    parts = ((lines[: gaps[0]], others[: gaps[0]]), (lines[gaps[0] : gaps[-1] + 1], others[gaps[0] : last]), (lines[gaps[-1] + 1 :], others[last:]))
    return [line for part in parts for line in stretch(*part, rules)]


def stretch(lines: List[Line], others: List[Line], rules: Rules) -> List[str]:
    first = ends_alike(lines, others, rules)
    last = ends_alike(lines[first:][::-1], others[first:][::-1], rules)
    middle, came = lines[first : len(lines) - last], others[first : len(others) - last]
    found = middle_of(middle, came, rules) if len(middle) * len(came) <= MOST else line_by_line(middle, came, rules)
    return [shown for shown, _ in others[:first]] + found + [shown for shown, _ in others[len(others) - last :]]


def ends_alike(lines: Sequence[Line], others: Sequence[Line], rules: Rules) -> int:
    """How many lines at the beginning go with each other, one with one."""
    count = 0
    for (_, wanted), (_, came) in zip(lines, others):
        if wanted == ANY_LINES or not line_matches(wanted, came, rules):
            break
        count += 1
    return count


def middle_of(lines: List[Line], others: List[Line], rules: Rules) -> List[str]:
    """The same by the way that leaves the fewest lines alone."""
    alike = [[wanted != ANY_LINES and line_matches(wanted, came, rules) for _, came in others] for _, wanted in lines]
    lonely = [[0] * (len(others) + 1) for _ in range(len(lines) + 1)]  # from these places on
    for at in range(len(lines), -1, -1):
        for other in range(len(others), -1, -1):
            is_any = at < len(lines) and lines[at][1] == ANY_LINES
            ways = [lonely[at + 1][other] + (not is_any)] if at < len(lines) else []
            ways += [lonely[at][other + 1] + (not is_any)] if other < len(others) else []
            ways += [lonely[at + 1][other + 1]] if at < len(lines) and other < len(others) and alike[at][other] else []
            lonely[at][other] = min(ways, default=0)
    return way_through(lines, others, alike, lonely)


def line_by_line(lines: List[Line], others: List[Line], rules: Rules) -> List[str]:
    """The same where each line is compared with that at its place."""
    at_places = [*others[: len(lines)], *[None] * (len(lines) - len(others))]
    return [other[0] if other and line_matches(wanted, other[1], rules) else shown for (shown, wanted), other in zip(lines, at_places)]


def way_through(lines: List[Line], others: List[Line], alike: List[List[bool]], lonely: List[List[int]]) -> List[str]:
    found: List[str] = []
    at = other = 0
    while at < len(lines):
        is_any, left = lines[at][1] == ANY_LINES, lonely[at][other]
        if other < len(others) and alike[at][other] and left == lonely[at + 1][other + 1]:
            found.append(others[other][0])
            at, other = at + 1, other + 1
        elif other < len(others) and left == lonely[at][other + 1] + (not is_any):
            found += [others[other][0]] if is_any else []
            other += 1
        else:
            found += [] if is_any else [lines[at][0]]
            at += 1
    return found
